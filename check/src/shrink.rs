//! The shortest session that still differs.

use crate::make::Session;

/// Drops bodies one by one, from the last, while the session still differs, until none can be
/// dropped. Arrival numbers in later bodies are not adjusted: if they matter the body stays.
pub fn shrink(mut session: Session, differs: &mut dyn FnMut(&Session) -> bool) -> Session {
    loop {
        let before = session.len();
        for at in (0..session.len()).rev() {
            let body = session.remove(at);
            if !differs(&session) {
                session.insert(at, body);
            }
        }
        if session.len() == before {
            return session;
        }
    }
}
