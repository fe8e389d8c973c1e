//! One file, played by the proved library and by the literal rules.

use crate::file::{read, Bad, Call};
use crate::library::Library;
use crate::{listing, program, reckoner};

/// What the two of them say, where they differ, or what the reckoner finds wrong with the tape.
#[derive(Debug)]
pub struct Difference {
    pub what: String,
    pub library: String,
    pub rules: String,
    /// What the reckoner says of each of the two, if the file is lawful: it tells which is wrong.
    pub reckoner: String,
}

fn text(bytes: &[u8]) -> String {
    String::from_utf8_lossy(bytes).into_owned()
}

fn bad_line(bad: Bad) -> String {
    format!("BAD {} {} {}\n", bad.number, bad.index, bad.place)
}

fn judged(name: &str, calls: &[Call], listing: &[u8]) -> String {
    match reckoner::judge(calls, listing) {
        Ok(()) => format!("no fault in the listing of {name}\n"),
        Err(fault) => format!("the listing of {name}: {fault}\n"),
    }
}

/// Compares listing or number, byte for byte, and has the reckoner judge the library's listing.
pub fn compare(file: &[u8], library: &mut Library) -> Result<Result<Vec<u8>, Bad>, Box<Difference>> {
    let rules = listing::play(file);
    let played = library.play(file);
    let said = match &played {
        Err(fault) => fault.clone(),
        Ok(Err(number)) => format!("refused by {number}\n"),
        Ok(Ok(listing)) => text(listing),
    };
    let ours = || match &rules {
        Err(bad) => bad_line(*bad),
        Ok(listing) => text(listing),
    };
    let equal = match (&played, &rules) {
        (Ok(Ok(theirs)), Ok(ours)) => theirs == ours,
        (Ok(Err(number)), Err(bad)) => *number == bad.number,
        _ => false,
    };
    if !equal {
        let what = "the library and the rules differ".to_string();
        let reckoner = match (read(file), &played, &rules) {
            (Ok(calls), Ok(Ok(theirs)), Ok(ours)) => {
                judged("the library", &calls, theirs) + &judged("the rules", &calls, ours)
            }
            _ => String::new(),
        };
        return Err(Box::new(Difference { what, library: said, rules: ours(), reckoner }));
    }
    if let (Ok(Ok(listing)), Ok(calls)) = (&played, read(file)) {
        if let Err(fault) = reckoner::judge(&calls, listing) {
            let what = "the reckoner finds a fault in the listing of both".to_string();
            return Err(Box::new(Difference { what, library: said, rules: ours(), reckoner: fault }));
        }
    }
    Ok(rules)
}

/// What program rig must print by the rules: the `BAD` line or the listing.
pub fn printed_by_rules(file: &[u8]) -> String {
    match listing::play(file) {
        Err(bad) => bad_line(bad),
        Ok(listing) => text(&listing),
    }
}

/// Compares what program rig prints, the whole `BAD` line or the listing.
pub fn compare_program(file: &[u8]) -> Result<(), Box<Difference>> {
    let rules = printed_by_rules(file);
    let said = match program::play(file) {
        Ok(printed) => text(&printed),
        Err(fault) => fault.to_string(),
    };
    if said == rules {
        return Ok(());
    }
    let what = "program rig and the rules differ".to_string();
    Err(Box::new(Difference { what, library: said, rules, reckoner: String::new() }))
}
