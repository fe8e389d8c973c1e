//! A whole session by the literal rules, and its listing.

use crate::file::{read, Bad, Call};
use crate::rules::{Answer, Book, Row};

/// The listing of a session file, or its refusal.
pub fn play(file: &[u8]) -> Result<Vec<u8>, Bad> {
    let calls = read(file)?;
    let (answers, lit) = play_calls(&calls);
    Ok(write(&calls, &answers, lit))
}

/// The answers of the calls on a fresh book, and whether the Liquidity Identifier is lit after them.
pub fn play_calls(calls: &[Call]) -> (Vec<Answer>, bool) {
    let mut book = Book::default();
    let answers = calls.iter().map(|call| book.play(call)).collect();
    (answers, book.lit())
}

pub fn write(calls: &[Call], answers: &[Answer], lit: bool) -> Vec<u8> {
    let mut listing = String::new();
    for (call, answer) in calls.iter().zip(answers) {
        let label = match call {
            Call::Enter(entry) => String::from_utf8_lossy(&entry.label).into_owned(),
            _ => "-".to_string(),
        };
        let Answer { refusal, arrival, open, cancelled, rows } = answer;
        listing += &format!("{label} {refusal} {arrival} {open} {cancelled}\n");
        for row in rows {
            listing += &match row {
                Row::Fill { incoming, resting, price, shares } => format!("F {incoming} {resting} {price} {shares}\n"),
                Row::Route { arrival, market, price, shares } => format!("R {arrival} {market} {price} {shares}\n"),
            };
        }
    }
    listing += if lit { "LI 1\n" } else { "LI 0\n" };
    listing.into_bytes()
}
