//! What the sessions showed: a comparison says little about a rule that never came up.

use crate::file::{Call, Kind};
use crate::rules::{Answer, Row};
use std::collections::BTreeMap;
use std::fmt;

#[derive(Default)]
pub struct Tally {
    manners: BTreeMap<&'static str, u64>,
    calls: u64,
    refusals: BTreeMap<u32, u64>,
    fills: u64,
    routes: u64,
    /// Entries with an MTV that traded nothing.
    held_back: u64,
    /// Entries whose last row is a route although shares were left.
    ended_after_route: u64,
    /// Cuts after which the order left.
    cut_off: u64,
    most_rows: usize,
    longest_listing: usize,
}

impl Tally {
    pub fn manner(&mut self, name: &'static str) {
        *self.manners.entry(name).or_default() += 1;
    }

    pub fn session(&mut self, calls: &[Call], answers: &[Answer], listing_length: usize) {
        self.longest_listing = self.longest_listing.max(listing_length);
        for (call, answer) in calls.iter().zip(answers) {
            self.call(call, answer);
        }
    }

    fn call(&mut self, call: &Call, answer: &Answer) {
        self.calls += 1;
        self.most_rows = self.most_rows.max(answer.rows.len());
        *self.refusals.entry(answer.refusal).or_default() += 1;
        let fills = answer.rows.iter().filter(|row| matches!(row, Row::Fill { .. })).count() as u64;
        self.fills += fills;
        self.routes += answer.rows.len() as u64 - fills;
        let left = answer.open + answer.cancelled > 0;
        match call {
            Call::Enter(entry) if answer.refusal == 0 && left => {
                let measured = entry.kind == Kind::Ilo && entry.terms.is_some_and(|terms| terms.mtv > 0);
                self.held_back += (measured && answer.rows.is_empty()) as u64;
                self.ended_after_route += matches!(answer.rows.last(), Some(Row::Route { .. })) as u64;
            }
            Call::Cut { .. } if answer.refusal == 0 && answer.open == 0 => self.cut_off += 1,
            _ => {}
        }
    }

    pub fn bad(&mut self, number: u32) {
        *self.refusals.entry(number).or_default() += 1;
    }
}

impl fmt::Display for Tally {
    fn fmt(&self, out: &mut fmt::Formatter<'_>) -> fmt::Result {
        write!(out, "files by manner or damage:")?;
        for (name, count) in &self.manners {
            write!(out, " {name} {count};")?;
        }
        write!(out, "\n{} calls, {} fills, {} routes; ", self.calls, self.fills, self.routes)?;
        write!(out, "{} entries with an MTV traded nothing, ", self.held_back)?;
        write!(
            out,
            "{} sweeps ended after a route, {} cuts took the order off; ",
            self.ended_after_route, self.cut_off
        )?;
        writeln!(out, "at most {} rows of an entry and {} bytes of a listing", self.most_rows, self.longest_listing)?;
        write!(out, "answers:")?;
        for (number, count) in &self.refusals {
            write!(out, " {number}: {count};")?;
        }
        Ok(())
    }
}
