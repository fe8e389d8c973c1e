//! check --seed N --lawful COUNT --damaged COUNT
//!
//! Plays lawful and damaged session files made from the seeds N, N + 1, and so on, and the examples of
//! the documents, on the proved library and by the literal rules, and compares. The last line is
//! 'N passed, M failed'.

use check::compare::{compare, compare_program, printed_by_rules, Difference};
use check::documents::{self, Example};
use check::file::{pack, read};
use check::library::Library;
use check::make::Session;
use check::random::Random;
use check::shrink::shrink;
use check::tally::Tally;
use check::{damage, listing, make, program};
use std::process::ExitCode;

/// One file in this many also goes through program rig: a process for each would be slow.
const PROGRAM_EVERY: u64 = 50;

/// After this many differences further ones say little, and shrinking takes long.
const ENOUGH: u64 = 5;

struct Run {
    library: Library,
    tally: Tally,
    passed: u64,
    failed: u64,
    by_program: u64,
}

fn main() -> ExitCode {
    let Some((seed, lawful, damaged)) = arguments() else {
        eprintln!("usage: check --seed N --lawful COUNT --damaged COUNT");
        return ExitCode::from(2);
    };
    if !program::path().exists() {
        println!("check: {} is not there: run ./build first", program::path().display());
        println!("0 passed, 1 failed");
        return ExitCode::FAILURE;
    }
    let mut run = Run { library: Library::new(), tally: Tally::default(), passed: 0, failed: 0, by_program: 0 };
    for index in 0..lawful {
        if run.failed < ENOUGH {
            run.lawful(seed + index, index % PROGRAM_EVERY == 0);
        }
    }
    for index in 0..damaged {
        if run.failed < ENOUGH {
            run.damaged(seed + index, index % PROGRAM_EVERY == 0);
        }
    }
    run.examples();
    println!(
        "check: from seed {seed} on {lawful} lawful and {damaged} damaged files, and examples; {} of all by program rig",
        run.by_program
    );
    println!("{}", run.tally);
    println!("{} passed, {} failed", run.passed, run.failed);
    if run.failed == 0 {
        ExitCode::SUCCESS
    } else {
        ExitCode::FAILURE
    }
}

fn arguments() -> Option<(u64, u64, u64)> {
    let words: Vec<String> = std::env::args().skip(1).collect();
    let mut found = [None; 3];
    for pair in words.chunks(2) {
        let [name, figure] = pair else { return None };
        let at = ["--seed", "--lawful", "--damaged"].iter().position(|known| known == name)?;
        found[at] = Some(figure.parse().ok()?);
    }
    Some((found[0]?, found[1]?, found[2]?))
}

impl Run {
    fn examples(&mut self) {
        let sessions = documents::sessions().unwrap_or_default();
        if sessions.is_empty() {
            println!("there are no example sessions");
            self.failed += 1;
        }
        for example in sessions.iter().chain(&documents::damaged()) {
            self.example(example);
        }
    }

    fn example(&mut self, example: &Example) {
        let by_rules = printed_by_rules(&example.file).into_bytes() == example.printed;
        match self.one(&example.file, true) {
            None if by_rules => self.passed += 1,
            None => {
                self.failed += 1;
                println!("{}: the rules print something else", example.name);
            }
            Some(difference) => {
                self.failed += 1;
                println!("{}: {}", example.name, difference.what);
                print_both(&difference);
            }
        }
    }

    fn lawful(&mut self, seed: u64, by_program: bool) {
        let (session, manner) = make::session(&mut Random::new(seed));
        self.tally.manner(manner);
        let file = pack(&session);
        match self.one(&file, by_program) {
            None => self.passed += 1,
            Some(difference) => {
                self.failed += 1;
                println!("seed {seed}, lawful: {}", difference.what);
                self.report_session(session, by_program);
            }
        }
    }

    fn damaged(&mut self, seed: u64, by_program: bool) {
        // Another stream than that of the lawful session with the same seed.
        let (file, name) = damage::file(&mut Random::new(!seed));
        self.tally.manner(name);
        match self.one(&file, by_program) {
            None => self.passed += 1,
            Some(difference) => {
                self.failed += 1;
                println!("seed {seed}, damaged ({name}): {}", difference.what);
                print_file(&file);
                print_both(&difference);
            }
        }
    }

    fn one(&mut self, file: &[u8], by_program: bool) -> Option<Box<Difference>> {
        match compare(file, &mut self.library) {
            Err(difference) => return Some(difference),
            Ok(Err(bad)) => self.tally.bad(bad.number),
            Ok(Ok(listing)) => self.count(file, listing.len()),
        }
        if by_program {
            self.by_program += 1;
            return compare_program(file).err();
        }
        None
    }

    fn count(&mut self, file: &[u8], listing_length: usize) {
        if let Ok(calls) = read(file) {
            let (answers, _) = listing::play_calls(&calls);
            self.tally.session(&calls, &answers, listing_length);
        }
    }

    fn report_session(&mut self, session: Session, by_program: bool) {
        let mut difference_of = |session: &Session| {
            let file = pack(session);
            let by_library = compare(&file, &mut self.library).err();
            by_library.or_else(|| if by_program { compare_program(&file).err() } else { None })
        };
        let shortest = shrink(session, &mut |session| difference_of(session).is_some());
        println!("the shortest session that differs:");
        for body in &shortest {
            println!("  {}", String::from_utf8_lossy(body));
        }
        if let Some(difference) = difference_of(&shortest) {
            println!("{}", difference.what);
            print_both(&difference);
        }
    }
}

fn print_both(difference: &Difference) {
    let parts = [
        ("the library or program", &difference.library),
        ("the rules", &difference.rules),
        ("the reckoner", &difference.reckoner),
    ];
    for (name, text) in parts.iter().filter(|(_, text)| !text.is_empty()) {
        println!("{name}:");
        for line in text.lines() {
            println!("  {line}");
        }
    }
}

fn print_file(file: &[u8]) {
    println!("the file, {} bytes:", file.len());
    for line in file.chunks(32).take(64) {
        let hex: Vec<String> = line.iter().map(|byte| format!("{byte:02x}")).collect();
        println!("  {}", hex.join(" "));
    }
}
