//! bench [SET..]: the proved library, through its C entry, against two plain Rust versions.

mod fast;

use check::file::{pack, read};
use check::library::{play_into, LISTING_BYTES};
use check::make::{self, Session};
use check::random::Random;
use check::{damage, listing};
use fast::Fast;
use std::hint::black_box;
use std::time::{Duration, Instant};

const ROUNDS: usize = 25;

/// Files are timed in batches of about this many bytes, some ten to a hundred microseconds: short, so
/// that other work on the machine spoils few of them, and long beside the reading of the clock.
const BATCH_BYTES: usize = 10_000;

struct Set {
    name: &'static str,
    sessions: u64,
    make: fn(&mut Random) -> Session,
}

const SETS: [Set; 5] = [
    Set { name: "mixed", sessions: 200, make: make::long },
    Set { name: "deep", sessions: 200, make: make::deep },
    Set { name: "routes", sessions: 200, make: make::routes },
    Set { name: "small", sessions: 5_000, make: make::short },
    Set { name: "refused", sessions: 200, make: all_refused },
];

/// A mixed session in which every call is refused: what is left is reading and writing.
fn all_refused(random: &mut Random) -> Session {
    let mut session = make::long(random);
    for body in &mut session {
        let mut fields: Vec<&[u8]> = body.split(|&byte| byte == b' ').collect();
        match fields[0] {
            b"N" => fields[4] = b"0", // no price
            b"Q" => fields[1] = b"0", // no market
            _ => {}                   // no order rests to be cut or cancelled
        }
        *body = fields.join(&b' ');
    }
    session
}

fn main() {
    let wanted: Vec<String> = std::env::args().skip(1).collect();
    if wanted.first().is_some_and(|word| word == "--profile") {
        profile(&wanted[1..]);
        return;
    }
    agree_on_damaged_files();
    println!(
        "| Set | Sessions | Calls | Rows | Library, sessions/s | Fast, sessions/s | Literal, sessions/s | Library, ns/call | Fast, ns/call | Literal, ns/call | Library : fast | Literal : library |"
    );
    println!("|---|---|---|---|---|---|---|---|---|---|---|---|");
    for set in SETS.iter().filter(|set| wanted.is_empty() || wanted.iter().any(|name| name == set.name)) {
        measure(set);
    }
}

fn files(set: &Set) -> Vec<Vec<u8>> {
    (0..set.sessions).map(|seed| pack(&(set.make)(&mut Random::new(seed)))).collect()
}

/// All three give equal listings: a fast wrong answer is not worth measuring.
fn assert_equal_listings(file: &[u8], fast: &mut Fast) -> usize {
    let mut library_listing = vec![0; LISTING_BYTES];
    let mut fast_listing = vec![0; LISTING_BYTES];
    let by_library = play_into(file, &mut library_listing).map(|length| &library_listing[..length]);
    let by_fast = fast.play_into(file, &mut fast_listing).map(|length| &fast_listing[..length]);
    let by_rules = listing::play(file);
    assert_eq!(by_library, by_fast);
    assert_eq!(by_library, by_rules.as_deref().map_err(|bad| bad.number));
    by_library.map_or(0, <[u8]>::len)
}

/// The fast version is held to the other two on damaged files as well, and on all manners of lawful ones.
fn agree_on_damaged_files() {
    let mut fast = Fast::new();
    for seed in 0..20_000 {
        assert_equal_listings(&damage::file(&mut Random::new(seed)).0, &mut fast);
    }
    for seed in 0..5_000 {
        assert_equal_listings(&pack(&make::session(&mut Random::new(seed)).0), &mut fast);
    }
}

fn batches(files: &[Vec<u8>]) -> Vec<&[Vec<u8>]> {
    let average = files.iter().map(Vec::len).sum::<usize>() / files.len();
    files.chunks(BATCH_BYTES.div_ceil(average)).collect()
}

/// Plays each batch and keeps the least time that it took so far.
fn time(batches: &[&[Vec<u8>]], least: &mut [Duration], play: &mut dyn FnMut(&[u8]) -> usize) {
    for (batch, least) in batches.iter().zip(least) {
        let start = Instant::now();
        for file in *batch {
            black_box(play(black_box(file)));
        }
        *least = start.elapsed().min(*least);
    }
}

fn measure(set: &Set) {
    let files = files(set);
    let mut fast = Fast::new();
    for file in &files {
        assert_equal_listings(file, &mut fast);
    }
    let batches = batches(&files);
    let mut listing = vec![0; LISTING_BYTES];
    let mut least = [(); 3].map(|_| vec![Duration::MAX; batches.len()]);
    // The versions take turns, so that a disturbance of the machine meets all.
    for _ in 0..ROUNDS {
        time(&batches, &mut least[0], &mut |file| play_into(file, &mut listing).unwrap_or(0));
        time(&batches, &mut least[1], &mut |file| fast.play_into(file, &mut listing).unwrap_or(0));
        time(&batches, &mut least[2], &mut |file| listing::play(file).map_or(0, |bytes| bytes.len()));
    }
    report(set, &files, least.map(|batches| batches.iter().sum()));
}

fn report(set: &Set, files: &[Vec<u8>], times: [Duration; 3]) {
    let mut calls = 0;
    let mut rows = 0;
    for file in files {
        let session = read(file).unwrap_or_default();
        calls += session.len();
        rows += listing::play_calls(&session).0.iter().map(|answer| answer.rows.len()).sum::<usize>();
    }
    let per_second = times.map(|time| files.len() as f64 / time.as_secs_f64());
    let per_call = times.map(|time| time.as_nanos() as f64 / calls as f64);
    println!(
        "| {} | {} | {calls} | {rows} | {:.0} | {:.0} | {:.0} | {:.0} | {:.0} | {:.0} | {:.2} | {:.1} |",
        set.name,
        files.len(),
        per_second[0],
        per_second[1],
        per_second[2],
        per_call[0],
        per_call[1],
        per_call[2],
        per_call[0] / per_call[1],
        per_call[2] / per_call[0],
    );
}

/// bench --profile SET library|fast: one version alone on one set, for a profiler.
fn profile(words: &[String]) {
    let [name, version] = words else { panic!("usage: bench --profile SET library|fast") };
    let set = SETS.iter().find(|set| set.name == name).expect("a set");
    let files = files(set);
    let mut fast = Fast::new();
    let mut listing = vec![0; LISTING_BYTES];
    let rounds = 1 + 400_000 / files.iter().map(|file| file.len() / 25 + 1).sum::<usize>();
    for _ in 0..rounds {
        for file in &files {
            if version == "fast" {
                black_box(fast.play_into(file, &mut listing).unwrap_or(0));
            } else {
                black_box(play_into(file, &mut listing).unwrap_or(0));
            }
        }
    }
}
