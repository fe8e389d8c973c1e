//! Damaged session files from a seed.

use crate::file::pack;
use crate::make::{self, Session};
use crate::random::Random;

/// A damaged file, and what was done to it last. Now and then the damage leaves it lawful.
pub fn file(random: &mut Random) -> (Vec<u8>, &'static str) {
    let mut session = if random.chance(8) { make::session(random).0 } else { make::short(random) };
    if random.chance(50) {
        return damage_file(pack(&session), random);
    }
    let name = damage_body(&mut session, random);
    if random.chance(10) {
        return damage_file(pack(&session), random);
    }
    (pack(&session), name)
}

/// Changes one body; the contents are made to fit it afterwards.
fn damage_body(session: &mut Session, random: &mut Random) -> &'static str {
    if session.is_empty() {
        session.push(Vec::new());
    }
    let at = random.below(session.len());
    let body = &mut session[at];
    let place = random.below(body.len() + 1);
    match random.below(13) {
        0 => {
            body.truncate(place);
            "a body cut short"
        }
        1 => {
            body.insert(place, likely_byte(random));
            "a byte more in a body"
        }
        2 if place < body.len() => {
            body.remove(place);
            "a byte fewer in a body"
        }
        3 if place < body.len() => {
            body[place] = likely_byte(random);
            "a likely byte in a body"
        }
        4 if place < body.len() => {
            body[place] = random.draw() as u8;
            "any byte in a body"
        }
        5 => {
            body.insert(0, b' ');
            "a space before a body"
        }
        6 => {
            body.push(b' ');
            "a space behind a body"
        }
        7 => {
            body.extend_from_slice(random.pick(&[" 1", " R", "  ", " 0 0 0"]).as_bytes());
            "a field more"
        }
        8 => {
            let end = body.iter().rposition(|&byte| byte == b' ').unwrap_or(0);
            body.truncate(end + random.below(2));
            "the last field dropped"
        }
        9 => {
            replace_field(body, random);
            "another field"
        }
        10 => {
            body.clear();
            "an empty body"
        }
        11 => {
            let space = body.iter().position(|&byte| byte == b' ').unwrap_or(0);
            body.insert(space, b' ');
            "two spaces"
        }
        _ => {
            body.make_ascii_lowercase();
            "small letters"
        }
    }
}

fn likely_byte(random: &mut Random) -> u8 {
    *random.pick(b"0123456789 NUXQLDOIBSRCAZ \t\n\r-nK\0\xff")
}

fn replace_field(body: &mut Vec<u8>, random: &mut Random) {
    const FIELDS: [&[u8]; 16] = [
        b"00",
        b"01",
        b"0",
        b"-1",
        b"10000000",
        b"9999999",
        b"ABCDEFGHIJKLM",
        b"ABCDEFGHIJKL",
        b"XX",
        b"BB",
        b"+5",
        b"1000\t100",
        b"",
        b"3",
        b"N",
        b"65536",
    ];
    let mut fields: Vec<Vec<u8>> = body.split(|&byte| byte == b' ').map(<[u8]>::to_vec).collect();
    let at = random.below(fields.len());
    fields[at] = random.pick(&FIELDS).to_vec();
    *body = fields.join(&b' ');
}

fn put_16(file: &mut [u8], place: usize, figure: usize) {
    if place + 1 < file.len() {
        file[place] = figure as u8;
        file[place + 1] = (figure >> 8) as u8;
    }
}

fn get_16(file: &[u8], place: usize) -> usize {
    match file.get(place..place + 2) {
        Some(bytes) => bytes[0] as usize + 256 * bytes[1] as usize,
        None => 0,
    }
}

/// A figure near the one that stood there, or any.
fn wrong(figure: usize, random: &mut Random) -> usize {
    match random.below(5) {
        0 => figure + 1,
        1 => figure.wrapping_sub(1),
        2 => figure + random.below(40),
        3 => *random.pick(&[0, 1, 2, 6, 255, 256, 512, 513, 32_768, 65_535]),
        _ => random.below(65_536),
    }
}

fn damage_file(mut file: Vec<u8>, random: &mut Random) -> (Vec<u8>, &'static str) {
    let count = get_16(&file, 0);
    let entry = random.below(count);
    let (offset, length) = (2 + 4 * entry, 4 + 4 * entry);
    let name = match random.below(12) {
        0 => {
            file.truncate(random.below(file.len() + 1));
            "cut short"
        }
        1 => {
            file.truncate(file.len() - 1);
            "cut short by a byte"
        }
        2 => {
            let more = 1 + random.below(20);
            file.extend((0..more).map(|_| likely_byte(random)));
            "bytes behind the end"
        }
        3 => {
            let figure = wrong(count, random);
            put_16(&mut file, 0, figure);
            "wrong count"
        }
        4 => {
            let figure = wrong(get_16(&file, offset), random);
            put_16(&mut file, offset, figure);
            "wrong offset"
        }
        5 => {
            let figure = wrong(get_16(&file, length), random);
            put_16(&mut file, length, figure);
            "wrong length"
        }
        6 => {
            move_a_boundary(&mut file, entry, random);
            "a boundary moved"
        }
        7 => {
            // Right only if the sum were reduced to 16 bits.
            let more = random.below(file.len() + 1);
            put_16(&mut file, length, 65_535 - more);
            let sum = get_16(&file, offset) + 65_535 - more;
            put_16(&mut file, offset + 4, sum % 65_536);
            "a sum past 16 bits"
        }
        8 => {
            for _ in 0..1 + random.below(6) {
                let place = random.below(file.len());
                file[place] = random.draw() as u8;
            }
            "bytes changed"
        }
        9 => {
            let place = random.below(file.len());
            file[place] ^= 1 << random.below(8);
            "a bit changed"
        }
        10 => {
            let size = *random.pick(&[65_534, 65_535, 65_536, 65_537, 70_000]);
            file.resize(size, b'0');
            if random.chance(50) && count > 0 {
                stretch_the_last_body(&mut file, count);
            }
            "very long"
        }
        _ => {
            let size = random.below(120);
            file = (0..size).map(|_| random.draw() as u8).collect();
            put_16(&mut file, 0, random.below(6));
            "any bytes"
        }
    };
    (file, name)
}

/// The end of one body and the start of the next moved by the same number: the contents still fit.
fn move_a_boundary(file: &mut [u8], entry: usize, random: &mut Random) {
    if entry + 1 >= get_16(file, 0) {
        return;
    }
    let (length, next_length) = (4 + 4 * entry, 8 + 4 * entry);
    let both = get_16(file, length) + get_16(file, next_length);
    let first = random.below(both + 1);
    let start = get_16(file, 2 + 4 * entry);
    put_16(file, length, first);
    put_16(file, 6 + 4 * entry, start + first);
    put_16(file, next_length, both - first);
}

/// The last body goes to the end of the file, so that the contents fit.
fn stretch_the_last_body(file: &mut [u8], count: usize) {
    let start = get_16(file, 4 * count - 2);
    let length = file.len() - start;
    put_16(file, 4 * count, length);
}
