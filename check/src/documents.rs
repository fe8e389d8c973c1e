//! The examples of the documents: both sides are held to them, not only to each other.

use crate::file::pack;
use std::path::Path;
use std::{fs, io};

/// A session file with what program rig must print for it.
pub struct Example {
    pub name: String,
    pub file: Vec<u8>,
    pub printed: Vec<u8>,
}

/// The sessions of sessions/, whose listings were worked out by hand.
pub fn sessions() -> io::Result<Vec<Example>> {
    let folder = Path::new(env!("CARGO_MANIFEST_DIR")).join("../sessions");
    let mut all = Vec::new();
    for one in fs::read_dir(folder)? {
        let path = one?.path();
        if path.extension().is_some_and(|extension| extension == "txt") {
            let text = fs::read(&path)?;
            let printed = fs::read(path.with_extension("listing"))?;
            all.push(Example { name: path.display().to_string(), file: pack(&lines(&text)), printed });
        }
    }
    Ok(all)
}

/// The lines of a text; the last may lack its line feed.
fn lines(text: &[u8]) -> Vec<Vec<u8>> {
    let mut lines: Vec<Vec<u8>> = text.split(|&byte| byte == b'\n').map(<[u8]>::to_vec).collect();
    if lines.last().is_some_and(Vec::is_empty) {
        lines.pop();
    }
    lines
}

/// The bodies of the table of damaged files that are the only one of their file.
const ONE_BODY: [(&str, &str); 24] = [
    ("", "BAD 16 0 6"),
    ("N A L B 1000", "BAD 16 0 18"),
    ("N A L B 1000 ", "BAD 16 0 19"),
    ("N A I S 1000 5000", "BAD 16 0 23"),
    ("U 1", "BAD 16 0 9"),
    ("N A L B 1000 100 ", "BAD 16 0 23"),
    ("N A L B 1000 100 7", "BAD 16 0 23"),
    ("N A L B  1000 100", "BAD 16 0 14"),
    (" N A L B 1000 100", "BAD 16 0 6"),
    ("n A L B 1000 100", "BAD 16 0 6"),
    ("XX 1", "BAD 16 0 6"),
    ("N a L B 1000 100", "BAD 16 0 8"),
    ("N ABCDEFGHIJKLM L B 1000 100", "BAD 16 0 8"),
    ("N A Z B 1000 100", "BAD 16 0 10"),
    ("N A L X 1000 100", "BAD 16 0 12"),
    ("N A L B 01000 100", "BAD 16 0 14"),
    ("N A L B 1000\t100", "BAD 16 0 14"),
    ("N A L B 1000 10000000", "BAD 16 0 19"),
    ("N A I S 1000 5000 3 0 C", "BAD 16 0 24"),
    ("N A I S 1000 5000 1 -1 C", "BAD 16 0 26"),
    ("N A I S 1000 5000 1 0 K", "BAD 16 0 28"),
    ("X 1\n", "BAD 16 0 8"),
    (" ", "BAD 16 0 6"),
    ("N A L B 0 100", "A 1 0 0 0\nLI 0"),
];

/// The files of the same table that are two orders with bytes changed: the place and the 16-bit number
/// or the byte that goes there.
const TWO_ORDERS_SHORTS: [(&[(usize, u16)], &str); 5] = [
    (&[(6, 31)], "BAD 15 1 6"),
    (&[(4, 21)], "BAD 15 1 6"),
    (&[(4, 65_535), (6, 9)], "BAD 15 1 6"),
    (&[(8, 26)], "BAD 15 2 10"),
    (&[], "ABLE 0 1 5000 0\nBAKER 0 2 0 1000\nF 2 1 1000 5000\nLI 0"),
];
const TWO_ORDERS_BYTES: [(&[(usize, u8)], &str); 3] = [
    (&[(56, b'K')], "BAD 16 1 56"),
    (&[(17, b'Z'), (56, b'K')], "BAD 16 0 17"),
    (&[(17, b'Z'), (6, 31)], "BAD 15 1 6"),
];

/// The table of damaged files in docs/SESSION_FILE.md.
pub fn damaged() -> Vec<Example> {
    let two_orders = pack(&[b"N ABLE O B 1000 5000".to_vec(), b"N BAKER I S 1000 6000 1 0 C".to_vec()]);
    let mut all: Vec<(Vec<u8>, &str)> = vec![
        (vec![], "BAD 14 0 0"),
        (vec![0], "BAD 14 0 0"),
        (vec![1, 0], "BAD 14 0 0"),
        ([vec![1, 2], vec![0; 2_052]].concat(), "BAD 14 0 0"),
        (vec![0; 65_536], "BAD 14 0 0"),
        (vec![0, 0, 0x41], "BAD 15 0 2"),
        (b"\x01\x00\x07\x00\x03\x00X 1".to_vec(), "BAD 15 0 2"),
        (two_orders[..56].to_vec(), "BAD 15 2 10"),
        ([&two_orders[..], b"\n"].concat(), "BAD 15 2 10"),
        (vec![0, 0], "LI 0"),
    ];
    for (body, line) in ONE_BODY {
        all.push((pack(&[body.as_bytes().to_vec()]), line));
    }
    for (changes, line) in TWO_ORDERS_SHORTS {
        let mut file = two_orders.clone();
        for (place, figure) in changes {
            file[*place..place + 2].copy_from_slice(&figure.to_le_bytes());
        }
        all.push((file, line));
    }
    for (changes, line) in TWO_ORDERS_BYTES {
        let mut file = two_orders.clone();
        for (place, byte) in changes {
            file[*place] = *byte;
        }
        all.push((file, line));
    }
    let example = |(file, line): (Vec<u8>, &str)| Example {
        name: format!("a file of {} bytes with {line}", file.len()),
        file,
        printed: format!("{line}\n").into_bytes(),
    };
    all.into_iter().map(example).collect()
}
