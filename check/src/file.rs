//! Session files: their calls, or the refusal. As in docs/SESSION_FILE.md.

#[derive(Clone, Copy, PartialEq, Eq, Debug)]
pub enum Side {
    Buy,
    Sell,
}

#[derive(Clone, Copy, PartialEq, Eq, Debug)]
pub enum Kind {
    Displayed,
    Dark,
    Olo,
    Ilo,
}

#[derive(Clone, Copy, PartialEq, Eq, Debug)]
pub enum Type {
    One,
    Two,
}

#[derive(Clone, Copy, PartialEq, Eq, Debug)]
pub enum Mark {
    Rest,
    Cancel,
}

/// What an ILO carries further.
#[derive(Clone, Copy, PartialEq, Eq, Debug)]
pub struct Terms {
    pub kind_of_ilo: Type,
    pub mtv: u64,
    pub mark: Mark,
}

/// The order of an `N` body. `terms` are there exactly for an ILO.
#[derive(Clone, PartialEq, Eq, Debug)]
pub struct Entry {
    pub label: Vec<u8>,
    pub kind: Kind,
    pub side: Side,
    pub price: u64,
    pub shares: u64,
    pub terms: Option<Terms>,
}

#[derive(Clone, PartialEq, Eq, Debug)]
pub enum Call {
    Enter(Entry),
    Cut { arrival: u64, shares: u64 },
    Cancel { arrival: u64 },
    Post { market: u64, side: Side, price: u64, shares: u64 },
}

/// The refusal of a file: `BAD number index place`.
#[derive(Clone, Copy, PartialEq, Eq, Debug)]
pub struct Bad {
    pub number: u32,
    pub index: usize,
    pub place: usize,
}

pub const FILE_SIZE: u32 = 14;
pub const CONTENTS: u32 = 15;
pub const BODY: u32 = 16;

/// The place, within its body, of the field that is malformed, missing or surplus.
struct BadField(usize);

/// Reads a session file: the size, then the contents, then the bodies.
pub fn read(file: &[u8]) -> Result<Vec<Call>, Bad> {
    check_size(file)?;
    check_contents(file)?;
    let mut calls = Vec::new();
    for index in 0..count(file) {
        let start = offset(file, index);
        let body = &file[start..start + length(file, index)];
        let call = read_body(body).map_err(|BadField(place)| Bad { number: BODY, index, place: start + place })?;
        calls.push(call);
    }
    Ok(calls)
}

fn number_16(file: &[u8], place: usize) -> usize {
    file[place] as usize + 256 * file[place + 1] as usize
}

fn count(file: &[u8]) -> usize {
    number_16(file, 0)
}

fn offset(file: &[u8], entry: usize) -> usize {
    number_16(file, 2 + 4 * entry)
}

fn length(file: &[u8], entry: usize) -> usize {
    number_16(file, 4 + 4 * entry)
}

fn check_size(file: &[u8]) -> Result<(), Bad> {
    let bad = Bad { number: FILE_SIZE, index: 0, place: 0 };
    if file.len() < 2 || file.len() > 65_535 {
        return Err(bad);
    }
    if count(file) > 512 || file.len() < 2 + 4 * count(file) {
        return Err(bad);
    }
    Ok(())
}

/// An entry is wrong by its offset alone; the end is judged after all of them.
fn check_contents(file: &[u8]) -> Result<(), Bad> {
    let count = count(file);
    let mut right_offset = 2 + 4 * count;
    for index in 0..count {
        if offset(file, index) != right_offset {
            return Err(Bad { number: CONTENTS, index, place: 2 + 4 * index });
        }
        right_offset = offset(file, index) + length(file, index);
    }
    if right_offset != file.len() {
        return Err(Bad { number: CONTENTS, index: count, place: 2 + 4 * count });
    }
    Ok(())
}

/// A field and the place of its first byte in the body.
struct Field<'a> {
    bytes: &'a [u8],
    place: usize,
}

/// The fields of a body, in order, with what has been read of them.
struct Fields<'a> {
    all: Vec<Field<'a>>,
    read: usize,
    body_length: usize,
}

impl<'a> Fields<'a> {
    /// An empty body has no field; any other is parted by its spaces.
    fn of(body: &'a [u8]) -> Fields<'a> {
        let mut all = Vec::new();
        let mut place = 0;
        if !body.is_empty() {
            for bytes in body.split(|&byte| byte == b' ') {
                all.push(Field { bytes, place });
                place += bytes.len() + 1;
            }
        }
        Fields { all, read: 0, body_length: body.len() }
    }

    /// The next field. It is missing if there is none, or if nothing but a space stands before the end.
    fn next(&mut self) -> Result<&Field<'a>, BadField> {
        let is_last = self.read + 1 == self.all.len();
        let missing = match self.all.get(self.read) {
            None => true,
            Some(field) => field.bytes.is_empty() && is_last && self.read > 0,
        };
        if missing {
            return Err(BadField(self.body_length));
        }
        self.read += 1;
        Ok(&self.all[self.read - 1])
    }

    /// After the last field of a call: a further one, even if it is empty, is surplus.
    fn end(&self) -> Result<(), BadField> {
        match self.all.get(self.read) {
            None => Ok(()),
            Some(surplus) => Err(BadField(surplus.place)),
        }
    }

    /// A field of exactly one byte, and its place.
    fn letter(&mut self) -> Result<(u8, BadField), BadField> {
        let field = self.next()?;
        match field.bytes {
            [letter] => Ok((*letter, BadField(field.place))),
            _ => Err(BadField(field.place)),
        }
    }

    fn number(&mut self) -> Result<u64, BadField> {
        let field = self.next()?;
        let digits = field.bytes.iter().all(u8::is_ascii_digit);
        let needless_zero = field.bytes.len() > 1 && field.bytes[0] == b'0';
        if !digits || needless_zero || field.bytes.is_empty() || field.bytes.len() > 7 {
            return Err(BadField(field.place));
        }
        Ok(field.bytes.iter().fold(0, |value, digit| 10 * value + (digit - b'0') as u64))
    }

    fn label(&mut self) -> Result<Vec<u8>, BadField> {
        let field = self.next()?;
        let alphabet = field.bytes.iter().all(|byte| byte.is_ascii_uppercase() || byte.is_ascii_digit());
        if !alphabet || field.bytes.is_empty() || field.bytes.len() > 12 {
            return Err(BadField(field.place));
        }
        Ok(field.bytes.to_vec())
    }

    fn kind(&mut self) -> Result<Kind, BadField> {
        match self.letter()? {
            (b'L', _) => Ok(Kind::Displayed),
            (b'D', _) => Ok(Kind::Dark),
            (b'O', _) => Ok(Kind::Olo),
            (b'I', _) => Ok(Kind::Ilo),
            (_, bad) => Err(bad),
        }
    }

    fn side(&mut self) -> Result<Side, BadField> {
        match self.letter()? {
            (b'B', _) => Ok(Side::Buy),
            (b'S', _) => Ok(Side::Sell),
            (_, bad) => Err(bad),
        }
    }

    fn kind_of_ilo(&mut self) -> Result<Type, BadField> {
        match self.letter()? {
            (b'1', _) => Ok(Type::One),
            (b'2', _) => Ok(Type::Two),
            (_, bad) => Err(bad),
        }
    }

    fn mark(&mut self) -> Result<Mark, BadField> {
        match self.letter()? {
            (b'R', _) => Ok(Mark::Rest),
            (b'C', _) => Ok(Mark::Cancel),
            (_, bad) => Err(bad),
        }
    }
}

fn read_body(body: &[u8]) -> Result<Call, BadField> {
    let mut fields = Fields::of(body);
    let call = match fields.letter()? {
        (b'N', _) => Call::Enter(read_entry(&mut fields)?),
        (b'U', _) => Call::Cut { arrival: fields.number()?, shares: fields.number()? },
        (b'X', _) => Call::Cancel { arrival: fields.number()? },
        (b'Q', _) => Call::Post {
            market: fields.number()?,
            side: fields.side()?,
            price: fields.number()?,
            shares: fields.number()?,
        },
        (_, bad) => return Err(bad),
    };
    fields.end()?;
    Ok(call)
}

fn read_entry(fields: &mut Fields) -> Result<Entry, BadField> {
    let label = fields.label()?;
    let kind = fields.kind()?;
    let side = fields.side()?;
    let price = fields.number()?;
    let shares = fields.number()?;
    let terms = match kind {
        Kind::Ilo => Some(Terms { kind_of_ilo: fields.kind_of_ilo()?, mtv: fields.number()?, mark: fields.mark()? }),
        _ => None,
    };
    Ok(Entry { label, kind, side, price, shares, terms })
}

/// The session file of these bodies. They are not judged.
pub fn pack(bodies: &[Vec<u8>]) -> Vec<u8> {
    let mut file = Vec::new();
    push_16(&mut file, bodies.len());
    let mut offset = 2 + 4 * bodies.len();
    for body in bodies {
        push_16(&mut file, offset);
        push_16(&mut file, body.len());
        offset += body.len();
    }
    file.extend(bodies.concat());
    file
}

/// The low 16 bits; a figure that has more makes a damaged file.
fn push_16(file: &mut Vec<u8>, figure: usize) {
    file.push(figure as u8);
    file.push((figure >> 8) as u8);
}
