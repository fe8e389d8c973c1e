//! The rig as an engineer would write it in plain Rust for speed.
//!
//! A side is an array sorted by one number per order, so that a sweep is one pass from the front; the
//! best quotation of each side is kept; nothing is allocated after the first session.

const SIDE_CELLS: usize = 128;
const MARKETS: usize = 16;
const MILLION: u32 = 1_000_000;
const REPORT_ROWS: usize = SIDE_CELLS + MARKETS;

const BUY: usize = 0;

#[derive(Clone, Copy, PartialEq, Eq)]
enum Kind {
    Displayed,
    Dark,
    Olo,
    Ilo,
}

#[derive(Clone, Copy)]
struct Entry {
    label_at: u32,
    label_length: u8,
    kind: Kind,
    side: u8,
    type_2: bool,
    mark_c: bool,
    price: u32,
    shares: u32,
    mtv: u32,
}

#[derive(Clone, Copy)]
enum Call {
    Enter(Entry),
    Cut { arrival: u32, shares: u32 },
    Cancel { arrival: u32 },
    Post { market: u32, side: u8, price: u32, shares: u32 },
}

#[derive(Clone, Copy)]
struct Order {
    /// The order of the side: the lower stands ahead. See `key`.
    key: u64,
    arrival: u32,
    price: u32,
    open: u32,
    ranking_size: u32,
    mtv: u32,
    kind: Kind,
}

const NO_ORDER: Order = Order { key: 0, arrival: 0, price: 0, open: 0, ranking_size: 0, mtv: 0, kind: Kind::Displayed };

struct Side {
    orders: [Order; SIDE_CELLS],
    count: usize,
    displayed: usize,
}

impl Side {
    fn all(&self) -> &[Order] {
        &self.orders[..self.count]
    }

    fn put(&mut self, order: Order) {
        let at = self.all().partition_point(|standing| standing.key < order.key);
        self.orders.copy_within(at..self.count, at + 1);
        self.orders[at] = order;
        self.count += 1;
        self.displayed += (order.kind == Kind::Displayed) as usize;
    }

    fn remove(&mut self, at: usize) -> Order {
        let order = self.orders[at];
        self.orders.copy_within(at + 1..self.count, at);
        self.count -= 1;
        self.displayed -= (order.kind == Kind::Displayed) as usize;
        order
    }

    fn find(&self, arrival: u32) -> Option<usize> {
        self.all().iter().position(|order| order.arrival == arrival)
    }

    fn best_displayed(&self) -> Option<u32> {
        if self.displayed == 0 {
            return None;
        }
        self.all().iter().find(|order| order.kind == Kind::Displayed).map(|order| order.price)
    }

    /// Takes out the orders before `end` that have nothing open.
    fn drop_filled(&mut self, end: usize) {
        let mut kept = 0;
        for at in 0..end {
            let order = self.orders[at];
            if order.open > 0 {
                self.orders[kept] = order;
                kept += 1;
            } else {
                self.displayed -= (order.kind == Kind::Displayed) as usize;
            }
        }
        if kept < end {
            self.orders.copy_within(end..self.count, kept);
            self.count -= end - kept;
        }
    }
}

#[derive(Clone, Copy)]
struct Quotation {
    price: u32,
    shares: u32,
}

/// The quotations of one side by market, and the best of them: its price, 0 for none, and its index.
struct Board {
    quotations: [Quotation; MARKETS],
    best_price: u32,
    best_at: usize,
    is_bid: bool,
}

impl Board {
    fn find_best(&mut self) {
        self.best_price = 0;
        for at in 0..MARKETS {
            let price = self.quotations[at].price;
            let better = if self.is_bid { price > self.best_price } else { price < self.best_price };
            if price != 0 && (self.best_price == 0 || better) {
                self.best_price = price;
                self.best_at = at;
            }
        }
    }

    fn set(&mut self, at: usize, quotation: Quotation) {
        self.quotations[at] = quotation;
        self.find_best();
    }

    fn take_best(&mut self, shares: u32) {
        let best = &mut self.quotations[self.best_at];
        best.shares -= shares;
        if best.shares == 0 {
            best.price = 0;
            self.find_best();
        }
    }

    /// The best price is better than this one.
    fn beats(&self, price: u32) -> bool {
        self.best_price != 0 && is_better(self.is_bid, self.best_price, price)
    }
}

#[inline(always)]
fn is_better(is_bid: bool, price: u32, than: u32) -> bool {
    if is_bid {
        price > than
    } else {
        price < than
    }
}

fn is_program(kind: Kind) -> bool {
    matches!(kind, Kind::Olo | Kind::Ilo)
}

fn kinds_meet(a: Kind, b: Kind) -> bool {
    a == Kind::Ilo || b == Kind::Ilo || (a != Kind::Olo && b != Kind::Olo)
}

fn size_allowed(kind: Kind, price: u32, size: u32) -> bool {
    match kind {
        Kind::Displayed | Kind::Dark => size >= 1,
        Kind::Olo => size >= 500,
        Kind::Ilo => size >= 5_000 && price as u64 * size as u64 >= 5_000_000,
    }
}

/// Price, class, size and arrival in one number, 20 bits each but for the class.
fn key(side: usize, kind: Kind, price: u32, ranking_size: u32, arrival: u32) -> u64 {
    let by_price = if side == BUY { MILLION - price } else { price } as u64;
    let (class, by_size) = match kind {
        Kind::Displayed => (0, 0),
        Kind::Olo | Kind::Ilo => (1, (MILLION - ranking_size) as u64),
        Kind::Dark => (2, 0),
    };
    by_price << 42 | class << 40 | by_size << 20 | arrival as u64
}

#[derive(Clone, Copy)]
struct Row {
    letter: u8,
    with: u32,
    price: u32,
    shares: u32,
}

#[derive(Default)]
struct Answer {
    refusal: u32,
    arrival: u32,
    open: u32,
    cancelled: u32,
    rows: usize,
}

fn refused(refusal: u32) -> Answer {
    Answer { refusal, ..Answer::default() }
}

pub struct Fast {
    calls: Vec<Call>,
    sides: [Side; 2],
    boards: [Board; 2],
    rows: [Row; REPORT_ROWS],
    accepted: u32,
}

impl Default for Fast {
    fn default() -> Fast {
        Fast::new()
    }
}

impl Fast {
    pub fn new() -> Fast {
        let side = || Side { orders: [NO_ORDER; SIDE_CELLS], count: 0, displayed: 0 };
        let board = |is_bid| Board {
            quotations: [Quotation { price: 0, shares: 0 }; MARKETS],
            best_price: 0,
            best_at: 0,
            is_bid,
        };
        Fast {
            calls: Vec::with_capacity(512),
            sides: [side(), side()],
            boards: [board(true), board(false)],
            rows: [Row { letter: 0, with: 0, price: 0, shares: 0 }; REPORT_ROWS],
            accepted: 0,
        }
    }

    /// The bytes of the listing, or the number of the refusal.
    pub fn play_into(&mut self, file: &[u8], listing: &mut [u8]) -> Result<usize, u32> {
        if listing.len() < 65_536 {
            return Err(17);
        }
        self.read(file)?;
        self.clear();
        let mut out = Writer { listing, at: 0 };
        for at in 0..self.calls.len() {
            let call = self.calls[at];
            let (answer, label) = match call {
                Call::Enter(entry) => {
                    let start = entry.label_at as usize;
                    (self.enter(&entry), &file[start..start + entry.label_length as usize])
                }
                Call::Cut { arrival, shares } => (self.cut(arrival, shares), &b"-"[..]),
                Call::Cancel { arrival } => (self.cancel(arrival), &b"-"[..]),
                Call::Post { market, side, price, shares } => (self.post(market, side, price, shares), &b"-"[..]),
            };
            out.line(label, [answer.refusal, answer.arrival, answer.open, answer.cancelled]);
            for row in &self.rows[..answer.rows] {
                out.line(&[row.letter], [answer.arrival, row.with, row.price, row.shares]);
            }
        }
        let lit = self.sides.iter().any(|side| side.all().iter().any(|order| is_program(order.kind)));
        out.bytes(if lit { b"LI 1\n" } else { b"LI 0\n" });
        Ok(out.at)
    }

    fn clear(&mut self) {
        self.accepted = 0;
        for side in &mut self.sides {
            side.count = 0;
            side.displayed = 0;
        }
        for board in &mut self.boards {
            board.quotations = [Quotation { price: 0, shares: 0 }; MARKETS];
            board.best_price = 0;
        }
    }

    // ---- Reading ----

    fn read(&mut self, file: &[u8]) -> Result<(), u32> {
        self.calls.clear();
        if file.len() < 2 || file.len() > 65_535 {
            return Err(14);
        }
        let count = number_16(file, 0);
        if count > 512 || file.len() < 2 + 4 * count {
            return Err(14);
        }
        let mut place = 2 + 4 * count;
        for entry in file[2..place].chunks_exact(4) {
            if number_16(entry, 0) != place {
                return Err(15);
            }
            place += number_16(entry, 2);
        }
        if place != file.len() {
            return Err(15);
        }
        let mut start = 2 + 4 * count;
        for entry in file[2..start].chunks_exact(4) {
            let end = start + number_16(entry, 2);
            let mut body = Body { file, at: start, end };
            let call = body.call().filter(|_| body.at == end).ok_or(16u32)?;
            self.calls.push(call);
            start = end;
        }
        Ok(())
    }

    // ---- The calls ----

    fn enter(&mut self, entry: &Entry) -> Answer {
        let refusal = self.refuses(entry);
        if refusal != 0 {
            return refused(refusal);
        }
        self.accepted += 1;
        let mut q = entry.shares;
        let mut rows = 0;
        if entry.mtv == 0 || self.reaches_mtv(entry) {
            rows = self.sweep(entry, &mut q);
        }
        let mut answer = Answer { refusal: 0, arrival: self.accepted, open: q, cancelled: 0, rows };
        if entry.mark_c {
            (answer.open, answer.cancelled) = (0, q);
        } else if q > 0 {
            let side = entry.side as usize;
            self.sides[side].put(Order {
                key: key(side, entry.kind, entry.price, entry.shares, self.accepted),
                arrival: self.accepted,
                price: entry.price,
                open: q,
                ranking_size: entry.shares,
                mtv: entry.mtv,
                kind: entry.kind,
            });
        }
        answer
    }

    fn refuses(&self, entry: &Entry) -> u32 {
        if entry.price.wrapping_sub(1) >= MILLION {
            1
        } else if entry.shares.wrapping_sub(1) >= MILLION {
            2
        } else if !size_allowed(entry.kind, entry.price, entry.shares) {
            if entry.kind == Kind::Olo {
                3
            } else {
                4
            }
        } else if entry.mtv > entry.shares {
            5
        } else if self.sides[entry.side as usize].count == SIDE_CELLS && !entry.mark_c {
            6
        } else {
            0
        }
    }

    fn reaches_mtv(&self, entry: &Entry) -> bool {
        let own = entry.side as usize;
        let (own_board, board) = (&self.boards[own], &self.boards[1 - own]);
        let is_buy = own == BUY;
        let mut volume = 0u64;
        if entry.type_2 {
            for quotation in &board.quotations {
                if quotation.price != 0 && !is_better(!is_buy, entry.price, quotation.price) {
                    volume += quotation.shares as u64;
                }
            }
        }
        for order in self.sides[1 - own].all() {
            if is_better(!is_buy, entry.price, order.price) || (!entry.type_2 && board.beats(order.price)) {
                break;
            }
            if !own_board.beats(order.price) && kinds_meet(entry.kind, order.kind) && order.mtv <= entry.shares {
                volume += order.open as u64;
            }
        }
        volume >= entry.mtv as u64
    }

    /// One pass over the other side: in a sweep q falls, quotations of the entry's own side and
    /// displayed orders of its own side stay, and a displayed order that was passed over stays too, so
    /// an order that was passed over never may trade later.
    fn sweep(&mut self, entry: &Entry, left: &mut u32) -> usize {
        let own = entry.side as usize;
        let is_buy = own == BUY;
        let program = is_program(entry.kind);
        let own_displayed = if program { self.sides[own].best_displayed() } else { None };
        let mut displayed_ahead = false;
        let mut rows = 0;
        let mut q = *left;
        let mut at = 0;
        let mut filled = false;
        let side = &mut self.sides[1 - own];
        let [bids, offers] = &mut self.boards;
        let (own_board, board) = if is_buy { (bids, offers) } else { (offers, bids) };
        while q > 0 && at < side.count {
            let order = &mut side.orders[at];
            let price = order.price;
            if is_better(!is_buy, entry.price, price) || (!entry.type_2 && board.beats(price)) {
                break;
            }
            let barred = program
                && is_program(order.kind)
                && (displayed_ahead || own_displayed.is_some_and(|own| !is_better(!is_buy, own, price)));
            let may_trade = !own_board.beats(price) && kinds_meet(entry.kind, order.kind) && !barred;
            if may_trade {
                while q > 0 && order.mtv <= q && entry.type_2 && board.beats(price) {
                    let best = board.quotations[board.best_at];
                    let shares = best.shares.min(q);
                    self.rows[rows] = Row { letter: b'R', with: board.best_at as u32 + 1, price: best.price, shares };
                    rows += 1;
                    q -= shares;
                    board.take_best(shares);
                }
                if q > 0 && order.mtv <= q {
                    let shares = order.open.min(q);
                    self.rows[rows] = Row { letter: b'F', with: order.arrival, price, shares };
                    rows += 1;
                    q -= shares;
                    order.open -= shares;
                    filled |= order.open == 0;
                }
            }
            displayed_ahead |= order.kind == Kind::Displayed && order.open > 0;
            at += 1;
        }
        if filled {
            side.drop_filled(at);
        }
        *left = q;
        rows
    }

    fn find(&self, arrival: u32) -> Option<(usize, usize)> {
        (0..2).find_map(|side| self.sides[side].find(arrival).map(|at| (side, at)))
    }

    fn cut(&mut self, arrival: u32, shares: u32) -> Answer {
        let Some((side, at)) = self.find(arrival) else { return refused(9) };
        let was = self.sides[side].orders[at];
        if shares == 0 || shares > was.open {
            return refused(10);
        }
        let open = was.open - shares;
        let ranking_size = was.ranking_size - shares;
        if open == 0 || !size_allowed(was.kind, was.price, ranking_size) {
            self.sides[side].remove(at);
            return Answer { arrival, cancelled: was.open, ..Answer::default() };
        }
        let key = key(side, was.kind, was.price, ranking_size, arrival);
        let order = Order { key, open, ranking_size, ..was };
        if key == was.key {
            self.sides[side].orders[at] = order;
        } else {
            self.sides[side].remove(at);
            self.sides[side].put(order);
        }
        Answer { arrival, open, cancelled: shares, ..Answer::default() }
    }

    fn cancel(&mut self, arrival: u32) -> Answer {
        let Some((side, at)) = self.find(arrival) else { return refused(9) };
        let was = self.sides[side].remove(at);
        Answer { arrival, cancelled: was.open, ..Answer::default() }
    }

    fn post(&mut self, market: u32, side: u8, price: u32, shares: u32) -> Answer {
        if market.wrapping_sub(1) >= MARKETS as u32 {
            return refused(11);
        }
        let removes = price == 0 && shares == 0;
        let sets = price.wrapping_sub(1) < MILLION && shares.wrapping_sub(1) < MILLION;
        if !removes && !sets {
            return refused(12);
        }
        self.boards[side as usize].set(market as usize - 1, Quotation { price, shares });
        Answer::default()
    }
}

fn number_16(bytes: &[u8], place: usize) -> usize {
    u16::from_le_bytes([bytes[place], bytes[place + 1]]) as usize
}

/// A body that is being read, from `at` to `end`. None is a field that is malformed or missing.
struct Body<'a> {
    file: &'a [u8],
    at: usize,
    end: usize,
}

impl Body<'_> {
    fn byte(&self) -> Option<u8> {
        if self.at < self.end {
            Some(self.file[self.at])
        } else {
            None
        }
    }

    fn space(&mut self) -> Option<()> {
        (self.byte()? == b' ').then(|| self.at += 1)
    }

    fn letter(&mut self) -> Option<u8> {
        let letter = self.byte()?;
        self.at += 1;
        Some(letter)
    }

    fn number(&mut self) -> Option<u32> {
        self.space()?;
        let start = self.at;
        let mut value = 0u32;
        while let Some(byte) = self.byte() {
            let digit = byte.wrapping_sub(b'0');
            if digit > 9 || self.at - start == 7 {
                break;
            }
            value = 10 * value + digit as u32;
            self.at += 1;
        }
        let length = self.at - start;
        (length > 0 && (length == 1 || self.file[start] != b'0')).then_some(value)
    }

    fn side(&mut self) -> Option<u8> {
        self.space()?;
        match self.letter()? {
            b'B' => Some(0),
            b'S' => Some(1),
            _ => None,
        }
    }

    fn call(&mut self) -> Option<Call> {
        match self.letter()? {
            b'N' => self.entry().map(Call::Enter),
            b'U' => Some(Call::Cut { arrival: self.number()?, shares: self.number()? }),
            b'X' => Some(Call::Cancel { arrival: self.number()? }),
            b'Q' => Some(Call::Post {
                market: self.number()?,
                side: self.side()?,
                price: self.number()?,
                shares: self.number()?,
            }),
            _ => None,
        }
    }

    fn entry(&mut self) -> Option<Entry> {
        self.space()?;
        let label_at = self.at;
        while matches!(self.byte(), Some(b'A'..=b'Z' | b'0'..=b'9')) {
            self.at += 1;
        }
        let label_length = self.at - label_at;
        if label_length == 0 || label_length > 12 {
            return None;
        }
        self.space()?;
        let kind = match self.letter()? {
            b'L' => Kind::Displayed,
            b'D' => Kind::Dark,
            b'O' => Kind::Olo,
            b'I' => Kind::Ilo,
            _ => return None,
        };
        let side = self.side()?;
        let price = self.number()?;
        let shares = self.number()?;
        let (mut type_2, mut mtv, mut mark_c) = (false, 0, false);
        if kind == Kind::Ilo {
            self.space()?;
            type_2 = match self.letter()? {
                b'1' => false,
                b'2' => true,
                _ => return None,
            };
            mtv = self.number()?;
            self.space()?;
            mark_c = match self.letter()? {
                b'R' => false,
                b'C' => true,
                _ => return None,
            };
        }
        let label_at = label_at as u32;
        Some(Entry { label_at, label_length: label_length as u8, kind, side, type_2, mark_c, price, shares, mtv })
    }
}

struct Writer<'a> {
    listing: &'a mut [u8],
    at: usize,
}

impl Writer<'_> {
    #[inline]
    fn bytes(&mut self, bytes: &[u8]) {
        self.listing[self.at..self.at + bytes.len()].copy_from_slice(bytes);
        self.at += bytes.len();
    }

    #[inline]
    fn byte(&mut self, byte: u8) {
        self.listing[self.at] = byte;
        self.at += 1;
    }

    fn number(&mut self, mut value: u32) {
        let mut digits = [0u8; 10];
        let mut start = digits.len();
        loop {
            start -= 1;
            digits[start] = b'0' + (value % 10) as u8;
            value /= 10;
            if value == 0 {
                break;
            }
        }
        for &digit in &digits[start..] {
            self.byte(digit);
        }
    }

    fn line(&mut self, word: &[u8], figures: [u32; 4]) {
        for &byte in word {
            self.byte(byte);
        }
        for figure in figures {
            self.byte(b' ');
            self.number(figure);
        }
        self.byte(b'\n');
    }
}
