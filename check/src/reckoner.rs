//! The reckoner: reads a tape, that is, the calls of a session and its listing, and judges it from
//! that alone.
//!
//! It keeps the remainder and the ranking size of every arrival number and the quotations, as
//! docs/RULES.md says, and states the conditions in its own words, by the best displayed and the best
//! protected prices, so that a slip in `rules` is not repeated here.

use crate::file::{Call, Entry, Kind, Mark, Side, Type};
use std::collections::BTreeMap;

/// An order as the reckoner keeps it, with what became of its shares.
struct Kept {
    entry: Entry,
    remainder: u64,
    ranking_size: u64,
    filled: u64,
    routed: u64,
    cancelled: u64,
}

/// One line of the listing: a first word and four figures.
struct Line<'a> {
    word: &'a str,
    figures: [u64; 4],
}

/// The lines of the listing before the last, in order, with how many have been read.
struct Lines<'a> {
    all: Vec<Line<'a>>,
    read: usize,
}

#[derive(Default)]
struct Reckoner {
    orders: BTreeMap<u64, Kept>,
    quotations: BTreeMap<(u64, bool), (u64, u64)>, // market and "is a bid", to price and shares
}

type Judged = Result<(), String>;

fn hold(holds: bool, what: impl FnOnce() -> String) -> Judged {
    if holds {
        Ok(())
    } else {
        Err(what())
    }
}

/// Judges the listing of these calls.
pub fn judge(calls: &[Call], listing: &[u8]) -> Judged {
    let text = std::str::from_utf8(listing).map_err(|_| "the listing is no text".to_string())?;
    let (mut lines, light) = parse(text)?;
    let mut reckoner = Reckoner::default();
    for (index, call) in calls.iter().enumerate() {
        reckoner.read_call(call, &mut lines).map_err(|fault| format!("call {index}: {fault}"))?;
        reckoner.orders_are_lawful().map_err(|fault| format!("after call {index}: {fault}"))?;
    }
    hold(lines.read == lines.all.len(), || "lines behind the last call".to_string())?;
    let program_rests = reckoner.resting().any(|(_, order)| is_program(&order.entry));
    hold(light == if program_rests { "LI 1" } else { "LI 0" }, || format!("the last line is {light}"))?;
    reckoner.shares_are_accounted_for()
}

fn parse(text: &str) -> Result<(Lines<'_>, &str), String> {
    let body = text.strip_suffix('\n').ok_or("the last line has no line feed")?;
    let mut lines: Vec<&str> = body.split('\n').collect();
    let light = lines.pop().unwrap_or("");
    let all = lines.into_iter().map(parse_line).collect::<Result<_, _>>()?;
    Ok((Lines { all, read: 0 }, light))
}

fn parse_line(line: &str) -> Result<Line<'_>, String> {
    let bad = || format!("not a line of a listing: {line}");
    let words: Vec<&str> = line.split(' ').collect();
    let [word, figures @ ..] = &words[..] else { return Err(bad()) };
    let mut parsed = [0; 4];
    hold(figures.len() == 4, bad)?;
    for (place, figure) in figures.iter().enumerate() {
        parsed[place] = figure.parse().map_err(|_| bad())?;
        hold(parsed[place].to_string() == *figure, bad)?;
    }
    Ok(Line { word, figures: parsed })
}

impl<'a> Lines<'a> {
    fn next(&mut self) -> Result<&Line<'a>, String> {
        self.read += 1;
        self.all.get(self.read - 1).ok_or("the listing ends early".to_string())
    }

    /// The next line if it is a row. A label may be F or R too: the line of an accepted call then has
    /// answer 0 where a row has an arrival number, and that of a refused call has arrival 0 where a
    /// row has a resting order or a market.
    fn next_row(&mut self) -> Option<&Line<'a>> {
        let line = self.all.get(self.read)?;
        let is_row = (line.word == "F" || line.word == "R") && line.figures[0] > 0 && line.figures[1] > 0;
        if !is_row {
            return None;
        }
        self.read += 1;
        Some(line)
    }
}

fn is_program(entry: &Entry) -> bool {
    matches!(entry.kind, Kind::Olo | Kind::Ilo)
}

fn is_type_2(entry: &Entry) -> bool {
    matches!(entry.terms, Some(terms) if terms.kind_of_ilo == Type::Two)
}

fn mtv(entry: &Entry) -> u64 {
    match entry.terms {
        Some(terms) => terms.mtv,
        None => 0,
    }
}

fn cancels_residue(entry: &Entry) -> bool {
    matches!(entry.terms, Some(terms) if terms.mark == Mark::Cancel)
}

fn least_size_reached(entry: &Entry, size: u64) -> bool {
    let least = match entry.kind {
        Kind::Displayed | Kind::Dark => 1,
        Kind::Olo => 500,
        // The least whole number of shares whose value is 5,000,000.
        Kind::Ilo => 5_000_000_u64.div_ceil(entry.price).max(5_000),
    };
    size >= least
}

fn class(kind: Kind) -> u32 {
    match kind {
        Kind::Displayed => 0,
        Kind::Olo => 1,
        Kind::Ilo => 1,
        Kind::Dark => 2,
    }
}

/// Rows are the incoming kinds, columns the resting ones: displayed, dark, OLO, ILO.
const MEETS: [[bool; 4]; 4] =
    [[true, true, false, true], [true, true, false, true], [false, false, false, true], [true, true, true, true]];

fn number_of(kind: Kind) -> usize {
    match kind {
        Kind::Displayed => 0,
        Kind::Dark => 1,
        Kind::Olo => 2,
        Kind::Ilo => 3,
    }
}

/// Whether order a, with its arrival number, stands ahead of b on their side.
fn stands_ahead(a: (u64, &Kept), b: (u64, &Kept)) -> bool {
    let (price_a, price_b) = (a.1.entry.price, b.1.entry.price);
    if price_a != price_b {
        return (price_a > price_b) == (a.1.entry.side == Side::Buy);
    }
    let (class_a, class_b) = (class(a.1.entry.kind), class(b.1.entry.kind));
    if class_a != class_b {
        return class_a < class_b;
    }
    if is_program(&a.1.entry) && a.1.ranking_size != b.1.ranking_size {
        return a.1.ranking_size > b.1.ranking_size;
    }
    a.0 < b.0
}

impl Reckoner {
    fn resting(&self) -> impl Iterator<Item = (u64, &Kept)> {
        self.orders.iter().filter(|(_, order)| order.remainder > 0).map(|(arrival, order)| (*arrival, order))
    }

    fn remainder(&self, arrival: u64) -> u64 {
        self.orders.get(&arrival).map_or(0, |order| order.remainder)
    }

    /// The best displayed price of a side, all resting orders but the incoming one.
    fn best_displayed(&self, side: Side, incoming: u64) -> Option<u64> {
        let prices = self
            .resting()
            .filter(|(arrival, order)| {
                *arrival != incoming && order.entry.kind == Kind::Displayed && order.entry.side == side
            })
            .map(|(_, order)| order.entry.price);
        match side {
            Side::Buy => prices.max(),
            Side::Sell => prices.min(),
        }
    }

    /// The best protected price of a side.
    fn best_protected(&self, side: Side) -> Option<u64> {
        let prices =
            self.quotations.iter().filter(|((_, bid), _)| *bid == (side == Side::Buy)).map(|(_, (price, _))| *price);
        match side {
            Side::Buy => prices.max(),
            Side::Sell => prices.min(),
        }
    }

    /// Conditions 1 to 4, with q as given.
    fn passes_four(&self, incoming: &Entry, q: u64, resting: &Kept) -> bool {
        let price = resting.entry.price;
        if resting.entry.side == incoming.side {
            return false;
        }
        let within_limit = match incoming.side {
            Side::Buy => price <= incoming.price,
            Side::Sell => price >= incoming.price,
        };
        let meets = MEETS[number_of(incoming.kind)][number_of(resting.entry.kind)];
        let mtv_reached = q >= mtv(&resting.entry);
        let counts = |side: Side| !is_type_2(incoming) || side == incoming.side;
        let passes_bid = counts(Side::Buy) && self.best_protected(Side::Buy).is_some_and(|bid| bid > price);
        let passes_offer = counts(Side::Sell) && self.best_protected(Side::Sell).is_some_and(|offer| offer < price);
        within_limit && meets && mtv_reached && !passes_bid && !passes_offer
    }

    /// All resting orders that may trade with the order that comes in under this arrival number.
    fn who_may_trade(&self, arrival: u64) -> Vec<(u64, &Kept)> {
        let incoming = &self.orders[&arrival];
        let bid = self.best_displayed(Side::Buy, arrival);
        let offer = self.best_displayed(Side::Sell, arrival);
        self.resting()
            .filter(|(other, order)| {
                let price = order.entry.price;
                let clear = bid.is_none_or(|bid| bid < price) && offer.is_none_or(|offer| offer > price);
                let both_program = is_program(&incoming.entry) && is_program(&order.entry);
                *other != arrival
                    && self.passes_four(&incoming.entry, incoming.remainder, order)
                    && (!both_program || clear)
            })
            .collect()
    }

    /// The one that no other stands ahead of.
    fn chosen(&self, arrival: u64) -> Option<(u64, &Kept)> {
        let all = self.who_may_trade(arrival);
        all.iter().copied().find(|&one| all.iter().all(|&another| one.0 == another.0 || stands_ahead(one, another)))
    }

    /// The market, price and shares of the quotation that is due before a fill at this price.
    fn route_due(&self, incoming: &Entry, price: u64) -> Option<(u64, u64, u64)> {
        if !is_type_2(incoming) {
            return None;
        }
        let away = if incoming.side == Side::Buy { Side::Sell } else { Side::Buy };
        let best = self.best_protected(away)?;
        let is_better = if away == Side::Buy { best > price } else { best < price };
        // Markets are in order in the map, so the first at the best price is the lowest.
        let at_best = self.quotations.iter().find(|((_, bid), (at, _))| *bid == (away == Side::Buy) && *at == best);
        at_best.filter(|_| is_better).map(|((market, _), (at, shares))| (*market, *at, *shares))
    }

    // ---- The calls on the tape ----

    fn read_call(&mut self, call: &Call, lines: &mut Lines) -> Judged {
        let line = lines.next()?;
        let label = match call {
            Call::Enter(entry) => std::str::from_utf8(&entry.label).unwrap_or(""),
            _ => "-",
        };
        hold(line.word == label, || format!("the label is {}", line.word))?;
        let [answer, arrival, open, cancelled] = line.figures;
        let due = self.refusal(call);
        hold(answer == due, || format!("answered {answer}, the rules say {due}"))?;
        if answer != 0 {
            return hold(arrival + open + cancelled == 0, || "a refused call answers figures".to_string());
        }
        match call {
            Call::Enter(entry) => self.read_entry(entry, [arrival, open, cancelled], lines),
            Call::Cut { arrival: of, shares } => self.read_cut(*of, *shares, [arrival, open, cancelled]),
            Call::Cancel { arrival: of } => self.read_cancel(*of, [arrival, open, cancelled]),
            Call::Post { market, side, price, shares } => {
                self.read_post(*market, *side, *price, *shares);
                hold(arrival + open + cancelled == 0, || "a post answers figures".to_string())
            }
        }
    }

    /// The refusal that is due, or 0: the first case that applies.
    fn refusal(&self, call: &Call) -> u64 {
        let million = |figure: u64| figure != 0 && figure <= 1_000_000;
        let cases: Vec<(u64, bool)> = match call {
            Call::Enter(entry) => {
                let small = entry.price == 0 || !least_size_reached(entry, entry.shares);
                let own_side = self.resting().filter(|(_, order)| order.entry.side == entry.side).count();
                vec![
                    (1, !million(entry.price)),
                    (2, !million(entry.shares)),
                    (3, entry.kind == Kind::Olo && small),
                    (4, entry.kind == Kind::Ilo && small),
                    (5, mtv(entry) > entry.shares),
                    (6, own_side >= 128 && !cancels_residue(entry)),
                ]
            }
            Call::Cut { arrival, shares } => {
                let open = self.remainder(*arrival);
                vec![(9, open == 0), (10, *shares == 0 || *shares > open)]
            }
            Call::Cancel { arrival } => vec![(9, self.remainder(*arrival) == 0)],
            Call::Post { market, price, shares, .. } => vec![
                (11, *market < 1 || *market > 16),
                (12, *shares > 1_000_000 || (*shares == 0 && *price != 0) || (*shares > 0 && !million(*price))),
            ],
        };
        cases.iter().find(|(_, applies)| *applies).map_or(0, |(number, _)| *number)
    }

    fn read_entry(&mut self, entry: &Entry, answered: [u64; 3], lines: &mut Lines) -> Judged {
        let [arrival, open, cancelled] = answered;
        let next = self.orders.len() as u64 + 1;
        hold(arrival == next, || format!("arrival {arrival}, the next is {next}"))?;
        let shares = entry.shares;
        let kept =
            Kept { entry: entry.clone(), remainder: shares, ranking_size: shares, filled: 0, routed: 0, cancelled: 0 };
        self.orders.insert(arrival, kept);
        let held_back = mtv(entry) > 0 && self.volume(arrival) < mtv(entry);
        let mut rows = 0;
        while let Some(row) = lines.next_row() {
            rows += 1;
            hold(!held_back, || "rows although the volume is below the MTV".to_string())?;
            hold(row.figures[0] == arrival, || format!("a row of {}", row.figures[0]))?;
            if row.word == "F" {
                self.read_fill(arrival, row.figures[1], row.figures[2], row.figures[3])?;
            } else {
                self.read_route(arrival, row.figures[1], row.figures[2], row.figures[3])?;
            }
        }
        hold(rows <= 144, || format!("{rows} rows"))?;
        let ended = held_back || self.remainder(arrival) == 0 || self.who_may_trade(arrival).is_empty();
        hold(ended, || "the sweep ended early".to_string())?;
        let residue = self.remainder(arrival);
        let due = if cancels_residue(entry) { [0, residue] } else { [residue, 0] };
        hold([open, cancelled] == due, || format!("open {open} and cancelled {cancelled} of residue {residue}"))?;
        self.take_off(arrival, cancelled)
    }

    fn volume(&self, arrival: u64) -> u64 {
        let incoming = &self.orders[&arrival].entry;
        let on_book: u64 = self
            .resting()
            .filter(|(_, order)| self.passes_four(incoming, incoming.shares, order))
            .map(|(_, order)| order.remainder)
            .sum();
        let at_limit = |price: u64| match incoming.side {
            Side::Buy => price <= incoming.price,
            Side::Sell => price >= incoming.price,
        };
        let away: u64 = self
            .quotations
            .iter()
            .filter(|((_, bid), (price, _))| *bid != (incoming.side == Side::Buy) && at_limit(*price))
            .map(|(_, (_, shares))| *shares)
            .sum();
        on_book + if is_type_2(incoming) { away } else { 0 }
    }

    fn read_fill(&mut self, arrival: u64, resting: u64, price: u64, shares: u64) -> Judged {
        let (chosen, order) = self.chosen(arrival).ok_or("a fill although no order may trade")?;
        hold(chosen == resting, || format!("fill of {resting} out of turn, {chosen} is first"))?;
        let incoming = &self.orders[&arrival];
        let due = order.remainder.min(incoming.remainder);
        hold(price == order.entry.price && shares == due, || format!("fill of {resting}: {shares} at {price}"))?;
        hold(self.route_due(&incoming.entry, price).is_none(), || format!("fill of {resting}, a route is due"))?;
        // Whatever the type: what was better away has been routed to, or bars the fill.
        let passes = self.best_protected(Side::Buy).is_some_and(|bid| bid > price)
            || self.best_protected(Side::Sell).is_some_and(|offer| offer < price);
        hold(!passes, || format!("fill of {resting} at {price} passes a protected quotation"))?;
        for one in [arrival, resting] {
            let order = self.orders.get_mut(&one).ok_or("a fill of no order")?;
            order.remainder = order.remainder.checked_sub(shares).ok_or("a fill of more than is open")?;
            order.filled += shares;
        }
        Ok(())
    }

    fn read_route(&mut self, arrival: u64, market: u64, price: u64, shares: u64) -> Judged {
        let (_, chosen) = self.chosen(arrival).ok_or("a route although no order may trade")?;
        let incoming = &self.orders[&arrival];
        let due = self.route_due(&incoming.entry, chosen.entry.price).ok_or("a route, none is due")?;
        let taken = due.2.min(incoming.remainder);
        hold((market, price, shares) == (due.0, due.1, taken), || format!("route to {market}, due is {}", due.0))?;
        let bid = incoming.entry.side == Side::Sell;
        let order = self.orders.get_mut(&arrival).ok_or("a route of no order")?;
        order.remainder = order.remainder.checked_sub(shares).ok_or("a route of more than is open")?;
        order.routed += shares;
        let quotation = self.quotations.get_mut(&(market, bid)).ok_or("a route to no quotation")?;
        quotation.1 = quotation.1.checked_sub(shares).ok_or("a route of more than the quotation has")?;
        if quotation.1 == 0 {
            self.quotations.remove(&(market, bid));
        }
        Ok(())
    }

    fn take_off(&mut self, arrival: u64, shares: u64) -> Judged {
        let order = self.orders.get_mut(&arrival).ok_or("no such order")?;
        order.remainder = order.remainder.checked_sub(shares).ok_or("more cancelled than is open")?;
        order.cancelled += shares;
        Ok(())
    }

    fn read_cut(&mut self, of: u64, shares: u64, answered: [u64; 3]) -> Judged {
        let order = self.orders.get_mut(&of).ok_or("a cut of no order")?;
        let was_open = order.remainder;
        order.ranking_size = order.ranking_size.checked_sub(shares).ok_or("a cut below ranking size 0")?;
        let leaves = shares == was_open || !least_size_reached(&order.entry, order.ranking_size);
        let due = if leaves { [of, 0, was_open] } else { [of, was_open - shares, shares] };
        hold(answered == due, || format!("a cut answered {answered:?}, due is {due:?}"))?;
        self.take_off(of, answered[2])
    }

    fn read_cancel(&mut self, of: u64, answered: [u64; 3]) -> Judged {
        let due = [of, 0, self.remainder(of)];
        hold(answered == due, || format!("a cancel answered {answered:?}, due is {due:?}"))?;
        self.take_off(of, answered[2])
    }

    fn read_post(&mut self, market: u64, side: Side, price: u64, shares: u64) {
        let key = (market, side == Side::Buy);
        if shares == 0 {
            self.quotations.remove(&key);
        } else {
            self.quotations.insert(key, (price, shares));
        }
    }

    // ---- What holds after every call, and at the end ----

    fn orders_are_lawful(&self) -> Judged {
        for side in [Side::Buy, Side::Sell] {
            let count = self.resting().filter(|(_, order)| order.entry.side == side).count();
            hold(count <= 128, || format!("{count} orders rest on one side"))?;
        }
        for (arrival, order) in self.resting() {
            hold(order.remainder <= order.ranking_size, || format!("{arrival} has more open than its ranking size"))?;
            hold(least_size_reached(&order.entry, order.ranking_size), || format!("{arrival} rests below its least"))?;
        }
        Ok(())
    }

    /// Of every order, and so of all of them together, each share entered was filled, routed or
    /// cancelled, or is still open; and as many shares were bought in fills as sold.
    fn shares_are_accounted_for(&self) -> Judged {
        let mut bought = 0;
        let mut sold = 0;
        for (arrival, order) in &self.orders {
            let sum = order.filled + order.routed + order.cancelled + order.remainder;
            hold(sum == order.entry.shares, || format!("{arrival} entered {}, but {sum} shares", order.entry.shares))?;
            match order.entry.side {
                Side::Buy => bought += order.filled,
                Side::Sell => sold += order.filled,
            }
        }
        hold(bought == sold, || format!("{bought} shares bought and {sold} sold"))
    }
}
