//! The rules of trading, as docs/RULES.md and docs/REFUSALS.md state them.
//!
//! Nothing is kept in order and nothing is kept twice: resting orders and quotations stand in plain
//! lists, and at each step all of them are looked at again.

use crate::file::{Call, Entry, Kind, Mark, Side, Terms, Type};
use std::cmp::{Ordering, Reverse};

pub const PRICE: u32 = 1;
pub const SHARES: u32 = 2;
pub const SMALL_OLO: u32 = 3;
pub const SMALL_ILO: u32 = 4;
pub const LARGE_MTV: u32 = 5;
pub const SIDE_FULL: u32 = 6;
pub const ARRIVALS_SPENT: u32 = 7;
pub const NOT_RESTING: u32 = 9;
pub const CUT_SHARES: u32 = 10;
pub const MARKET_NUMBER: u32 = 11;
pub const QUOTATION: u32 = 12;

/// An accepted order.
#[derive(Clone, Debug)]
pub struct Order {
    pub arrival: u64,
    pub kind: Kind,
    pub side: Side,
    pub price: u64,
    pub open: u64,
    pub ranking_size: u64,
    pub terms: Option<Terms>,
}

#[derive(Clone, Debug)]
pub struct Quotation {
    pub market: u64,
    pub side: Side,
    pub price: u64,
    pub shares: u64,
}

#[derive(Clone, Copy, PartialEq, Eq, Debug)]
pub enum Row {
    Fill { incoming: u64, resting: u64, price: u64, shares: u64 },
    Route { arrival: u64, market: u64, price: u64, shares: u64 },
}

/// What a call answers. A refused call answers its number and nothing else.
#[derive(Clone, PartialEq, Eq, Debug, Default)]
pub struct Answer {
    pub refusal: u32,
    pub arrival: u64,
    pub open: u64,
    pub cancelled: u64,
    pub rows: Vec<Row>,
}

fn refused(refusal: u32) -> Answer {
    Answer { refusal, ..Answer::default() }
}

/// The book and its board.
#[derive(Default)]
pub struct Book {
    pub resting: Vec<Order>,
    pub quotations: Vec<Quotation>,
    pub accepted: u64,
}

pub fn other(side: Side) -> Side {
    match side {
        Side::Buy => Side::Sell,
        Side::Sell => Side::Buy,
    }
}

/// Of two prices at which an order of this side stands, or at which one of the other side can trade
/// with it: the higher bid is better, and the lower offer.
fn better(side: Side, price: u64, than: u64) -> bool {
    match side {
        Side::Buy => price > than,
        Side::Sell => price < than,
    }
}

fn in_range(figure: u64) -> bool {
    (1..=1_000_000).contains(&figure)
}

fn is_program(kind: Kind) -> bool {
    kind == Kind::Olo || kind == Kind::Ilo
}

fn size_allowed(kind: Kind, price: u64, size: u64) -> bool {
    match kind {
        Kind::Displayed | Kind::Dark => size >= 1,
        Kind::Olo => size >= 500,
        Kind::Ilo => size >= 5_000 && price * size >= 5_000_000,
    }
}

fn mtv(order: &Order) -> u64 {
    order.terms.map_or(0, |terms| terms.mtv)
}

fn is_type_2(order: &Order) -> bool {
    order.terms.is_some_and(|terms| terms.kind_of_ilo == Type::Two)
}

fn has_mark_c(terms: Option<Terms>) -> bool {
    terms.is_some_and(|terms| terms.mark == Mark::Cancel)
}

/// The kinds that meet; the table is the same whichever of the two is incoming.
fn kinds_meet(a: Kind, b: Kind) -> bool {
    match (a, b) {
        (Kind::Ilo, _) | (_, Kind::Ilo) => true,
        (Kind::Olo, _) | (_, Kind::Olo) => false,
        _ => true,
    }
}

/// The order of a side: price, then class, then by size-time or by arrival.
fn order_of_side(a: &Order, b: &Order) -> Ordering {
    let by_price = match a.side {
        Side::Buy => b.price.cmp(&a.price),
        Side::Sell => a.price.cmp(&b.price),
    };
    let class = |order: &Order| match order.kind {
        Kind::Displayed => 1,
        Kind::Olo | Kind::Ilo => 2,
        Kind::Dark => 3,
    };
    let in_class = if is_program(a.kind) && is_program(b.kind) {
        (Reverse(a.ranking_size), a.arrival).cmp(&(Reverse(b.ranking_size), b.arrival))
    } else {
        a.arrival.cmp(&b.arrival)
    };
    by_price.then(class(a).cmp(&class(b))).then(in_class)
}

impl Book {
    pub fn play(&mut self, call: &Call) -> Answer {
        match call {
            Call::Enter(entry) => self.enter(entry),
            Call::Cut { arrival, shares } => self.cut(*arrival, *shares),
            Call::Cancel { arrival } => self.cancel(*arrival),
            Call::Post { market, side, price, shares } => self.post(*market, *side, *price, *shares),
        }
    }

    pub fn lit(&self) -> bool {
        self.resting.iter().any(|order| is_program(order.kind))
    }

    // ---- Who may trade ----

    fn limit_holds(incoming: &Order, price: u64) -> bool {
        match incoming.side {
            Side::Sell => price >= incoming.price,
            Side::Buy => price <= incoming.price,
        }
    }

    fn resting_mtv_holds(incoming: &Order, resting: &Order) -> bool {
        mtv(resting) <= incoming.open
    }

    fn quotations_hold(&self, incoming: &Order, price: u64) -> bool {
        self.quotations.iter().all(|quotation| {
            let counts = !is_type_2(incoming) || quotation.side == incoming.side;
            !(counts && better(quotation.side, quotation.price, price))
        })
    }

    fn displayed_hold(&self, incoming: &Order, resting: &Order) -> bool {
        if !(is_program(incoming.kind) && is_program(resting.kind)) {
            return true;
        }
        let price = resting.price;
        self.resting.iter().filter(|order| order.kind == Kind::Displayed).all(|displayed| match displayed.side {
            Side::Buy => displayed.price < price,
            Side::Sell => displayed.price > price,
        })
    }

    /// Conditions 1 to 4, which the measure looks at.
    fn measured(&self, incoming: &Order, resting: &Order) -> bool {
        resting.side != incoming.side
            && Book::limit_holds(incoming, resting.price)
            && kinds_meet(incoming.kind, resting.kind)
            && Book::resting_mtv_holds(incoming, resting)
            && self.quotations_hold(incoming, resting.price)
    }

    /// All five.
    fn may_trade(&self, incoming: &Order, resting: &Order) -> bool {
        self.measured(incoming, resting) && self.displayed_hold(incoming, resting)
    }

    // ---- Enter ----

    fn enter(&mut self, entry: &Entry) -> Answer {
        let refusal = self.refuses(entry);
        if refusal != 0 {
            return refused(refusal);
        }
        self.accepted += 1;
        let mut incoming = Order {
            arrival: self.accepted,
            kind: entry.kind,
            side: entry.side,
            price: entry.price,
            open: entry.shares,
            ranking_size: entry.shares,
            terms: entry.terms,
        };
        let reached = mtv(&incoming) == 0 || self.volume(&incoming) >= mtv(&incoming);
        let rows = if reached { self.sweep(&mut incoming) } else { Vec::new() };
        let mut answer = Answer { refusal: 0, arrival: incoming.arrival, open: 0, cancelled: 0, rows };
        if has_mark_c(incoming.terms) {
            answer.cancelled = incoming.open;
        } else {
            answer.open = incoming.open;
            if incoming.open > 0 {
                self.resting.push(incoming);
            }
        }
        answer
    }

    /// The refusal of an entry, in the order of checking, or 0.
    fn refuses(&self, entry: &Entry) -> u32 {
        let too_small = !size_allowed(entry.kind, entry.price, entry.shares);
        let on_its_side = self.resting.iter().filter(|order| order.side == entry.side).count();
        if !in_range(entry.price) {
            PRICE
        } else if !in_range(entry.shares) {
            SHARES
        } else if entry.kind == Kind::Olo && too_small {
            SMALL_OLO
        } else if entry.kind == Kind::Ilo && too_small {
            SMALL_ILO
        } else if entry.terms.is_some_and(|terms| terms.mtv > entry.shares) {
            LARGE_MTV
        } else if self.accepted == 1_000_000 {
            ARRIVALS_SPENT
        } else if on_its_side == 128 && !has_mark_c(entry.terms) {
            SIDE_FULL
        } else {
            0
        }
    }

    /// What the measure counts for an entry with an MTV.
    fn volume(&self, incoming: &Order) -> u64 {
        let mut volume = 0;
        for resting in &self.resting {
            if self.measured(incoming, resting) {
                volume += resting.open;
            }
        }
        if is_type_2(incoming) {
            for quotation in &self.quotations {
                if quotation.side != incoming.side && Book::limit_holds(incoming, quotation.price) {
                    volume += quotation.shares;
                }
            }
        }
        volume
    }

    fn sweep(&mut self, incoming: &mut Order) -> Vec<Row> {
        let mut rows = Vec::new();
        while incoming.open > 0 {
            let Some(chosen) = self.first_that_may_trade(incoming) else { break };
            let row = match self.quotation_to_route_to(incoming, chosen.price) {
                Some(quotation) => self.route(incoming, &quotation),
                None => self.fill(incoming, &chosen),
            };
            rows.push(row);
        }
        rows
    }

    fn first_that_may_trade(&self, incoming: &Order) -> Option<Order> {
        let mut all: Vec<&Order> = self.resting.iter().filter(|resting| self.may_trade(incoming, resting)).collect();
        all.sort_by(|a, b| order_of_side(a, b));
        all.first().map(|&order| order.clone())
    }

    /// For Type 2: the best quotation of the other side that is strictly better than the chosen price,
    /// of equal prices that of the lowest market.
    fn quotation_to_route_to(&self, incoming: &Order, chosen_price: u64) -> Option<Quotation> {
        if !is_type_2(incoming) {
            return None;
        }
        let side = other(incoming.side);
        let mut all: Vec<&Quotation> = self
            .quotations
            .iter()
            .filter(|quotation| quotation.side == side && better(side, quotation.price, chosen_price))
            .collect();
        all.sort_by(|a, b| {
            let by_price = match side {
                Side::Buy => b.price.cmp(&a.price),
                Side::Sell => a.price.cmp(&b.price),
            };
            by_price.then(a.market.cmp(&b.market))
        });
        all.first().map(|&quotation| quotation.clone())
    }

    fn route(&mut self, incoming: &mut Order, to: &Quotation) -> Row {
        let shares = to.shares.min(incoming.open);
        incoming.open -= shares;
        for quotation in &mut self.quotations {
            if quotation.market == to.market && quotation.side == to.side {
                quotation.shares -= shares;
            }
        }
        self.quotations.retain(|quotation| quotation.shares > 0);
        Row::Route { arrival: incoming.arrival, market: to.market, price: to.price, shares }
    }

    fn fill(&mut self, incoming: &mut Order, chosen: &Order) -> Row {
        let shares = chosen.open.min(incoming.open);
        incoming.open -= shares;
        for order in &mut self.resting {
            if order.arrival == chosen.arrival {
                order.open -= shares;
            }
        }
        self.resting.retain(|order| order.open > 0);
        Row::Fill { incoming: incoming.arrival, resting: chosen.arrival, price: chosen.price, shares }
    }

    // ---- Cut, cancel, post ----

    fn cut(&mut self, arrival: u64, shares: u64) -> Answer {
        let Some(order) = self.resting.iter_mut().find(|order| order.arrival == arrival) else {
            return refused(NOT_RESTING);
        };
        if shares == 0 || shares > order.open {
            return refused(CUT_SHARES);
        }
        let was_open = order.open;
        order.open -= shares;
        order.ranking_size -= shares;
        let stays = order.open > 0 && size_allowed(order.kind, order.price, order.ranking_size);
        if stays {
            return Answer { arrival, open: order.open, cancelled: shares, ..Answer::default() };
        }
        self.resting.retain(|order| order.arrival != arrival);
        Answer { arrival, open: 0, cancelled: was_open, ..Answer::default() }
    }

    fn cancel(&mut self, arrival: u64) -> Answer {
        let Some(order) = self.resting.iter().find(|order| order.arrival == arrival) else {
            return refused(NOT_RESTING);
        };
        let was_open = order.open;
        self.resting.retain(|order| order.arrival != arrival);
        Answer { arrival, open: 0, cancelled: was_open, ..Answer::default() }
    }

    fn post(&mut self, market: u64, side: Side, price: u64, shares: u64) -> Answer {
        if !(1..=16).contains(&market) {
            return refused(MARKET_NUMBER);
        }
        let removes = shares == 0 && price == 0;
        let sets = in_range(shares) && in_range(price);
        if !removes && !sets {
            return refused(QUOTATION);
        }
        self.quotations.retain(|quotation| !(quotation.market == market && quotation.side == side));
        if sets {
            self.quotations.push(Quotation { market, side, price, shares });
        }
        Answer::default()
    }
}
