//! Lawful sessions from a seed, in several manners.

use crate::random::Random;

/// The bodies of a session.
pub type Session = Vec<Vec<u8>>;

/// How the bodies of a session are drawn. Percents and weights are chances.
struct Manner {
    name: &'static str,
    bodies: (u64, u64),
    /// Weights of `N`, `U`, `X` and `Q`.
    letters: [u64; 4],
    /// Weights of `L`, `D`, `O` and `I`.
    kinds: [u64; 4],
    /// The limits of buys and of sells, where the order is not to sweep.
    buy_prices: (u64, u64),
    sell_prices: (u64, u64),
    /// Entries with a limit among the other side's prices, and so many times the size.
    sweep_percent: u64,
    sweep_factor: u64,
    /// Sizes next to the least of the kind.
    edge_percent: u64,
    type_2_percent: u64,
    mtv_percent: u64,
    mark_c_percent: u64,
    /// Posts that remove.
    removal_percent: u64,
    /// Figures next to or outside of their range.
    odd_percent: u64,
    away_bids: (u64, u64),
    away_offers: (u64, u64),
}

const DENSE: Manner = Manner {
    name: "dense",
    bodies: (1, 80),
    letters: [70, 7, 6, 17],
    kinds: [25, 15, 25, 35],
    buy_prices: (997, 1002),
    sell_prices: (998, 1003),
    sweep_percent: 12,
    sweep_factor: 10,
    edge_percent: 25,
    type_2_percent: 50,
    mtv_percent: 40,
    mark_c_percent: 35,
    removal_percent: 30,
    odd_percent: 1,
    away_bids: (995, 1001),
    away_offers: (999, 1005),
};

/// Few bodies, so that a difference is short to begin with and empty books come up often.
const SHORT: Manner = Manner { name: "short", bodies: (0, 14), ..DENSE };

const LONG: Manner = Manner { name: "long", bodies: (512, 512), ..DENSE };

/// One or two prices: class and ranking decide.
const ONE_PRICE: Manner = Manner {
    name: "one price",
    bodies: (10, 120),
    buy_prices: (1000, 1001),
    sell_prices: (1000, 1000),
    letters: [80, 12, 3, 5],
    kinds: [8, 22, 40, 30],
    edge_percent: 50,
    away_bids: (998, 1001),
    away_offers: (1000, 1002),
    ..DENSE
};

/// Orders apart, up to 128 on a side, and now and then an order that sweeps far.
const DEEP: Manner = Manner {
    name: "deep",
    bodies: (280, 512),
    letters: [90, 4, 2, 4],
    kinds: [30, 30, 20, 20],
    buy_prices: (980, 998),
    sell_prices: (1002, 1020),
    sweep_percent: 2,
    sweep_factor: 100,
    edge_percent: 10,
    mark_c_percent: 25,
    removal_percent: 40,
    away_bids: (976, 999),
    away_offers: (1001, 1024),
    ..DENSE
};

/// Many quotations on both sides, and Type 2 orders across them.
const ROUTES: Manner = Manner {
    name: "routes",
    bodies: (20, 150),
    letters: [45, 2, 3, 50],
    kinds: [15, 10, 15, 60],
    buy_prices: (996, 1000),
    sell_prices: (1000, 1004),
    sweep_percent: 30,
    type_2_percent: 85,
    mtv_percent: 35,
    removal_percent: 5,
    away_bids: (995, 1000),
    away_offers: (1000, 1005),
    ..DENSE
};

/// Cuts across the least sizes of OLOs and ILOs, at prices where the least of an ILO changes.
const CUTS: Manner = Manner {
    name: "cuts",
    bodies: (10, 120),
    letters: [50, 38, 4, 8],
    kinds: [8, 7, 40, 45],
    buy_prices: (990, 1000),
    sell_prices: (999, 1008),
    sweep_percent: 5,
    edge_percent: 70,
    mark_c_percent: 8,
    ..DENSE
};

/// MTVs on nearly every ILO, and few other orders: routes take the incoming order below them.
const MTVS: Manner = Manner {
    name: "MTVs",
    bodies: (5, 100),
    letters: [65, 5, 5, 25],
    kinds: [8, 7, 15, 70],
    type_2_percent: 65,
    mtv_percent: 85,
    mark_c_percent: 25,
    sweep_percent: 30,
    sweep_factor: 1,
    away_bids: (996, 1001),
    away_offers: (999, 1004),
    ..DENSE
};

/// Figures at the ends of their ranges and beyond.
const ODD: Manner = Manner { name: "odd", bodies: (5, 80), odd_percent: 15, ..DENSE };

const MANNERS: [(&Manner, u64); 9] = [
    (&DENSE, 22),
    (&SHORT, 22),
    (&LONG, 3),
    (&ONE_PRICE, 12),
    (&DEEP, 5),
    (&ROUTES, 12),
    (&CUTS, 10),
    (&MTVS, 9),
    (&ODD, 5),
];

/// A session of one of the manners, and its name.
pub fn session(random: &mut Random) -> (Session, &'static str) {
    let weights: Vec<u64> = MANNERS.iter().map(|(_, weight)| *weight).collect();
    let manner = MANNERS[random.weighted(&weights)].0;
    (of_manner(manner, random), manner.name)
}

pub fn short(random: &mut Random) -> Session {
    of_manner(&SHORT, random)
}

pub fn long(random: &mut Random) -> Session {
    of_manner(&LONG, random)
}

pub fn deep(random: &mut Random) -> Session {
    let manner = Manner { bodies: (512, 512), ..DEEP };
    of_manner(&manner, random)
}

pub fn routes(random: &mut Random) -> Session {
    let manner = Manner { bodies: (512, 512), ..ROUTES };
    of_manner(&manner, random)
}

fn of_manner(manner: &Manner, random: &mut Random) -> Session {
    let count = random.within(manner.bodies.0, manner.bodies.1);
    let mut maker = Maker { manner, random, entered: 0 };
    (0..count).map(|_| maker.body().into_bytes()).collect()
}

struct Maker<'a> {
    manner: &'a Manner,
    random: &'a mut Random,
    /// The `N` bodies so far: the arrival numbers go about as far.
    entered: u64,
}

impl Maker<'_> {
    fn body(&mut self) -> String {
        match self.random.weighted(&self.manner.letters) {
            0 => self.entry(),
            1 => format!("U {} {}", self.arrival(), self.cut_shares()),
            2 => format!("X {}", self.arrival()),
            _ => self.post(),
        }
    }

    fn entry(&mut self) -> String {
        self.entered += 1;
        let label = self.label();
        let kind = ["L", "D", "O", "I"][self.random.weighted(&self.manner.kinds)];
        let is_buy = self.random.chance(50);
        let side = if is_buy { "B" } else { "S" };
        let sweeps = self.random.chance(self.manner.sweep_percent);
        let price = self.limit(is_buy, sweeps);
        let shares = self.shares(kind, price, sweeps);
        let body = format!("N {label} {kind} {side} {price} {shares}");
        if kind != "I" {
            return body;
        }
        let kind_of_ilo = if self.random.chance(self.manner.type_2_percent) { 2 } else { 1 };
        let mark = if self.random.chance(self.manner.mark_c_percent) { "C" } else { "R" };
        format!("{body} {kind_of_ilo} {} {mark}", self.mtv(shares))
    }

    /// Now and then a word that a line of the listing may begin with too.
    fn label(&mut self) -> String {
        if self.random.chance(6) {
            return self.random.pick(&["F", "R", "LI", "0", "BAD"]).to_string();
        }
        const ALPHABET: &[u8] = b"ABCDEFGHIJKLMNOPQRSTUVWXYZ0123456789";
        let length = self.random.within(1, 12);
        (0..length).map(|_| *self.random.pick(ALPHABET) as char).collect()
    }

    fn odd(&mut self) -> Option<u64> {
        const FIGURES: [u64; 14] =
            [0, 1, 2, 4, 5, 16, 17, 499, 4_999, 999_999, 1_000_000, 1_000_001, 9_999_999, 65_536];
        self.random.chance(self.manner.odd_percent).then(|| *self.random.pick(&FIGURES))
    }

    fn limit(&mut self, is_buy: bool, sweeps: bool) -> u64 {
        if let Some(odd) = self.odd() {
            return odd;
        }
        // A sweep takes its limit from the prices of the other side, often the one farthest away.
        let (low, high) = if is_buy != sweeps { self.manner.buy_prices } else { self.manner.sell_prices };
        if sweeps && self.random.chance(50) {
            return if is_buy { high } else { low };
        }
        self.random.within(low, high)
    }

    fn shares(&mut self, kind: &str, price: u64, sweeps: bool) -> u64 {
        if let Some(odd) = self.odd() {
            return odd;
        }
        let least = match kind {
            "O" => 500,
            "I" => 5_000_000_u64.div_ceil(price.max(1)).max(5_000),
            _ => 1,
        };
        if self.random.chance(self.manner.edge_percent) {
            return (least + self.random.within(0, 4)).saturating_sub(1).min(9_999_999);
        }
        let most = if kind == "L" || kind == "D" { 3_000 } else { 4_000 };
        // Round lots, so that sums meet MTVs and sizes are often equal.
        let lots = self.random.within(0, most / 500) * 500;
        let size = least + if self.random.chance(70) { lots } else { self.random.within(0, most) };
        (if sweeps { size * self.manner.sweep_factor } else { size }).min(1_000_000)
    }

    fn mtv(&mut self, shares: u64) -> u64 {
        if !self.random.chance(self.manner.mtv_percent) {
            return 0;
        }
        match self.random.below(20) {
            0 => shares + 1,
            1..=6 => shares,
            7 => shares.saturating_sub(1),
            8..=12 => self.random.within(1, 3_000),
            _ => self.random.within(0, shares / 500) * 500,
        }
        .min(9_999_999)
    }

    /// Mostly a late arrival number, which is more often at rest.
    fn arrival(&mut self) -> u64 {
        if let Some(odd) = self.odd() {
            return odd;
        }
        let most = self.entered + 1;
        if self.random.chance(60) {
            most - self.random.within(0, 12).min(most)
        } else {
            self.random.within(0, most)
        }
    }

    fn cut_shares(&mut self) -> u64 {
        if let Some(odd) = self.odd() {
            return odd;
        }
        match self.random.below(4) {
            0 => self.random.within(0, 6),
            1 => 100 * self.random.within(1, 10),
            2 => 500 * self.random.within(1, 12),
            _ => self.random.within(1, 4_000),
        }
    }

    fn post(&mut self) -> String {
        let market =
            if self.random.chance(2) { *self.random.pick(&[0, 17, 9_999_999]) } else { self.random.within(1, 16) };
        let is_bid = self.random.chance(50);
        let side = if is_bid { "B" } else { "S" };
        if self.random.chance(self.manner.removal_percent) {
            return format!("Q {market} {side} 0 0");
        }
        let (low, high) = if is_bid { self.manner.away_bids } else { self.manner.away_offers };
        let price = self.odd().unwrap_or_else(|| self.random.within(low, high));
        let shares = self.odd().unwrap_or_else(|| 100 * self.random.within(1, 30));
        format!("Q {market} {side} {price} {shares}")
    }
}
