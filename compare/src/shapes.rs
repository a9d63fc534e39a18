//! The shapes of random histories, and how a shape draws the next step.

use crate::plain::Plain;
use crate::random::Random;
use crate::step::{cancel, limit, market, Step};
use felavuti::{Side, PLACES};

pub struct Shape {
    pub name: &'static str,
    pub about: &'static str,
    /// How many accepted steps a history has.
    pub length: usize,
    /// How many steps in a thousand are market orders, cancels, switches of tracking. The rest are limit orders.
    market: u64,
    cancel: u64,
    switch: u64,
    /// Whether tracking is on at first.
    pub tracking: bool,
    ids: Ids,
    prices: Prices,
    quantities: Quantities,
}

enum Ids {
    /// Never used before.
    New,
    /// From so many, so that namesakes are common.
    Pool(u64),
    /// A few homes in the search, near its end, so that walks are long and wrap.
    Homes,
    /// The highest ones.
    Top,
    Any,
}

enum Prices {
    /// So many prices from the first on, for both sides.
    From(u64, u64),
    /// Bids below, asks above, so many each; one order in 16 crosses.
    Apart(u64),
    /// A middle that wanders, and so many prices around it.
    Wander(u64),
    /// 0, 2^64 - 1 and others where sums and doubles turn.
    Edges,
    /// Of a random length in bits.
    Bits,
    /// Between 2^40 and 2^63: doubles can't hold all of them.
    Dear,
}

enum Quantities {
    /// From 1 on.
    UpTo(u64),
    /// From 0 on.
    Zeros(u64),
    /// From 1 on; every sixth market order sweeps many makers.
    Sweeps(u64),
    Edges,
    Bits,
    /// So that price times quantity is near 2^64.
    Worth,
}

const USUAL: Shape = Shape {
    name: "",
    about: "",
    length: 2_000,
    market: 150,
    cancel: 150,
    switch: 2,
    tracking: true,
    ids: Ids::New,
    prices: Prices::From(1_000, 16),
    quantities: Quantities::UpTo(20),
};

pub const SHAPES: &[Shape] = &[
    Shape { name: "usual", about: "a middle that wanders, all kinds of order", prices: Prices::Wander(24), ..USUAL },
    Shape { name: "few-prices", about: "three prices that both sides use", prices: Prices::From(1_000, 3), ..USUAL },
    Shape {
        name: "many-prices",
        about: "hundreds of prices: sides get full",
        market: 40,
        cancel: 60,
        prices: Prices::Apart(400),
        ..USUAL
    },
    Shape {
        name: "one-price",
        about: "long queues at two prices",
        length: 3_000,
        market: 20,
        cancel: 200,
        prices: Prices::Apart(1),
        quantities: Quantities::Sweeps(9),
        ..USUAL
    },
    Shape {
        name: "sweeps",
        about: "orders that take hundreds of makers",
        length: 3_000,
        market: 50,
        cancel: 30,
        prices: Prices::Apart(60),
        quantities: Quantities::Sweeps(5),
        ..USUAL
    },
    Shape {
        name: "wide-quantities",
        about: "quantities of any length in bits, tracking off",
        tracking: false,
        switch: 0,
        quantities: Quantities::Bits,
        ..USUAL
    },
    Shape {
        name: "wide-tracked",
        about: "the same with tracking on: sums come near 2^64",
        length: 500,
        quantities: Quantities::Bits,
        prices: Prices::From(0, 4),
        ..USUAL
    },
    Shape { name: "wide-prices", about: "prices of any length in bits", length: 1_000, prices: Prices::Bits, ..USUAL },
    Shape {
        name: "edges",
        about: "prices and quantities at 0, 2^63, 2^64 - 1 and beside them",
        length: 1_000,
        switch: 60,
        prices: Prices::Edges,
        quantities: Quantities::Edges,
        ..USUAL
    },
    Shape {
        name: "averages",
        about: "prices above 2^40 and sums near 2^64: doubles round",
        length: 1_000,
        switch: 10,
        prices: Prices::Dear,
        quantities: Quantities::Worth,
        ..USUAL
    },
    Shape {
        name: "near-averages",
        about: "prices beside 2^54, several fills an order: doubles round twice",
        length: 1_000,
        market: 300,
        prices: Prices::From(1 << 54, 5),
        quantities: Quantities::Worth,
        ..USUAL
    },
    Shape {
        name: "zeros",
        about: "every third quantity is zero, ids repeat",
        ids: Ids::Pool(40),
        quantities: Quantities::Zeros(2),
        ..USUAL
    },
    Shape {
        name: "namesakes",
        about: "six ids: hidden orders, cancels of hidden and used-up ones",
        cancel: 250,
        ids: Ids::Pool(6),
        ..USUAL
    },
    Shape {
        name: "many-namesakes",
        about: "300 ids in a well-filled book",
        cancel: 250,
        market: 80,
        ids: Ids::Pool(300),
        prices: Prices::Apart(40),
        ..USUAL
    },
    Shape {
        name: "homes",
        about: "ids with few homes: long walks of the search, wrapping",
        length: 3_000,
        cancel: 350,
        market: 60,
        ids: Ids::Homes,
        prices: Prices::Apart(30),
        ..USUAL
    },
    Shape { name: "high-ids", about: "ids up to 2^64 - 1", ids: Ids::Top, ..USUAL },
    Shape { name: "any-ids", about: "any ids", ids: Ids::Any, prices: Prices::Apart(20), ..USUAL },
    Shape { name: "switching", about: "tracking switched all the time", switch: 200, ..USUAL },
    Shape { name: "market-heavy", about: "two orders of three are market orders", market: 660, cancel: 40, ..USUAL },
    Shape { name: "cancel-heavy", about: "half of all are cancels", market: 60, cancel: 500, prices: Prices::Apart(30), ..USUAL },
    Shape {
        name: "full-book",
        about: "up to 1,024 resting orders and back",
        length: 5_000,
        market: 20,
        cancel: 60,
        prices: Prices::Apart(50),
        ..USUAL
    },
    Shape {
        name: "full-sides",
        about: "128 prices on both sides",
        length: 4_000,
        market: 15,
        cancel: 30,
        prices: Prices::Apart(140),
        quantities: Quantities::Zeros(30),
        ..USUAL
    },
];

pub fn named(name: &str) -> Option<&'static Shape> {
    SHAPES.iter().find(|shape| shape.name == name)
}

const EDGES: [u64; 12] =
    [0, 1, 2, 3, (1 << 32) - 1, 1 << 32, (1 << 53) + 1, (1 << 63) - 1, 1 << 63, (1 << 63) + 1, u64::MAX - 1, u64::MAX];

/// Draws the steps of one history.
pub struct Draw {
    pub random: Random,
    next_id: u64,
    middle: u64,
    /// The last ids given to orders.
    recent: [u64; 32],
    drawn: usize,
}

impl Draw {
    pub fn new(random: Random) -> Draw {
        Draw { random, next_id: 1, middle: 1_000_000, recent: [0; 32], drawn: 0 }
    }

    pub fn step(&mut self, shape: &Shape, desk: &Plain) -> Step {
        let kind = self.random.below(1_000);
        if kind < shape.switch {
            return Step::Track(self.random.one_in(2));
        }
        if kind < shape.switch + shape.cancel {
            return cancel(self.cancelled(shape, desk));
        }
        let side = if self.random.one_in(2) { Side::Bid } else { Side::Ask };
        let id = self.id(&shape.ids);
        self.recent[self.drawn % 32] = id;
        self.drawn += 1;
        let price = self.price(&shape.prices, side);
        let is_market = kind < shape.switch + shape.cancel + shape.market;
        let qty = self.quantity(&shape.quantities, price, is_market);
        match is_market {
            true => market(id, side, qty),
            false => limit(id, side, qty, price),
        }
    }

    /// Half of all cancels name an order that rests; the others recent ids (used up, hidden, cancelled before) and unknown ones.
    fn cancelled(&mut self, shape: &Shape, desk: &Plain) -> u64 {
        let rest = desk.resting() as u64;
        match self.random.below(8) {
            0..=3 if rest > 0 => {
                let at = self.random.below(rest) as usize;
                desk.bids.iter().chain(&desk.asks).nth(at).map_or(0, |order| order.id)
            }
            4..=6 => self.random.pick(&self.recent),
            _ => self.id(&shape.ids),
        }
    }

    fn id(&mut self, ids: &Ids) -> u64 {
        self.next_id += 1;
        let homes = PLACES as u64;
        match ids {
            Ids::New => self.next_id,
            Ids::Pool(n) => self.random.below(*n),
            Ids::Homes => self.random.below(500) * homes + homes - 3 + self.random.below(5),
            Ids::Top => u64::MAX - self.random.below(3_000),
            Ids::Any => self.random.any(),
        }
    }

    fn price(&mut self, prices: &Prices, side: Side) -> u64 {
        match *prices {
            Prices::From(first, n) => first + self.random.below(n),
            Prices::Apart(n) => {
                let above = (side == Side::Ask) != self.random.one_in(16);
                1_000 + self.random.below(n) + if above { n } else { 0 }
            }
            Prices::Wander(n) => {
                self.middle = self.middle + self.random.below(3) - 1;
                self.middle + self.random.below(n) - n / 2
            }
            Prices::Edges => self.random.pick(&EDGES),
            Prices::Bits => self.random.bits(64),
            Prices::Dear => {
                let bits = self.random.between(41, 63) as u32;
                let top = 1 << (bits - 1);
                // few prices of a length, so that orders meet
                top + self.random.below(6) * 77_777 + self.random.below(2)
            }
        }
    }

    fn quantity(&mut self, quantities: &Quantities, price: u64, is_market: bool) -> u64 {
        match *quantities {
            Quantities::UpTo(n) => self.random.between(1, n),
            Quantities::Zeros(_) if self.random.one_in(3) => 0,
            Quantities::Zeros(n) => self.random.between(1, n),
            Quantities::Sweeps(n) if is_market && self.random.one_in(6) => n * self.random.between(20, 700),
            Quantities::Sweeps(n) => self.random.between(1, n),
            Quantities::Edges => self.random.pick(&EDGES),
            Quantities::Bits => self.random.bits(64),
            Quantities::Worth => {
                let most = (u64::MAX / price.max(1)) >> self.random.below(6);
                self.random.between(most / 2, most).max(1)
            }
        }
    }
}
