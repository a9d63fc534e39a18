//! Whole books of many kinds, made by random steps, for the calls that are tried on them.

use crate::layout::blank;
use crate::plain::{LastTrade, Plain};
use crate::random::Random;
use crate::shapes::{Draw, SHAPES};
use crate::step::{limit, Step};
use felavuti::{OrderType, Refusal, Side, Size, Stored};

/// How many steps a book goes through before another one is begun.
const LIFE: usize = 400;

/// Whole books of many kinds, one after another, each with the plain desk that it stands for.
pub struct Books {
    size: Size,
    pub random: Random,
    draw: Draw,
    shape: usize,
    age: usize,
    pub stored: Stored,
    pub plain: Plain,
}

impl Books {
    pub fn new(size: Size, seed: u64) -> Result<Books, String> {
        let draw = Draw::new(Random::new(seed ^ 0xb00c));
        let (stored, plain) = (blank(size), Plain::new(size));
        let mut books = Books { size, random: Random::new(seed), draw, shape: 0, age: LIFE, stored, plain };
        books.begin()?;
        Ok(books)
    }

    fn begin(&mut self) -> Result<(), String> {
        self.shape = self.random.below(SHAPES.len() as u64) as usize;
        self.age = 0;
        self.stored = blank(self.size);
        equal("a fresh book", &self.stored.fresh(), &0)?;
        self.plain = Plain::new(self.size);
        // one book in three begins crowded: that many orders rest, at prices apart
        if self.random.one_in(3) {
            let most = self.random.pick(&[self.size.orders / 2, self.size.orders - 1, self.size.orders]);
            self.crowd(most)?;
        }
        Ok(())
    }

    fn crowd(&mut self, most: usize) -> Result<(), String> {
        let prices = self.random.between(1, self.size.prices as u64);
        for id in 0..most as u64 {
            let side = if self.random.one_in(2) { Side::Bid } else { Side::Ask };
            let price = 1_000 + self.random.below(prices) + if side == Side::Ask { prices } else { 0 };
            let qty = self.random.between(1, 20);
            self.both(limit(id, side, qty, price))?;
        }
        Ok(())
    }

    /// A step at both desks; they are compared elsewhere.
    pub fn both(&mut self, step: Step) -> Result<(), String> {
        let mut fills = vec![0; self.size.orders * 5];
        let mut answer = [0; 4];
        let accepted = match step {
            Step::Track(on) => self.stored.track_stats(on.into()),
            Step::Order(OrderType::Market { id, side, qty }) => {
                self.stored.market(&mut fills, id, side.number(), qty, &mut answer)
            }
            Step::Order(OrderType::Limit { id, side, qty, price }) => {
                self.stored.limit(&mut fills, id, side.number(), qty, price, &mut answer)
            }
            Step::Order(OrderType::Cancel { id }) => self.stored.cancel(id, &mut answer),
        };
        let due = self.plain.carry_out(step, self.size.orders).map_or_else(Refusal::number, |_| 0);
        equal(&format!("the number given to {step}"), &accepted, &due)
    }

    pub fn drawn(&mut self) -> Step {
        self.draw.step(&SHAPES[self.shape], &self.plain)
    }

    /// The next book.
    pub fn next(&mut self) -> Result<(), String> {
        if self.age >= LIFE {
            self.begin()?;
        }
        for _ in 0..=self.random.below(8) {
            let step = self.drawn();
            self.both(step)?;
            self.age += 1;
        }
        // statistics may hold any values
        if self.random.one_in(4) {
            self.any_statistics();
        }
        Ok(())
    }

    fn any_statistics(&mut self) {
        let r = &mut self.random;
        self.plain.tracking = r.one_in(2);
        self.plain.volume = r.pick(&[0, 1, u64::MAX, u64::MAX - 3, 1 << 63]);
        let (total, whole_average, price, qty) = (r.any(), r.bits(64), r.bits(64), r.any());
        let average_bits = (r.any() as f64 / 7.0).to_bits();
        self.plain.last = r.one_in(2).then_some(LastTrade { total, average_bits, whole_average, price, qty });
        self.stored.desk[4..].copy_from_slice(&self.plain.statistics());
    }
}

/// `Ok` where what ours gives is due.
pub fn equal<T: PartialEq + std::fmt::Debug + ?Sized>(what: &str, ours: &T, due: &T) -> Result<(), String> {
    match ours == due {
        true => Ok(()),
        false => Err(format!("{what}: ours {ours:?}, by the rules {due:?}")),
    }
}
