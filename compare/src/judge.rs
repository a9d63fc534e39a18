//! Three desks side by side: ours, lobster, and the rules in plain lists. Every step goes to all three, and all that they answer
//! is compared. An order that ours refuses never reaches lobster.

use crate::plain::{LastTrade, Plain};
use crate::step::Step;
use felavuti::{FillMetadata, OrderBook, OrderEvent, OrderType, Refusal, Side, Size, ORDERS, PLACES, PRICES};
use std::fmt::Debug;

/// How many levels lobster is asked for at most: it reserves that many.
const MOST_LEVELS: u64 = 1_024;

pub struct Desks {
    pub ours: OrderBook,
    pub lobster: lobster::OrderBook,
    pub plain: Plain,
    /// The last event, as all three gave it.
    pub event: Option<OrderEvent>,
}

pub enum Verdict {
    Accepted,
    Refused(Refusal),
}

/// What differs, in words.
pub type Difference = String;

/// `Ok` where two answers are equal.
fn same<T: PartialEq + Debug>(what: &str, ours: &T, who: &str, theirs: &T) -> Result<(), Difference> {
    if ours == theirs {
        return Ok(());
    }
    Err(format!("{what}: ours {ours:?}, {who} {theirs:?}"))
}

impl Desks {
    pub fn new() -> Desks {
        Desks { ours: OrderBook::default(), lobster: lobster::OrderBook::default(), plain: Plain::new(Size::BASE), event: None }
    }

    /// Carries a step out at all three desks and compares event, fills, quotes, spread, volume and last trade.
    pub fn step(&mut self, step: Step) -> Result<Verdict, Difference> {
        let due = match self.plain.carry_out(step, ORDERS) {
            Ok(event) => event,
            Err(refusal) => return self.refused(step, refusal),
        };
        let (ours, theirs) = match step {
            Step::Track(on) => {
                self.ours.track_stats(on);
                self.lobster.track_stats(on);
                (None, None)
            }
            Step::Order(order) => {
                let ours =
                    self.ours.execute(order).map_err(|refusal| format!("the answer: ours {refusal}, by the rules {due:?}"))?;
                (Some(ours), Some(event_of(self.lobster.execute(order_of(order)))))
            }
        };
        same("the event", &ours, "lobster", &theirs)?;
        same("the event", &ours, "by the rules", &due)?;
        self.event = ours;
        self.figures()?;
        Ok(Verdict::Accepted)
    }

    /// Ours must refuse with this number and change nothing.
    fn refused(&mut self, step: Step, due: Refusal) -> Result<Verdict, Difference> {
        let Step::Order(order) = step else { return Err("the rules refused to switch tracking".into()) };
        let before = self.ours.stored().clone();
        same("the refusal", &self.ours.execute(order), "by the rules", &Err(due))?;
        match *self.ours.stored() == before {
            true => Ok(Verdict::Refused(due)),
            false => Err(format!("{due}, and yet the stored book changed")),
        }
    }

    fn figures(&self) -> Result<(), Difference> {
        let quotes = (self.ours.min_ask(), self.ours.max_bid(), self.ours.spread());
        let theirs = (self.lobster.min_ask(), self.lobster.max_bid(), self.lobster.spread());
        same("lowest ask, highest bid, spread", &quotes, "lobster", &theirs)?;
        same("lowest ask, highest bid, spread", &quotes, "by the rules", &self.plain.quotes())?;
        same("volume", &self.ours.traded_volume(), "lobster", &self.lobster.traded_volume())?;
        same("volume", &self.ours.traded_volume(), "by the rules", &self.plain.volume)?;
        let ours = self.ours.last_trade();
        let short = ours.map(|t| (t.total_qty, t.avg_price.to_bits(), t.last_price, t.last_qty));
        let theirs = self.lobster.last_trade().map(|t| (t.total_qty, t.avg_price.to_bits(), t.last_price, t.last_qty));
        same("last trade (total, bits of the average, price, quantity)", &short, "lobster", &theirs)?;
        let long = ours.map(|t| LastTrade {
            total: t.total_qty,
            average_bits: t.avg_price.to_bits(),
            whole_average: t.whole_avg_price,
            price: t.last_price,
            qty: t.last_qty,
        });
        same("last trade", &long, "by the rules", &self.plain.last)?;
        same("how many orders rest", &self.ours.resting(), "by the rules", &self.plain.resting())
    }

    /// Compares the depth. Where a level's total is too large for ours, lobster isn't asked: its sum would wrap.
    pub fn depth(&self, asked: u64) -> Result<Verdict, Difference> {
        let levels = (asked % (MOST_LEVELS + 1)) as usize;
        let due = self.plain.depth(2 * PRICES);
        let ours = self.ours.depth(levels).map(|depth| {
            let pairs = |side: Vec<felavuti::BookLevel>| side.iter().map(|level| (level.price, level.qty)).collect::<Vec<_>>();
            (depth.levels, pairs(depth.asks), pairs(depth.bids))
        });
        same("depth", &ours, "by the rules", &due.map(|(asks, bids)| (levels, asks, bids)))?;
        let Ok(ours) = ours else { return Ok(Verdict::Refused(Refusal::LevelTooLarge)) };
        let depth = self.lobster.depth(levels);
        let pairs = |side: Vec<lobster::BookLevel>| side.iter().map(|level| (level.price, level.qty)).collect::<Vec<_>>();
        same("depth", &ours, "lobster", &(depth.levels, pairs(depth.asks), pairs(depth.bids)))?;
        Ok(Verdict::Accepted)
    }

    /// Compares what the search finds under an id with the rules, and its count with the walk over the stored places. Lobster's
    /// own search is private.
    pub fn search(&self, id: u64) -> Result<(), Difference> {
        let found = self.ours.get(id);
        let order = found.order.map(|level| (level.price, level.qty));
        let due = self.plain.find(id).map(|order| (order.price, order.qty));
        same(&format!("the search for {id}"), &order, "by the rules", &due)?;
        same(&format!("places looked at for {id}"), &found.looked_at, "by the walk", &walk(&self.ours, id))
    }
}

/// How many places a search for an id looks at: from its home on, wrapping, until it meets the id or a free place.
fn walk(book: &OrderBook, id: u64) -> u64 {
    let stored = book.stored();
    let mut place = (id % PLACES as u64) as usize;
    let mut count = 1;
    while stored.search[place] != 0 && stored.records[(stored.search[place] as usize - 1) * 5] != id {
        place = (place + 1) % PLACES;
        count += 1;
    }
    count
}

fn side_of(side: Side) -> lobster::Side {
    match side {
        Side::Bid => lobster::Side::Bid,
        Side::Ask => lobster::Side::Ask,
    }
}

/// An order of ours as one of lobster's.
pub fn order_of(order: OrderType) -> lobster::OrderType {
    match order {
        OrderType::Market { id, side, qty } => lobster::OrderType::Market { id: id.into(), side: side_of(side), qty },
        OrderType::Limit { id, side, qty, price } => lobster::OrderType::Limit { id: id.into(), side: side_of(side), qty, price },
        OrderType::Cancel { id } => lobster::OrderType::Cancel { id: id.into() },
    }
}

/// Ids below 2^64 went in, so they come out.
fn id_of(id: u128) -> u64 {
    id.try_into().expect("lobster answers with ids that it was given")
}

fn fill_of(fill: lobster::FillMetadata) -> FillMetadata {
    FillMetadata {
        order_1: id_of(fill.order_1),
        order_2: id_of(fill.order_2),
        qty: fill.qty,
        price: fill.price,
        taker_side: if fill.taker_side == lobster::Side::Bid { Side::Bid } else { Side::Ask },
        total_fill: fill.total_fill,
    }
}

/// An event of lobster's as one of ours.
pub fn event_of(event: lobster::OrderEvent) -> OrderEvent {
    let fills_of = |fills: Vec<lobster::FillMetadata>| fills.into_iter().map(fill_of).collect();
    match event {
        lobster::OrderEvent::Unfilled { id } => OrderEvent::Unfilled { id: id_of(id) },
        lobster::OrderEvent::Placed { id } => OrderEvent::Placed { id: id_of(id) },
        lobster::OrderEvent::Canceled { id } => OrderEvent::Canceled { id: id_of(id) },
        lobster::OrderEvent::PartiallyFilled { id, filled_qty, fills } => {
            OrderEvent::PartiallyFilled { id: id_of(id), filled_qty, fills: fills_of(fills) }
        }
        lobster::OrderEvent::Filled { id, filled_qty, fills } => {
            OrderEvent::Filled { id: id_of(id), filled_qty, fills: fills_of(fills) }
        }
    }
}
