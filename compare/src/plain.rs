//! The desk's rules in plain lists, written from document 01's words alone: a third desk, which says when a refusal is due.
//! Lobster knows no refusals, so it cannot judge them.

use crate::step::Step;
use felavuti::{FillMetadata, OrderEvent, OrderType, Refusal, Side, Size};

#[derive(Debug, Clone, PartialEq)]
pub struct Resting {
    pub id: u64,
    pub qty: u64,
    pub price: u64,
    /// Whether the search by id finds it: a newer namesake hides it for ever.
    pub found: bool,
}

#[derive(Debug, Clone, Copy, PartialEq)]
pub struct LastTrade {
    pub total: u64,
    pub average_bits: u64,
    pub whole_average: u64,
    pub price: u64,
    pub qty: u64,
}

#[derive(Debug, Clone, PartialEq)]
pub struct Plain {
    pub size: Size,
    /// Best first, and at one price the earliest first.
    pub bids: Vec<Resting>,
    pub asks: Vec<Resting>,
    pub tracking: bool,
    pub volume: u64,
    pub last: Option<LastTrade>,
}

/// A depth: asks and bids, both ascending.
pub type Levels = (Vec<(u64, u64)>, Vec<(u64, u64)>);

/// What an order does: its fills, how many makers they use up, and what is left of it.
struct Outcome {
    fills: Vec<FillMetadata>,
    used_up: usize,
    left: u64,
}

impl Plain {
    pub fn new(size: Size) -> Plain {
        Plain { size, bids: vec![], asks: vec![], tracking: false, volume: 0, last: None }
    }

    pub fn side(&self, side: Side) -> &Vec<Resting> {
        match side {
            Side::Bid => &self.bids,
            Side::Ask => &self.asks,
        }
    }

    fn side_mut(&mut self, side: Side) -> &mut Vec<Resting> {
        match side {
            Side::Bid => &mut self.bids,
            Side::Ask => &mut self.asks,
        }
    }

    pub fn resting(&self) -> usize {
        self.bids.len() + self.asks.len()
    }

    /// How many different prices a side has.
    pub fn prices(&self, side: Side) -> usize {
        let orders = self.side(side);
        orders.iter().enumerate().filter(|&(i, order)| i == 0 || orders[i - 1].price != order.price).count()
    }

    /// Carries a step out, or refuses it with nothing changed. `room` is the number of places lent for fills. `None` answers a
    /// switch of tracking.
    pub fn carry_out(&mut self, step: Step, room: usize) -> Result<Option<OrderEvent>, Refusal> {
        match step {
            Step::Track(on) => {
                self.tracking = on;
                Ok(None)
            }
            Step::Order(OrderType::Cancel { id }) => {
                self.bids.retain(|order| !(order.found && order.id == id));
                self.asks.retain(|order| !(order.found && order.id == id));
                Ok(Some(OrderEvent::Canceled { id }))
            }
            Step::Order(OrderType::Market { id, side, qty }) => self.order(id, side, qty, None, room).map(Some),
            Step::Order(OrderType::Limit { id, side, qty, price }) => self.order(id, side, qty, Some(price), room).map(Some),
        }
    }

    fn order(&mut self, id: u64, side: Side, qty: u64, limit: Option<u64>, room: usize) -> Result<OrderEvent, Refusal> {
        let Outcome { fills, used_up, left } = self.outcome(id, side, qty, limit);
        self.refusal(side, limit, left, &fills, room).map_or(Ok(()), Err)?;
        let filled_qty = qty - left;
        self.record(&fills, filled_qty);
        let makers = self.side_mut(!side);
        makers.drain(..used_up);
        if let Some(part) = fills.last().filter(|fill| !fill.total_fill) {
            makers[0].qty -= part.qty;
        }
        if let (Some(price), true) = (limit, left > 0) {
            self.rest(id, side, left, price);
        }
        Ok(match (fills.is_empty(), left, limit) {
            (true, _, None) => OrderEvent::Unfilled { id },
            (true, _, Some(_)) => OrderEvent::Placed { id },
            (false, 0, _) => OrderEvent::Filled { id, filled_qty, fills },
            (false, _, _) => OrderEvent::PartiallyFilled { id, filled_qty, fills },
        })
    }

    fn outcome(&self, id: u64, side: Side, qty: u64, limit: Option<u64>) -> Outcome {
        let meets = |price: u64| match (limit, side) {
            (None, _) => true,
            (Some(limit), Side::Bid) => price <= limit,
            (Some(limit), Side::Ask) => price >= limit,
        };
        let mut out = Outcome { fills: vec![], used_up: 0, left: qty };
        for maker in self.side(!side).iter().take_while(|maker| meets(maker.price)) {
            if out.left == 0 {
                break;
            }
            let given = maker.qty.min(out.left);
            let total_fill = given == maker.qty;
            out.left -= given;
            out.used_up += usize::from(total_fill);
            out.fills.push(FillMetadata {
                order_1: id,
                order_2: maker.id,
                qty: given,
                price: maker.price,
                taker_side: side,
                total_fill,
            });
        }
        out
    }

    /// The lowest number that applies.
    fn refusal(&self, side: Side, limit: Option<u64>, left: u64, fills: &[FillMetadata], room: usize) -> Option<Refusal> {
        if fills.len() > room {
            return Some(Refusal::TooManyFills);
        }
        let filled: u128 = fills.iter().map(|fill| u128::from(fill.qty)).sum();
        let most = u128::from(u64::MAX);
        if self.tracking && !fills.is_empty() && (worth(fills) > most || u128::from(self.volume) + filled > most) {
            return Some(Refusal::SumTooLarge);
        }
        let price = limit.filter(|_| left > 0)?;
        if self.resting() >= self.size.orders {
            return Some(Refusal::BookFull);
        }
        let new = !self.side(side).iter().any(|order| order.price == price);
        (new && self.prices(side) >= self.size.prices).then_some(Refusal::SideFull)
    }

    fn record(&mut self, fills: &[FillMetadata], filled: u64) {
        let Some(last) = fills.last().filter(|_| self.tracking) else { return };
        let sum = worth(fills) as u64;
        self.volume += filled;
        self.last = Some(LastTrade {
            total: filled,
            average_bits: (sum as f64 / filled as f64).to_bits(),
            whole_average: sum / filled,
            price: last.price,
            qty: last.qty,
        });
    }

    fn rest(&mut self, id: u64, side: Side, qty: u64, price: u64) {
        for order in self.bids.iter_mut().chain(&mut self.asks).filter(|order| order.id == id) {
            order.found = false;
        }
        let orders = self.side_mut(side);
        let at = orders.partition_point(|order| match side {
            Side::Bid => order.price >= price,
            Side::Ask => order.price <= price,
        });
        orders.insert(at, Resting { id, qty, price, found: true });
    }

    /// Lowest ask, highest bid, spread.
    pub fn quotes(&self) -> (Option<u64>, Option<u64>, Option<u64>) {
        let (ask, bid) = (self.asks.first().map(|order| order.price), self.bids.first().map(|order| order.price));
        (ask, bid, ask.zip(bid).map(|(ask, bid)| ask - bid))
    }

    pub fn find(&self, id: u64) -> Option<&Resting> {
        self.bids.iter().chain(&self.asks).find(|order| order.found && order.id == id)
    }

    /// The depth, where `room` is the number of places lent.
    pub fn depth(&self, room: usize) -> Result<Levels, Refusal> {
        let asks = totals(self.asks.iter());
        let bids = totals(self.bids.iter().rev());
        if asks.len() + bids.len() > room {
            return Err(Refusal::TooManyLevels);
        }
        let fit = |levels: Vec<(u64, u128)>| -> Result<Vec<(u64, u64)>, Refusal> {
            levels.into_iter().map(|(price, total)| Ok((price, total.try_into().map_err(|_| Refusal::LevelTooLarge)?))).collect()
        };
        Ok((fit(asks)?, fit(bids)?))
    }

    /// The statistics as the library's last eight desk numbers.
    pub fn statistics(&self) -> [u64; 8] {
        let l = self.last.unwrap_or(LastTrade { total: 0, average_bits: 0, whole_average: 0, price: 0, qty: 0 });
        let present = u64::from(self.last.is_some());
        [self.tracking.into(), self.volume, present, l.total, l.average_bits, l.whole_average, l.price, l.qty]
    }
}

/// S, the sum of price times quantity.
fn worth(fills: &[FillMetadata]) -> u128 {
    // at most 1,024 fills whose quantities add up to at most 2^64 - 1: it fits
    fills.iter().map(|fill| u128::from(fill.price) * u128::from(fill.qty)).sum()
}

/// The prices of a sorted side with their totals.
fn totals<'a>(orders: impl Iterator<Item = &'a Resting>) -> Vec<(u64, u128)> {
    let mut levels: Vec<(u64, u128)> = vec![];
    for order in orders {
        match levels.last_mut() {
            Some((price, total)) if *price == order.price => *total += u128::from(order.qty),
            _ => levels.push((order.price, order.qty.into())),
        }
    }
    levels
}
