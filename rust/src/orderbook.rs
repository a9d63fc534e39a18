//! The order book: lobster's names over the library's calls.

use crate::models::{Answer, BookDepth, BookLevel, FillRow, Found, OrderEvent, OrderType, Trade};
use crate::refusal::Refusal;
use crate::stored::{Stored, FILL, LEVEL, ORDERS, PRICES};
use std::fmt;

/// A whole book cannot be refused for not being whole, and this type lends its numbers to the library alone.
const WHOLE: &str = "a book made and changed by the library alone is whole";
/// The library is proved to keep to the rows that it is lent.
const LENT: &str = "the fills stand in the rows lent for them";

/// An order book that carries out orders one after another through [`execute`](OrderBook::execute).
///
/// ```
/// use felavuti::{OrderBook, OrderType, Refusal, Side};
///
/// let mut book = OrderBook::new(true);
/// book.execute(OrderType::Limit { id: 1, side: Side::Ask, qty: 10, price: 105 })?;
/// book.execute(OrderType::Limit { id: 2, side: Side::Bid, qty: 4, price: 103 })?;
/// assert_eq!((book.max_bid(), book.min_ask(), book.spread()), (Some(103), Some(105), Some(2)));
///
/// book.execute(OrderType::Market { id: 3, side: Side::Bid, qty: 6 })?;
/// assert_eq!(book.traded_volume(), 6);
/// assert_eq!(book.last_trade().unwrap().whole_avg_price, 105);
/// assert_eq!(book.get(1).order.unwrap().qty, 4);
/// # Ok::<(), Refusal>(())
/// ```
#[derive(Clone)]
pub struct OrderBook {
    stored: Stored,
    /// Room for the fills of any order: each uses a maker up, but for the last.
    fills: Vec<FillRow>,
}

impl Default for OrderBook {
    /// A fresh book with tracking off, as lobster's.
    fn default() -> Self {
        OrderBook::new(false)
    }
}

/// Quotes and sums; all the numbers are shown by [`stored`](OrderBook::stored).
impl fmt::Debug for OrderBook {
    fn fmt(&self, f: &mut fmt::Formatter<'_>) -> fmt::Result {
        f.debug_struct("OrderBook")
            .field("resting", &self.resting())
            .field("max_bid", &self.max_bid())
            .field("min_ask", &self.min_ask())
            .field("traded_volume", &self.traded_volume())
            .field("last_trade", &self.last_trade())
            .finish_non_exhaustive()
    }
}

impl OrderBook {
    /// A fresh book: no orders, volume 0, no last trade. `track_stats` says whether trades are tracked.
    pub fn new(track_stats: bool) -> Self {
        let mut book = OrderBook { stored: Stored::default(), fills: vec![FillRow::default(); ORDERS] };
        book.track_stats(track_stats);
        book
    }

    /// Carries out an order.
    ///
    /// ```
    /// use felavuti::{OrderBook, OrderEvent, OrderType, Refusal, Side, ORDERS};
    ///
    /// let mut book = OrderBook::default();
    /// book.execute(OrderType::Limit { id: 1, side: Side::Ask, qty: 5, price: 103 })?;
    /// match book.execute(OrderType::Market { id: 2, side: Side::Bid, qty: 3 })? {
    ///     OrderEvent::Filled { fills, .. } => assert_eq!((fills[0].qty, fills[0].order_2, fills[0].price), (3, 1, 103)),
    ///     event => panic!("there are 5, so this can't be {event:?}"),
    /// }
    /// assert_eq!(book.execute(OrderType::Cancel { id: 1 })?, OrderEvent::Canceled { id: 1 });
    ///
    /// for id in 0..ORDERS as u64 {
    ///     book.execute(OrderType::Limit { id, side: Side::Bid, qty: 1, price: 100 })?;
    /// }
    /// let another = OrderType::Limit { id: 2_000, side: Side::Bid, qty: 1, price: 100 };
    /// assert_eq!(book.execute(another), Err(Refusal::BookFull)); // and nothing has changed
    /// assert_eq!(book.resting(), ORDERS);
    /// # Ok::<(), Refusal>(())
    /// ```
    ///
    /// # Errors
    /// [`SumTooLarge`](Refusal::SumTooLarge), [`BookFull`](Refusal::BookFull) or [`SideFull`](Refusal::SideFull), and then
    /// nothing has changed. There is always room for the fills.
    pub fn execute(&mut self, order: OrderType) -> Result<OrderEvent, Refusal> {
        let answer = carry_out(&mut self.stored, order, &mut self.fills)?;
        Ok(answer.event(&self.fills).expect(LENT))
    }

    /// Carries out an order and writes its fills to lent rows: nothing is allocated. Rows past the fills keep their values.
    ///
    /// ```
    /// use felavuti::{FillMetadata, FillRow, OrderBook, OrderType, Refusal, Side};
    ///
    /// let mut book = OrderBook::default();
    /// book.execute(OrderType::Limit { id: 1, side: Side::Ask, qty: 2, price: 100 })?;
    /// book.execute(OrderType::Limit { id: 2, side: Side::Ask, qty: 1, price: 101 })?;
    /// let taker = OrderType::Market { id: 3, side: Side::Bid, qty: 3 };
    ///
    /// let mut one = [FillRow::default(); 1];
    /// assert_eq!(book.execute_into(taker, &mut one), Err(Refusal::TooManyFills));
    ///
    /// let mut rows = [FillRow::default(); 8];
    /// let answer = book.execute_into(taker, &mut rows)?;
    /// assert_eq!((answer.filled_qty, answer.fills), (3, 2));
    /// let last: FillMetadata = rows[1].into();
    /// assert_eq!((last.order_2, last.price), (2, 101));
    /// # Ok::<(), Refusal>(())
    /// ```
    ///
    /// # Errors
    /// Those of [`execute`](OrderBook::execute), and [`TooManyFills`](Refusal::TooManyFills) where the rows don't suffice.
    pub fn execute_into(&mut self, order: OrderType, fills: &mut [FillRow]) -> Result<Answer, Refusal> {
        carry_out(&mut self.stored, order, fills)
    }

    /// The lowest ask price, if there is an ask.
    ///
    /// ```
    /// use felavuti::{OrderBook, OrderType, Refusal, Side};
    ///
    /// let mut book = OrderBook::default();
    /// assert_eq!(book.min_ask(), None);
    /// book.execute(OrderType::Limit { id: 1, side: Side::Ask, qty: 10, price: 105 })?;
    /// book.execute(OrderType::Limit { id: 2, side: Side::Ask, qty: 5, price: 103 })?;
    /// assert_eq!(book.min_ask(), Some(103));
    /// # Ok::<(), Refusal>(())
    /// ```
    pub fn min_ask(&self) -> Option<u64> {
        quote(|answer| self.stored.min_ask(answer))
    }

    /// The highest bid price, if there is a bid.
    ///
    /// ```
    /// use felavuti::{OrderBook, OrderType, Refusal, Side};
    ///
    /// let mut book = OrderBook::default();
    /// assert_eq!(book.max_bid(), None);
    /// book.execute(OrderType::Limit { id: 1, side: Side::Bid, qty: 10, price: 101 })?;
    /// book.execute(OrderType::Limit { id: 2, side: Side::Bid, qty: 5, price: 102 })?;
    /// assert_eq!(book.max_bid(), Some(102));
    /// # Ok::<(), Refusal>(())
    /// ```
    pub fn max_bid(&self) -> Option<u64> {
        quote(|answer| self.stored.max_bid(answer))
    }

    /// The lowest ask less the highest bid, if both are there.
    ///
    /// ```
    /// use felavuti::{OrderBook, OrderType, Refusal, Side};
    ///
    /// let mut book = OrderBook::default();
    /// book.execute(OrderType::Limit { id: 1, side: Side::Bid, qty: 10, price: 101 })?;
    /// assert_eq!(book.spread(), None);
    /// book.execute(OrderType::Limit { id: 2, side: Side::Ask, qty: 5, price: 103 })?;
    /// assert_eq!(book.spread(), Some(2));
    /// # Ok::<(), Refusal>(())
    /// ```
    pub fn spread(&self) -> Option<u64> {
        quote(|answer| self.stored.spread(answer))
    }

    /// The last trade recorded while tracking was on, if any.
    ///
    /// ```
    /// use felavuti::{OrderBook, OrderType, Refusal, Side, Trade};
    ///
    /// let mut book = OrderBook::new(true);
    /// book.execute(OrderType::Limit { id: 1, side: Side::Ask, qty: 1, price: 100 })?;
    /// book.execute(OrderType::Limit { id: 2, side: Side::Ask, qty: 1, price: 101 })?;
    /// assert_eq!(book.last_trade(), None);
    /// book.execute(OrderType::Market { id: 3, side: Side::Bid, qty: 2 })?;
    /// let due = Trade { total_qty: 2, avg_price: 100.5, whole_avg_price: 100, last_price: 101, last_qty: 1 };
    /// assert_eq!(book.last_trade(), Some(due));
    /// # Ok::<(), Refusal>(())
    /// ```
    pub fn last_trade(&self) -> Option<Trade> {
        let [_, _, _, _, _, _, present, total_qty, average, whole_avg_price, last_price, last_qty] = self.stored.desk;
        (present != 0).then(|| Trade { total_qty, avg_price: f64::from_bits(average), whole_avg_price, last_price, last_qty })
    }

    /// The quantity traded while tracking was on: see [`track_stats`](OrderBook::track_stats).
    pub fn traded_volume(&self) -> u64 {
        self.stored.desk[5]
    }

    /// Every occupied price with its total: asks ascending, bids ascending too. `levels` is echoed and otherwise ignored.
    ///
    /// ```
    /// use felavuti::{BookLevel, OrderBook, OrderType, Refusal, Side};
    ///
    /// let mut book = OrderBook::default();
    /// for (id, qty, price) in [(1, 5, 10), (2, 2, 11), (3, 3, 10)] {
    ///     book.execute(OrderType::Limit { id, side: Side::Bid, qty, price })?;
    /// }
    /// book.execute(OrderType::Limit { id: 4, side: Side::Ask, qty: 1, price: 20 })?;
    /// let depth = book.depth(1)?;
    /// assert_eq!(depth.levels, 1);
    /// assert_eq!(depth.asks, [BookLevel { price: 20, qty: 1 }]);
    /// assert_eq!(depth.bids, [BookLevel { price: 10, qty: 8 }, BookLevel { price: 11, qty: 2 }]);
    ///
    /// book.execute(OrderType::Limit { id: 5, side: Side::Ask, qty: u64::MAX, price: 20 })?;
    /// assert_eq!(book.depth(1), Err(Refusal::LevelTooLarge)); // 2^64 at 20
    /// # Ok::<(), Refusal>(())
    /// ```
    ///
    /// # Errors
    /// [`LevelTooLarge`](Refusal::LevelTooLarge) where a level's total exceeds 2^64 - 1.
    pub fn depth(&self, levels: usize) -> Result<BookDepth, Refusal> {
        let mut out = [0; 2 * PRICES * LEVEL];
        let mut answer = [0; 4];
        accepted(self.stored.depth(&mut out, levels as u64, &mut answer))?;
        let mut rows = out.chunks_exact(LEVEL).map(|row| BookLevel { price: row[0], qty: row[1] });
        let asks = rows.by_ref().take(answer[1] as usize).collect();
        let bids = rows.take(answer[2] as usize).collect();
        Ok(BookDepth { levels: answer[0] as usize, asks, bids })
    }

    /// Switches tracking on or off. Volume and last trade stay as they are.
    ///
    /// ```
    /// use felavuti::{OrderBook, OrderType, Refusal, Side};
    ///
    /// let mut book = OrderBook::default(); // tracking is off
    /// book.execute(OrderType::Limit { id: 1, side: Side::Ask, qty: 10, price: 105 })?;
    /// book.execute(OrderType::Market { id: 2, side: Side::Bid, qty: 3 })?;
    /// assert_eq!(book.traded_volume(), 0);
    /// book.track_stats(true);
    /// book.execute(OrderType::Market { id: 3, side: Side::Bid, qty: 4 })?;
    /// assert_eq!(book.traded_volume(), 4);
    /// # Ok::<(), Refusal>(())
    /// ```
    pub fn track_stats(&mut self, track: bool) {
        self.stored.track_stats(track.into());
    }

    /// The order found under an id: the one with that id that came to rest last, while it rests.
    ///
    /// ```
    /// use felavuti::{BookLevel, OrderBook, OrderType, Refusal, Side};
    ///
    /// let mut book = OrderBook::default();
    /// book.execute(OrderType::Limit { id: 7, side: Side::Bid, qty: 3, price: 50 })?;
    /// book.execute(OrderType::Limit { id: 7, side: Side::Bid, qty: 4, price: 49 })?;
    /// assert_eq!(book.get(7).order, Some(BookLevel { price: 49, qty: 4 }));
    /// book.execute(OrderType::Cancel { id: 7 })?;
    /// assert_eq!(book.get(7).order, None); // the one at 50 still rests, and is never found again
    /// assert_eq!(book.resting(), 1);
    /// # Ok::<(), Refusal>(())
    /// ```
    pub fn get(&self, id: u64) -> Found {
        let mut answer = [0; 4];
        accepted(self.stored.get(id, &mut answer)).expect(WHOLE);
        let [found, price, qty, looked_at] = answer;
        Found { order: (found != 0).then_some(BookLevel { price, qty }), looked_at }
    }

    /// How many orders rest.
    pub fn resting(&self) -> usize {
        self.stored.desk[0] as usize
    }

    /// The numbers that the book is stored in: to be written down, or looked at.
    pub fn stored(&self) -> &Stored {
        &self.stored
    }
}

fn accepted(number: u64) -> Result<(), Refusal> {
    Refusal::of(number).map_or(Ok(()), Err)
}

fn quote(ask: impl FnOnce(&mut [u64; 4]) -> u64) -> Option<u64> {
    let mut answer = [0; 4];
    accepted(ask(&mut answer)).expect(WHOLE);
    (answer[0] != 0).then_some(answer[1])
}

fn carry_out(stored: &mut Stored, order: OrderType, fills: &mut [FillRow]) -> Result<Answer, Refusal> {
    let mut answer = [0; 4];
    let fills = numbers(fills);
    accepted(match order {
        OrderType::Market { id, side, qty } => stored.market(fills, id, side.number(), qty, &mut answer),
        OrderType::Limit { id, side, qty, price } => stored.limit(fills, id, side.number(), qty, price, &mut answer),
        OrderType::Cancel { id } => stored.cancel(id, &mut answer),
    })?;
    Ok(Answer::of(answer))
}

/// Rows as the numbers that they are.
fn numbers(rows: &mut [FillRow]) -> &mut [u64] {
    // Sound: a row is laid out as five numbers, and rows stand side by side.
    unsafe { std::slice::from_raw_parts_mut(rows.as_mut_ptr().cast(), rows.len() * FILL) }
}
