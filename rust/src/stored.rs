//! A book as the numbers it is stored in, and the library's calls as they are: slices and numbers in, a number out.
//!
//! The library demands nothing of what it is given: whatever the slices hold and however long they are, a call answers, ends and
//! touches nothing else. That is why these methods are safe.

use std::collections::TryReserveError;

/// How many orders can rest.
pub const ORDERS: usize = 1_024;
/// How many different prices a side can have.
pub const PRICES: usize = 128;
/// How many places the search by id has.
pub const PLACES: usize = 2 * ORDERS;
/// How many small numbers stand beside the storage: resting orders, first free code, bid prices, ask prices; tracking (0 or 1),
/// volume, last trade present (0 or 1), its total quantity, the bits of its average, its whole average, last price, last quantity.
pub const DESK: usize = 12;

/// Numbers in a record: id, quantity, price, next, previous.
pub(crate) const RECORD: usize = 5;
/// Numbers in a price's row: price, first order, last order.
pub(crate) const ROW: usize = 3;
/// Numbers in a fill's row.
pub(crate) const FILL: usize = 5;
/// Numbers in a level's row: price, total.
pub(crate) const LEVEL: usize = 2;

#[rustfmt::skip]
mod raw {
    extern "C" {
        pub fn felavuti_fresh(
            desk: *mut u64, records: *mut u64, records_len: usize, bids: *mut u64, bids_len: usize, asks: *mut u64,
            asks_len: usize, search: *mut u64, search_len: usize,
        ) -> u64;
        pub fn felavuti_market(
            desk: *mut u64, records: *mut u64, records_len: usize, bids: *mut u64, bids_len: usize, asks: *mut u64,
            asks_len: usize, search: *mut u64, search_len: usize, fills: *mut u64, fills_len: usize, id: u64, side: u64,
            qty: u64, answer: *mut u64,
        ) -> u64;
        pub fn felavuti_limit(
            desk: *mut u64, records: *mut u64, records_len: usize, bids: *mut u64, bids_len: usize, asks: *mut u64,
            asks_len: usize, search: *mut u64, search_len: usize, fills: *mut u64, fills_len: usize, id: u64, side: u64,
            qty: u64, price: u64, answer: *mut u64,
        ) -> u64;
        pub fn felavuti_cancel(
            desk: *mut u64, records: *mut u64, records_len: usize, bids: *mut u64, bids_len: usize, asks: *mut u64,
            asks_len: usize, search: *mut u64, search_len: usize, id: u64, answer: *mut u64,
        ) -> u64;
        pub fn felavuti_min_ask(
            desk: *const u64, records: *const u64, records_len: usize, bids: *const u64, bids_len: usize, asks: *const u64,
            asks_len: usize, search: *const u64, search_len: usize, answer: *mut u64,
        ) -> u64;
        pub fn felavuti_max_bid(
            desk: *const u64, records: *const u64, records_len: usize, bids: *const u64, bids_len: usize, asks: *const u64,
            asks_len: usize, search: *const u64, search_len: usize, answer: *mut u64,
        ) -> u64;
        pub fn felavuti_spread(
            desk: *const u64, records: *const u64, records_len: usize, bids: *const u64, bids_len: usize, asks: *const u64,
            asks_len: usize, search: *const u64, search_len: usize, answer: *mut u64,
        ) -> u64;
        pub fn felavuti_depth(
            desk: *const u64, records: *const u64, records_len: usize, bids: *const u64, bids_len: usize, asks: *const u64,
            asks_len: usize, search: *const u64, search_len: usize, out: *mut u64, out_len: usize, levels: u64,
            answer: *mut u64,
        ) -> u64;
        pub fn felavuti_get(
            desk: *const u64, records: *const u64, records_len: usize, bids: *const u64, bids_len: usize, asks: *const u64,
            asks_len: usize, search: *const u64, search_len: usize, id: u64, answer: *mut u64,
        ) -> u64;
        pub fn felavuti_check(
            orders: usize, prices: usize, desk: *const u64, records: *const u64, records_len: usize, bids: *const u64,
            bids_len: usize, asks: *const u64, asks_len: usize, search: *const u64, search_len: usize,
        ) -> u64;
        pub fn felavuti_track_stats(desk: *mut u64, on: u64) -> u64;
    }
}

/// How large a book is.
///
/// The library's calls know one size, [`Size::BASE`]; [`Stored::check`] takes any.
#[derive(Debug, Copy, Clone, PartialEq, Eq)]
pub struct Size {
    /// How many orders can rest.
    pub orders: usize,
    /// How many different prices a side can have.
    pub prices: usize,
}

impl Size {
    /// The size that the library's calls know.
    pub const BASE: Size = Size { orders: ORDERS, prices: PRICES };
}

/// A book as the numbers it is stored in. Each method is one call of the library, which returns 0, or the number of the
/// [`Refusal`](crate::Refusal), in which case nothing lent has changed.
///
/// Whoever changes the numbers by hand may get refusal 1 (the stored book isn't whole) and nothing worse.
///
/// ```
/// use felavuti::{Refusal, Side, Stored};
///
/// let mut stored = Stored::default();
/// let (mut fills, mut answer) = ([0; 5 * 8], [0; 4]); // room for 8 fills
/// assert_eq!(stored.limit(&mut fills, 1, Side::Ask.number(), 10, 105, &mut answer), 0);
/// assert_eq!(answer, [1, 1, 0, 0]); // Placed, id 1, nothing filled, no fills
/// assert_eq!(stored.market(&mut fills, 2, Side::Bid.number(), 4, &mut answer), 0);
/// assert_eq!(answer, [4, 2, 4, 1]); // Filled, id 2, 4 filled, 1 fill
/// assert_eq!(fills[..5], [2, 1, 4, 105, 0]); // taker, maker, quantity, price; a bid, and the maker has some left
///
/// stored.desk[0] = 2; // two orders are said to rest, and one does: this isn't a book any more
/// let before = stored.clone();
/// assert_eq!(Refusal::of(stored.cancel(1, &mut answer)), Some(Refusal::NotWhole));
/// assert_eq!((stored, answer), (before, [4, 2, 4, 1]));
/// ```
#[derive(Debug, Clone, PartialEq, Eq)]
pub struct Stored {
    /// See [`DESK`].
    pub desk: [u64; DESK],
    /// A row of 5 numbers an order: id, quantity, price, next, previous. A record's code is its row + 1, and 0 is none. Free
    /// places are a chain over `next` and have quantity 0.
    pub records: Vec<u64>,
    /// A row of 3 numbers a price: price, first order, last order. Those used come first, prices ascending.
    pub bids: Vec<u64>,
    /// As `bids`.
    pub asks: Vec<u64>,
    /// The places of the search: 0, or a record's code. An id's home is the id modulo the number of places.
    pub search: Vec<u64>,
}

/// The lent numbers of a book as C arguments: pointer, then length, and the twelve numbers by pointer alone.
macro_rules! shared {
    ($call:ident $([$($first:expr),+])?, $s:expr $(, $rest:expr)*) => {
        // Sound: each pointer comes from a slice or an array of the stated length that outlives the call, and the library is
        // proved to keep inside them for any contents and any lengths.
        unsafe {
            raw::$call(
                $($($first,)+)? $s.desk.as_ptr(), $s.records.as_ptr(), $s.records.len(), $s.bids.as_ptr(), $s.bids.len(),
                $s.asks.as_ptr(), $s.asks.len(), $s.search.as_ptr(), $s.search.len() $(, $rest)*
            )
        }
    };
}

macro_rules! changing {
    ($call:ident, $s:expr $(, $rest:expr)*) => {
        // Sound: as above, and the slices are different pieces of memory.
        unsafe {
            raw::$call(
                $s.desk.as_mut_ptr(), $s.records.as_mut_ptr(), $s.records.len(), $s.bids.as_mut_ptr(), $s.bids.len(),
                $s.asks.as_mut_ptr(), $s.asks.len(), $s.search.as_mut_ptr(), $s.search.len() $(, $rest)*
            )
        }
    };
}

impl Default for Stored {
    /// A fresh book of [`Size::BASE`].
    fn default() -> Stored {
        let mut stored = Stored::blank(Size::BASE).expect("there is memory for some 8,000 numbers");
        assert_eq!(stored.fresh(), 0, "storage of the right lengths is never refused");
        stored
    }
}

impl Stored {
    /// Storage of the right lengths for a size, all zero: no book yet, see [`Stored::fresh`].
    ///
    /// # Errors
    /// Where there is no memory for so many numbers.
    pub fn blank(size: Size) -> Result<Stored, TryReserveError> {
        Ok(Stored {
            desk: [0; DESK],
            records: zeros(size.orders, RECORD)?,
            bids: zeros(size.prices, ROW)?,
            asks: zeros(size.prices, ROW)?,
            search: zeros(size.orders, 2)?,
        })
    }

    /// Makes a fresh book of whatever the storage holds: no orders, volume 0, no last trade, tracking off.
    #[must_use = "0, or the number of the refusal"]
    pub fn fresh(&mut self) -> u64 {
        changing!(felavuti_fresh, self)
    }

    /// A market order. `side` is 0 for bid, 1 for ask. Fills are rows of 5 numbers. `answer`: event (0 Unfilled, 1 Placed, 2
    /// Canceled, 3 PartiallyFilled, 4 Filled), id, filled quantity, number of fills.
    #[must_use = "0, or the number of the refusal"]
    pub fn market(&mut self, fills: &mut [u64], id: u64, side: u64, qty: u64, answer: &mut [u64; 4]) -> u64 {
        changing!(felavuti_market, self, fills.as_mut_ptr(), fills.len(), id, side, qty, answer.as_mut_ptr())
    }

    /// A limit order. Fills and answer as for a market order.
    #[must_use = "0, or the number of the refusal"]
    pub fn limit(&mut self, fills: &mut [u64], id: u64, side: u64, qty: u64, price: u64, answer: &mut [u64; 4]) -> u64 {
        changing!(felavuti_limit, self, fills.as_mut_ptr(), fills.len(), id, side, qty, price, answer.as_mut_ptr())
    }

    /// A cancel. Answer as for a market order.
    #[must_use = "0, or the number of the refusal"]
    pub fn cancel(&mut self, id: u64, answer: &mut [u64; 4]) -> u64 {
        changing!(felavuti_cancel, self, id, answer.as_mut_ptr())
    }

    /// The lowest ask. `answer`: present (0 or 1), price.
    #[must_use = "0, or the number of the refusal"]
    pub fn min_ask(&self, answer: &mut [u64; 4]) -> u64 {
        shared!(felavuti_min_ask, self, answer.as_mut_ptr())
    }

    /// The highest bid. `answer`: present (0 or 1), price.
    #[must_use = "0, or the number of the refusal"]
    pub fn max_bid(&self, answer: &mut [u64; 4]) -> u64 {
        shared!(felavuti_max_bid, self, answer.as_mut_ptr())
    }

    /// The lowest ask less the highest bid. `answer`: present (0 or 1), spread.
    #[must_use = "0, or the number of the refusal"]
    pub fn spread(&self, answer: &mut [u64; 4]) -> u64 {
        shared!(felavuti_spread, self, answer.as_mut_ptr())
    }

    /// Every occupied price with its total as rows of 2 numbers, asks ascending, then bids ascending. `answer`: levels asked for,
    /// asks written, bids written.
    #[must_use = "0, or the number of the refusal"]
    pub fn depth(&self, out: &mut [u64], levels: u64, answer: &mut [u64; 4]) -> u64 {
        shared!(felavuti_depth, self, out.as_mut_ptr(), out.len(), levels, answer.as_mut_ptr())
    }

    /// The order found under an id. `answer`: found (0 or 1), price, quantity, places looked at.
    #[must_use = "0, or the number of the refusal"]
    pub fn get(&self, id: u64, answer: &mut [u64; 4]) -> u64 {
        shared!(felavuti_get, self, id, answer.as_mut_ptr())
    }

    /// Whether the stored book is whole at a size, which may be any: 0, or 1 where it isn't.
    ///
    /// ```
    /// use felavuti::{Size, Stored};
    ///
    /// let mut stored = Stored::default();
    /// assert_eq!(stored.check(Size::BASE), 0);
    /// stored.desk[0] = 1; // an order is said to rest, and none does
    /// assert_eq!(stored.check(Size::BASE), 1);
    /// ```
    #[must_use = "0, or the number of the refusal"]
    pub fn check(&self, size: Size) -> u64 {
        shared!(felavuti_check[size.orders, size.prices], self)
    }

    /// Switches tracking. It is never refused.
    pub fn track_stats(&mut self, on: u64) -> u64 {
        // Sound: the pointer is that of an array of twelve numbers.
        unsafe { raw::felavuti_track_stats(self.desk.as_mut_ptr(), on) }
    }
}

/// Rows of so many numbers, all zero.
fn zeros(rows: usize, numbers: usize) -> Result<Vec<u64>, TryReserveError> {
    let length = rows.saturating_mul(numbers); // where that falls short, it is still more than there is memory for
    let mut zeros = Vec::new();
    zeros.try_reserve_exact(length)?;
    zeros.resize(length, 0);
    Ok(zeros)
}
