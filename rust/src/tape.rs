//! Orders on a tape: bytes that can be kept in a file, or sent.
//!
//! Each order is a field: a tag of one byte, a length of two, and its numbers, every one high byte first.
//!
//! | Tag | Order | Value | Length |
//! |---|---|---|---|
//! | 1 | market | id 8 bytes, side 1 (0 bid, 1 ask), quantity 8 | 17 |
//! | 2 | limit | the same, then price 8 | 25 |
//! | 3 | cancel | id 8 | 8 |
//!
//! [`Orders`] reads a tape; [`write`](fn@write), [`push`] and [`encode`] write one. What is written reads back as the same orders,
//! and each order has one form. As everywhere in this crate, the library does the work, and any bytes and any place are answered.
//!
//! ```
//! use felavuti::tape::{encode, BadField, Orders};
//! use felavuti::{OrderBook, OrderType, Refusal, Side};
//!
//! let orders = [OrderType::Limit { id: 1, side: Side::Ask, qty: 10, price: 105 }, OrderType::Cancel { id: 7 }];
//! let mut tape = encode(orders);
//! assert_eq!(tape[28..], [3, 0, 8, 0, 0, 0, 0, 0, 0, 0, 7]);
//! assert_eq!(Orders::new(&tape).collect::<Result<Vec<_>, _>>(), Ok(orders.to_vec()));
//!
//! // what stands before a bad field is carried out
//! tape.push(1);
//! let mut book = OrderBook::default();
//! let mut bad = None;
//! for order in Orders::new(&tape) {
//!     match order {
//!         Ok(order) => drop(book.execute(order)?),
//!         Err(field) => bad = Some(field),
//!     }
//! }
//! assert_eq!(bad, Some(BadField { offset: 39, refusal: Refusal::CutOff }));
//! assert_eq!(book.resting(), 1);
//! # Ok::<(), Refusal>(())
//! ```

use crate::models::{OrderType, Side};
use crate::refusal::Refusal;
use std::{fmt, iter::FusedIterator};

/// How many bytes the longest field has, a limit order's.
pub const LONGEST: usize = 28;

/// An order as the library takes and gives it: kind (a tag, or 0 for the end), id, side, quantity, price, and the place behind its
/// field. Numbers that a kind doesn't have are 0.
type Slip = [u64; SLIP];

const SLIP: usize = 6;
/// Where the place behind the field stands in a slip.
const PLACE: usize = 5;

const END: u64 = 0;
const MARKET: u64 = 1;
const LIMIT: u64 = 2;
const CANCEL: u64 = 3;

mod raw {
    extern "C" {
        pub fn felavuti_read_order(tape: *const u8, tape_len: usize, at: usize, order: *mut u64) -> u64;
        pub fn felavuti_write_order(tape: *mut u8, tape_len: usize, at: usize, order: *mut u64) -> u64;
    }
}

/// The orders of a tape, one after another. At a bad field it gives an error, and after that, as after the end, nothing more.
///
/// ```
/// use felavuti::tape::Orders;
/// use felavuti::OrderType;
///
/// let tape = [3, 0, 8, 0, 0, 0, 0, 0, 0, 0, 7];
/// let mut orders = Orders::new(&tape);
/// assert_eq!(orders.next(), Some(Ok(OrderType::Cancel { id: 7 })));
/// assert_eq!((orders.offset(), orders.next()), (11, None));
/// ```
#[derive(Debug, Clone)]
pub struct Orders<'a> {
    tape: &'a [u8],
    offset: usize,
    over: bool,
}

impl<'a> Orders<'a> {
    /// The orders of a tape, from its beginning.
    pub fn new(tape: &'a [u8]) -> Orders<'a> {
        Orders { tape, offset: 0, over: false }
    }

    /// Where the next field begins: behind the last order given.
    pub fn offset(&self) -> usize {
        self.offset
    }
}

impl Iterator for Orders<'_> {
    type Item = Result<OrderType, BadField>;

    fn next(&mut self) -> Option<Self::Item> {
        if self.over {
            return None;
        }
        let mut slip: Slip = [0; SLIP];
        // Sound: both pointers are valid for their lengths, a slice's and six numbers, and the library is proved to keep inside them.
        let number = unsafe { raw::felavuti_read_order(self.tape.as_ptr(), self.tape.len(), self.offset, slip.as_mut_ptr()) };
        if let Some(refusal) = Refusal::of(number) {
            self.over = true;
            return Some(Err(BadField { offset: self.offset, refusal }));
        }
        let order = order_of(slip);
        self.over = order.is_none();
        self.offset = slip[PLACE] as usize;
        order.map(Ok)
    }
}

impl FusedIterator for Orders<'_> {}

/// A field that is no order's: where it begins, and why it is refused. The checks are made in this order: one or two bytes left
/// ([`CutOff`](Refusal::CutOff)), then [`UnknownTag`](Refusal::UnknownTag), [`WrongLength`](Refusal::WrongLength), a value cut off
/// ([`CutOff`](Refusal::CutOff)), [`NoSuchSide`](Refusal::NoSuchSide).
///
/// ```
/// use felavuti::tape::Orders;
///
/// let tape = [3, 0, 8, 0, 0, 0, 0, 0, 0, 0, 7, 3, 0, 9, 0];
/// let bad = Orders::new(&tape).find_map(Result::err).unwrap();
/// assert_eq!((bad.offset, bad.refusal.number()), (11, 9));
/// assert_eq!(bad.to_string(), "Refused 9 at 11: a field's length isn't that of its tag");
/// ```
#[derive(Debug, Copy, Clone, PartialEq, Eq, Hash)]
pub struct BadField {
    /// Where the field begins: how many bytes of the tape stand before it.
    pub offset: usize,
    /// Why it is refused.
    pub refusal: Refusal,
}

/// The number and the offset as the desk's text has them, then when the number is given.
impl fmt::Display for BadField {
    fn fmt(&self, f: &mut fmt::Formatter<'_>) -> fmt::Result {
        write!(f, "Refused {} at {}: {}", self.refusal.number(), self.offset, self.refusal.words())
    }
}

impl std::error::Error for BadField {}

/// Writes an order to a place of a lent buffer, and gives the place behind it. All other bytes keep their values.
///
/// ```
/// use felavuti::tape::write;
/// use felavuti::{OrderType, Refusal};
///
/// let mut tape = [0xff; 15];
/// let next = write(OrderType::Cancel { id: 7 }, &mut tape, 2)?;
/// assert_eq!((next, tape), (13, [0xff, 0xff, 3, 0, 8, 0, 0, 0, 0, 0, 0, 0, 7, 0xff, 0xff]));
/// assert_eq!(write(OrderType::Cancel { id: 8 }, &mut tape, next), Err(Refusal::ShortRoom)); // and nothing has changed
/// # Ok::<(), Refusal>(())
/// ```
///
/// # Errors
/// [`ShortRoom`](Refusal::ShortRoom), and then nothing has changed.
pub fn write(order: OrderType, tape: &mut [u8], at: usize) -> Result<usize, Refusal> {
    let mut slip = slip_of(order);
    // Sound: both pointers are valid for their lengths, a slice's and six numbers, which are different pieces of memory, and the
    // library is proved to keep inside them.
    let number = unsafe { raw::felavuti_write_order(tape.as_mut_ptr(), tape.len(), at, slip.as_mut_ptr()) };
    match Refusal::of(number) {
        Some(refusal) => Err(refusal),
        None => Ok(slip[PLACE] as usize),
    }
}

/// Writes an order behind a tape, which grows by it.
///
/// ```
/// use felavuti::tape::push;
/// use felavuti::OrderType;
///
/// let mut tape = Vec::new();
/// push(&mut tape, OrderType::Cancel { id: 7 });
/// assert_eq!(tape, [3, 0, 8, 0, 0, 0, 0, 0, 0, 0, 7]);
/// ```
pub fn push(tape: &mut Vec<u8>, order: OrderType) {
    let at = tape.len();
    tape.resize(at + LONGEST, 0);
    let next = write(order, tape, at).expect("there is room for the longest field");
    tape.truncate(next);
}

/// The tape of some orders.
///
/// ```
/// use felavuti::tape::encode;
/// use felavuti::OrderType;
///
/// assert_eq!(encode((1..=3).map(|id| OrderType::Cancel { id })).len(), 33);
/// ```
pub fn encode(orders: impl IntoIterator<Item = OrderType>) -> Vec<u8> {
    let mut tape = Vec::new();
    orders.into_iter().for_each(|order| push(&mut tape, order));
    tape
}

/// The order of a slip that was read; `None` at the end.
fn order_of([kind, id, side, qty, price, _]: Slip) -> Option<OrderType> {
    let side = if side == Side::Bid.number() { Side::Bid } else { Side::Ask };
    Some(match kind {
        END => return None,
        MARKET => OrderType::Market { id, side, qty },
        LIMIT => OrderType::Limit { id, side, qty, price },
        CANCEL => OrderType::Cancel { id },
        other => unreachable!("the library is proved to read a kind of 0 to 3, not {other}"),
    })
}

/// The slip of an order that is to be written; its place is not looked at.
fn slip_of(order: OrderType) -> Slip {
    match order {
        OrderType::Market { id, side, qty } => [MARKET, id, side.number(), qty, 0, 0],
        OrderType::Limit { id, side, qty, price } => [LIMIT, id, side.number(), qty, price, 0],
        OrderType::Cancel { id } => [CANCEL, id, 0, 0, 0, 0],
    }
}
