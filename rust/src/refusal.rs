//! When the desk says no.

use std::fmt;

/// Why a call was refused. A refused call changes nothing: book, statistics and buffers keep their values. Where several are due,
/// the lowest number is given; a tape's fields have an order of their own, see [`BadField`](crate::tape::BadField).
///
/// ```
/// use felavuti::{OrderBook, OrderType, Refusal, Side};
///
/// let mut book = OrderBook::new(true);
/// book.execute(OrderType::Limit { id: 1, side: Side::Ask, qty: 2, price: 1 << 63 })?;
/// let refusal = book.execute(OrderType::Market { id: 2, side: Side::Bid, qty: 2 }).unwrap_err();
/// assert_eq!((refusal, refusal.number()), (Refusal::SumTooLarge, 3));
/// assert_eq!(
///     refusal.to_string(),
///     "refused (3): tracking is on, there are fills, and the sum of price times quantity or the new volume exceeds 2^64 - 1",
/// );
///
/// book.track_stats(false); // then there is no sum to be kept
/// book.execute(OrderType::Market { id: 2, side: Side::Bid, qty: 2 })?;
/// # Ok::<(), Refusal>(())
/// ```
#[derive(Debug, Copy, Clone, PartialEq, Eq, Hash)]
#[non_exhaustive]
pub enum Refusal {
    /// 1: the stored book isn't whole, or storage has wrong lengths. An [`OrderBook`](crate::OrderBook) is always whole; a
    /// [`Stored`](crate::Stored) may not be.
    NotWhole,
    /// 2: the fills outnumber the places lent for them.
    TooManyFills,
    /// 3: tracking is on, there are fills, and the sum of price times quantity or the new volume exceeds 2^64 - 1.
    SumTooLarge,
    /// 4: a remainder would rest and 1,024 orders rest already.
    BookFull,
    /// 5: a remainder would rest at a price new to its side, and that side has 128.
    SideFull,
    /// 6: depth needs more places than lent. [`OrderBook::depth`](crate::OrderBook::depth) has enough.
    TooManyLevels,
    /// 7: a level's total exceeds 2^64 - 1.
    LevelTooLarge,
    /// 8: a field's tag is none of 1, 2 and 3.
    UnknownTag,
    /// 9: a field's length isn't that of its tag.
    WrongLength,
    /// 10: the side is neither 0 nor 1, which only a [`Stored`](crate::Stored) can be asked for, or a tape can hold.
    NoSuchSide,
    /// 11: the tape ends within a field.
    CutOff,
    /// 19: an order's field is longer than the room lent for it. [`tape::push`](crate::tape::push) makes enough.
    ShortRoom,
    /// Any other number. The library has none.
    Other(u64),
}

impl Refusal {
    /// What the library's number stands for; `None` for 0, an accepted call.
    ///
    /// ```
    /// use felavuti::Refusal;
    ///
    /// assert_eq!(Refusal::of(0), None);
    /// assert_eq!(Refusal::of(4), Some(Refusal::BookFull));
    /// ```
    pub fn of(number: u64) -> Option<Refusal> {
        Some(match number {
            0 => return None,
            1 => Refusal::NotWhole,
            2 => Refusal::TooManyFills,
            3 => Refusal::SumTooLarge,
            4 => Refusal::BookFull,
            5 => Refusal::SideFull,
            6 => Refusal::TooManyLevels,
            7 => Refusal::LevelTooLarge,
            8 => Refusal::UnknownTag,
            9 => Refusal::WrongLength,
            10 => Refusal::NoSuchSide,
            11 => Refusal::CutOff,
            19 => Refusal::ShortRoom,
            other => Refusal::Other(other),
        })
    }

    /// The number of the refusal in the desk's rules.
    pub fn number(self) -> u64 {
        match self {
            Refusal::NotWhole => 1,
            Refusal::TooManyFills => 2,
            Refusal::SumTooLarge => 3,
            Refusal::BookFull => 4,
            Refusal::SideFull => 5,
            Refusal::TooManyLevels => 6,
            Refusal::LevelTooLarge => 7,
            Refusal::UnknownTag => 8,
            Refusal::WrongLength => 9,
            Refusal::NoSuchSide => 10,
            Refusal::CutOff => 11,
            Refusal::ShortRoom => 19,
            Refusal::Other(number) => number,
        }
    }

    /// When it is given, in the words of the desk's rules.
    pub(crate) fn words(self) -> &'static str {
        match self {
            Refusal::NotWhole => "the stored book isn't whole, or storage has wrong lengths",
            Refusal::TooManyFills => "the fills outnumber the places lent for them",
            Refusal::SumTooLarge => {
                "tracking is on, there are fills, and the sum of price times quantity or the new volume exceeds 2^64 - 1"
            }
            Refusal::BookFull => "a remainder would rest and 1,024 orders rest already",
            Refusal::SideFull => "a remainder would rest at a price new to its side, and that side has 128",
            Refusal::TooManyLevels => "depth needs more places than lent",
            Refusal::LevelTooLarge => "a level's total exceeds 2^64 - 1",
            Refusal::UnknownTag => "a field's tag is none of 1, 2 and 3",
            Refusal::WrongLength => "a field's length isn't that of its tag",
            Refusal::NoSuchSide => "the side is neither 0 nor 1",
            Refusal::CutOff => "the tape ends within a field",
            Refusal::ShortRoom => "an order's field is longer than the room lent for it",
            Refusal::Other(_) => "a number that the desk's rules don't have",
        }
    }
}

/// The number and when it is given.
impl fmt::Display for Refusal {
    fn fmt(&self, f: &mut fmt::Formatter<'_>) -> fmt::Result {
        write!(f, "refused ({}): {}", self.number(), self.words())
    }
}

impl std::error::Error for Refusal {}
