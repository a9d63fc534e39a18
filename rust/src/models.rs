//! Lobster's models under lobster's names, and what ours adds: the whole average, rows of fills, what a search found.

/// An order book side. `!` gives the opposite one.
///
/// ```
/// use felavuti::Side;
///
/// assert_eq!((!Side::Bid, !Side::Ask), (Side::Ask, Side::Bid));
/// ```
#[derive(Debug, Copy, Clone, PartialEq, Eq, Hash)]
pub enum Side {
    /// The bid (or buy) side.
    Bid,
    /// The ask (or sell) side.
    Ask,
}

impl std::ops::Not for Side {
    type Output = Side;

    fn not(self) -> Side {
        match self {
            Side::Bid => Side::Ask,
            Side::Ask => Side::Bid,
        }
    }
}

impl Side {
    /// The library's number for a side: 0 for Bid, 1 for Ask.
    pub fn number(self) -> u64 {
        match self {
            Side::Bid => 0,
            Side::Ask => 1,
        }
    }
}

/// An order to be carried out.
#[derive(Debug, Copy, Clone, PartialEq, Eq, Hash)]
pub enum OrderType {
    /// Takes what the other side has, at any price. What is left over lapses.
    Market {
        /// The order's id. Nothing asks it to be unique.
        id: u64,
        /// The order's side; it meets the other one.
        side: Side,
        /// The quantity wanted. Zero is allowed: such an order makes no fill.
        qty: u64,
    },
    /// Takes what the other side has at `price` or better. What is left over rests behind all others at its price.
    Limit {
        /// The order's id. A newly resting order becomes the one found under its id; an older namesake stays and can trade.
        id: u64,
        /// The order's side; it meets the other one.
        side: Side,
        /// The quantity wanted. Zero is allowed: such an order makes no fill and rests nothing.
        qty: u64,
        /// The worst price that it accepts.
        price: u64,
    },
    /// Removes the order found under an id, if any.
    Cancel {
        /// The id of the order to be removed.
        id: u64,
    },
}

/// What came of an order.
#[derive(Debug, Clone, PartialEq, Eq)]
pub enum OrderEvent {
    /// A market order without fills.
    Unfilled {
        /// The order's id.
        id: u64,
    },
    /// A limit order without fills. It rests now, unless its quantity is zero.
    Placed {
        /// The order's id.
        id: u64,
    },
    /// A cancel, whether or not an order was found.
    Canceled {
        /// The id that was asked for.
        id: u64,
    },
    /// Fills and a remainder: a limit order's remainder rests, a market order's lapses.
    PartiallyFilled {
        /// The order's id.
        id: u64,
        /// The filled quantity.
        filled_qty: u64,
        /// The fills, in the order in which they were made.
        fills: Vec<FillMetadata>,
    },
    /// Fills and no remainder.
    Filled {
        /// The order's id.
        id: u64,
        /// The filled quantity.
        filled_qty: u64,
        /// The fills, in the order in which they were made.
        fills: Vec<FillMetadata>,
    },
}

/// One fill: what a resting order (the maker) gave to an incoming one (the taker).
#[derive(Debug, Copy, Clone, PartialEq, Eq)]
pub struct FillMetadata {
    /// The taker's id.
    pub order_1: u64,
    /// The maker's id.
    pub order_2: u64,
    /// The quantity given.
    pub qty: u64,
    /// The price: the maker's.
    pub price: u64,
    /// The taker's side.
    pub taker_side: Side,
    /// Whether the maker was used up by this fill.
    pub total_fill: bool,
}

/// The occupied prices of a book with their totals.
#[derive(Debug, Clone, PartialEq, Eq)]
pub struct BookDepth {
    /// The number of levels asked for. It is echoed and otherwise ignored: all levels are listed.
    pub levels: usize,
    /// Every occupied ask price, ascending.
    pub asks: Vec<BookLevel>,
    /// Every occupied bid price, ascending too: the best is the last.
    pub bids: Vec<BookLevel>,
}

/// An occupied price.
#[derive(Debug, Copy, Clone, PartialEq, Eq)]
pub struct BookLevel {
    /// The price.
    pub price: u64,
    /// The total quantity that rests there.
    pub qty: u64,
}

/// What the last order with fills traded, while tracking was on.
#[derive(Debug, Copy, Clone, PartialEq)]
pub struct Trade {
    /// The order's filled quantity.
    pub total_qty: u64,
    /// The average price as a double, to the bit as lobster works it out: the sum of price times quantity and the quantity are
    /// each turned to the nearest double, then divided.
    pub avg_price: f64,
    /// The average price rounded down, exact: never below the lowest fill price nor above the highest.
    pub whole_avg_price: u64,
    /// The last fill's price.
    pub last_price: u64,
    /// The last fill's quantity.
    pub last_qty: u64,
}

/// What a search by id found, and how far it looked.
#[derive(Debug, Copy, Clone, PartialEq, Eq)]
pub struct Found {
    /// The found order's price and what is left of its quantity; `None` where no order is found under the id.
    pub order: Option<BookLevel>,
    /// How many places of the search were looked at, the last included.
    pub looked_at: u64,
}

/// The kinds of event.
#[derive(Debug, Copy, Clone, PartialEq, Eq)]
pub enum EventKind {
    /// See [`OrderEvent::Unfilled`].
    Unfilled,
    /// See [`OrderEvent::Placed`].
    Placed,
    /// See [`OrderEvent::Canceled`].
    Canceled,
    /// See [`OrderEvent::PartiallyFilled`].
    PartiallyFilled,
    /// See [`OrderEvent::Filled`].
    Filled,
}

/// What came of an order whose fills were written to lent rows.
#[derive(Debug, Copy, Clone, PartialEq, Eq)]
pub struct Answer {
    /// The kind of event.
    pub kind: EventKind,
    /// The order's id.
    pub id: u64,
    /// The filled quantity.
    pub filled_qty: u64,
    /// How many rows were written, from the first on.
    pub fills: usize,
}

impl Answer {
    /// The library's four numbers as an answer.
    pub(crate) fn of(numbers: [u64; 4]) -> Answer {
        let kind = match numbers[0] {
            0 => EventKind::Unfilled,
            1 => EventKind::Placed,
            2 => EventKind::Canceled,
            3 => EventKind::PartiallyFilled,
            4 => EventKind::Filled,
            other => unreachable!("the library is proved to answer with an event of 0 to 4, not {other}"),
        };
        Answer { kind, id: numbers[1], filled_qty: numbers[2], fills: numbers[3] as usize }
    }

    /// The event, with the fills that this answer counts at the beginning of `rows`; `None` where there are fewer rows than that.
    ///
    /// ```
    /// use felavuti::{FillRow, OrderBook, OrderEvent, OrderType, Refusal, Side};
    ///
    /// let mut book = OrderBook::default();
    /// book.execute(OrderType::Limit { id: 1, side: Side::Ask, qty: 2, price: 100 })?;
    ///
    /// let mut rows = [FillRow::default(); 4];
    /// let answer = book.execute_into(OrderType::Market { id: 2, side: Side::Bid, qty: 2 }, &mut rows)?;
    /// let fills = vec![rows[0].into()];
    /// assert_eq!(answer.event(&rows), Some(OrderEvent::Filled { id: 2, filled_qty: 2, fills }));
    /// assert_eq!(answer.event(&[]), None);
    /// # Ok::<(), Refusal>(())
    /// ```
    pub fn event(self, rows: &[FillRow]) -> Option<OrderEvent> {
        let Answer { kind, id, filled_qty, fills } = self;
        let fills = || Some(rows.get(..fills)?.iter().map(|&row| row.into()).collect());
        Some(match kind {
            EventKind::Unfilled => OrderEvent::Unfilled { id },
            EventKind::Placed => OrderEvent::Placed { id },
            EventKind::Canceled => OrderEvent::Canceled { id },
            EventKind::PartiallyFilled => OrderEvent::PartiallyFilled { id, filled_qty, fills: fills()? },
            EventKind::Filled => OrderEvent::Filled { id, filled_qty, fills: fills()? },
        })
    }
}

/// A fill as the library writes it: taker, maker, quantity, price, and side and use in one number (bid 0, ask 2, plus 1 if the
/// maker was used up).
///
/// ```
/// use felavuti::{FillMetadata, FillRow, Side};
///
/// let fill: FillMetadata = FillRow([4, 2, 5, 103, 1]).into();
/// assert_eq!((fill.order_1, fill.order_2, fill.qty, fill.price), (4, 2, 5, 103));
/// assert_eq!((fill.taker_side, fill.total_fill), (Side::Bid, true));
/// ```
#[derive(Debug, Copy, Clone, Default, PartialEq, Eq)]
#[repr(transparent)]
pub struct FillRow(pub [u64; 5]);

impl From<FillRow> for FillMetadata {
    fn from(FillRow([order_1, order_2, qty, price, side_and_use]): FillRow) -> FillMetadata {
        let taker_side = if side_and_use < 2 { Side::Bid } else { Side::Ask };
        FillMetadata { order_1, order_2, qty, price, taker_side, total_fill: side_and_use % 2 == 1 }
    }
}
