//! Felavuti: a proved order book, with the names of the Rust crate lobster 0.7.0.
//!
//! Every call below is carried out by a library that is proved to follow the desk's written rules: makers in their turn, at the
//! maker's price, and a refusal by its number exactly when the rules say so. This crate only turns numbers into Rust values.
//!
//! ```
//! use felavuti::{FillMetadata, OrderBook, OrderEvent, OrderType, Refusal, Side};
//!
//! let mut ob = OrderBook::default();
//! let event = ob.execute(OrderType::Market { id: 0, qty: 1, side: Side::Bid })?;
//! assert_eq!(event, OrderEvent::Unfilled { id: 0 });
//!
//! let event = ob.execute(OrderType::Limit { id: 1, price: 120, qty: 3, side: Side::Ask })?;
//! assert_eq!(event, OrderEvent::Placed { id: 1 });
//!
//! let event = ob.execute(OrderType::Market { id: 2, qty: 4, side: Side::Bid })?;
//! assert_eq!(
//!     event,
//!     OrderEvent::PartiallyFilled {
//!         id: 2,
//!         filled_qty: 3,
//!         fills: vec![FillMetadata {
//!             order_1: 2,
//!             order_2: 1,
//!             qty: 3,
//!             price: 120,
//!             taker_side: Side::Bid,
//!             total_fill: true,
//!         }],
//!     },
//! );
//! # Ok::<(), Refusal>(())
//! ```
//!
//! What can't be done is an `Err` with a [`Refusal`], and then nothing has changed. No input makes a call panic: the few panics
//! in this crate's source stand for answers that the library is proved never to give.
//!
//! # Coming from lobster
//!
//! | lobster 0.7.0 | here |
//! |---|---|
//! | `execute(order) -> OrderEvent` | `execute(order) -> Result<OrderEvent, Refusal>` |
//! | `depth(levels) -> BookDepth` | `depth(levels) -> Result<BookDepth, Refusal>` |
//! | ids are `u128` | ids are `u64` |
//! | `OrderBook::new(arena, queue, track)` | `OrderBook::new(track)`: the room is fixed ([`ORDERS`], [`PRICES`]) |
//! | the book grows; sums wrap, or panic in debug builds | [`Refusal`]s, and a refused call changes nothing |
//! | no public search by id | [`OrderBook::get`] |
//!
//! All other names, fields and answers are lobster's. Programs that must not allocate use [`OrderBook::execute_into`]. Programs
//! that keep the book's numbers themselves use [`Stored`]. Orders are read from bytes and written to bytes by [`tape`].

#![warn(missing_docs)]

mod models;
mod orderbook;
mod refusal;
mod stored;
pub mod tape;

pub use models::{Answer, BookDepth, BookLevel, EventKind, FillMetadata, FillRow, Found, OrderEvent, OrderType, Side, Trade};
pub use orderbook::OrderBook;
pub use refusal::Refusal;
pub use stored::{Size, Stored, DESK, ORDERS, PLACES, PRICES};

/// README.md's examples run with those of the documents.
#[cfg(doctest)]
#[doc = include_str!("../README.md")]
struct Readme;
