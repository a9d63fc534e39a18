//! Where lobster's comments and its behaviour differ. Each gap has the smallest input that shows it, and both lobster and ours
//! are run on it: the answers must be those written down here.

use crate::script::{parsed, three};
use std::time::Instant;

struct Gap {
    /// Whose comment, and what it says.
    of: &'static str,
    says: &'static str,
    /// What is the case.
    fact: &'static str,
    /// A script on a fresh book, and lobster's answers to it.
    input: &'static str,
    lobster: &'static [&'static str],
    /// Lobster's answers in a debug build where they are others.
    debug: Option<&'static [&'static str]>,
    /// Our answers where they are others.
    ours: Option<&'static [&'static str]>,
}

const SAME: Gap = Gap { of: "", says: "", fact: "", input: "", lobster: &[], debug: None, ours: None };

const GAPS: &[Gap] = &[
    Gap {
        of: "models.rs, OrderType::Market",
        says: "either filled immediately (even partially), or canceled",
        fact: "A market order that finds nothing answers Unfilled, never Canceled.",
        input: "market bid 1 5",
        lobster: &["Unfilled 1"],
        ..SAME
    },
    Gap {
        of: "models.rs, OrderType::Market",
        says: "either filled immediately (even partially), or canceled",
        fact: "The remainder of a partly filled market order lapses without any event of its own.",
        input: "limit ask 1 3 10; market bid 2 5; bid",
        lobster: &["Placed 1", "PartiallyFilled 2 3 (3 from 1 at 10, whole)", "bid -"],
        ..SAME
    },
    Gap {
        of: "models.rs, OrderType::Limit",
        says: "either filled immediately, or added to the order book",
        fact: "Both at once: a part is filled, and the rest is added.",
        input: "limit ask 1 3 10; limit bid 2 5 10; bid",
        lobster: &["Placed 1", "PartiallyFilled 2 3 (3 from 1 at 10, whole)", "bid 10"],
        ..SAME
    },
    Gap {
        of: "models.rs, OrderType::Limit; OrderEvent::Placed",
        says: "either filled immediately, or added to the order book; Placed: was placed on the order book",
        fact: "Neither: a limit order of quantity zero answers Placed, and nothing rests.",
        input: "limit bid 1 0 10; bid; depth 1",
        lobster: &["Placed 1", "bid -", "depth 1: asks, bids"],
        ..SAME
    },
    Gap {
        of: "models.rs, OrderEvent::Placed and PartiallyFilled",
        says: "Placed: was placed on the order book",
        fact: "An order with fills whose rest is placed answers PartiallyFilled only. The same event answers a market order, whose rest lapses: the event doesn't tell which.",
        input: "limit ask 1 3 10; limit bid 2 5 10; cancel 2; limit ask 3 3 10; market bid 4 5; bid",
        lobster: &[
            "Placed 1",
            "PartiallyFilled 2 3 (3 from 1 at 10, whole)",
            "Canceled 2",
            "Placed 3",
            "PartiallyFilled 4 3 (3 from 3 at 10, whole)",
            "bid -",
        ],
        ..SAME
    },
    Gap {
        of: "models.rs, OrderEvent::Unfilled",
        says: "the corresponding order was not filled",
        fact: "A market order of quantity zero answers Unfilled whatever rests, though nothing of it was left unfilled.",
        input: "limit ask 1 3 10; market bid 2 0",
        lobster: &["Placed 1", "Unfilled 2"],
        ..SAME
    },
    Gap {
        of: "models.rs, every `id`",
        says: "The unique ID of this order",
        fact: "Nothing asks for uniqueness. A second resting order of an id hides the first: a cancel removes the newer one, a second cancel removes nothing, and the hidden one still trades.",
        input: "limit bid 7 3 50; limit bid 7 4 49; cancel 7; bid; cancel 7; bid; market ask 8 3",
        lobster: &["Placed 7", "Placed 7", "Canceled 7", "bid 50", "Canceled 7", "bid 50", "Filled 8 3 (3 from 7 at 50, whole)"],
        ..SAME
    },
    Gap {
        of: "models.rs, every `id`",
        says: "The unique ID of this order",
        fact: "An order may carry the id of a resting one, and then trades with its namesake.",
        input: "limit ask 1 5 10; market bid 1 5",
        lobster: &["Placed 1", "Filled 1 5 (5 from 1 at 10, whole)"],
        ..SAME
    },
    Gap {
        of: "models.rs, every `id`",
        says: "The unique ID of this order",
        fact: "An id may be used again after its order was used up or cancelled; it then names the new order.",
        input: "limit ask 1 1 10; market bid 2 1; limit ask 1 1 11; cancel 1; ask",
        lobster: &["Placed 1", "Filled 2 1 (1 from 1 at 10, whole)", "Placed 1", "Canceled 1", "ask -"],
        ..SAME
    },
    Gap {
        of: "models.rs, OrderType::Cancel; OrderEvent::Canceled",
        says: "removes the order with the specified ID; Canceled: was removed from the order book",
        fact: "Canceled is the answer even where nothing was there: an id never seen,",
        input: "cancel 9",
        lobster: &["Canceled 9"],
        ..SAME
    },
    Gap {
        of: "models.rs, OrderType::Cancel; OrderEvent::Canceled",
        says: "removes the order with the specified ID; Canceled: was removed from the order book",
        fact: "an order used up before, and one cancelled before.",
        input: "limit ask 1 1 10; market bid 2 1; cancel 1; cancel 1",
        lobster: &["Placed 1", "Filled 2 1 (1 from 1 at 10, whole)", "Canceled 1", "Canceled 1"],
        ..SAME
    },
    Gap {
        of: "models.rs, FillMetadata::total_fill",
        says: "Whether this order was a total (true) or partial (false) fill of the maker order",
        fact: "It tells whether the maker is used up by this fill, not whether the fill took the whole order: the second fill takes 4 of an order for 7 and is total.",
        input: "limit ask 1 7 103; market bid 2 3; market bid 3 4",
        lobster: &["Placed 1", "Filled 2 3 (3 from 1 at 103, part)", "Filled 3 4 (4 from 1 at 103, whole)"],
        ..SAME
    },
    Gap {
        of: "orderbook.rs, depth; models.rs, BookDepth and BookDepth::levels",
        says: "up to the specified level",
        fact: "Every occupied price is listed, whatever number is asked for; the number is only echoed.",
        input: "limit bid 1 5 10; limit bid 2 2 11; limit bid 3 3 10; limit ask 4 1 20; depth 1; depth 0",
        lobster: &[
            "Placed 1",
            "Placed 2",
            "Placed 3",
            "Placed 4",
            "depth 1: asks (20, 1), bids (10, 8) (11, 2)",
            "depth 0: asks (20, 1), bids (10, 8) (11, 2)",
        ],
        ..SAME
    },
    Gap {
        of: "models.rs, BookDepth::asks and bids",
        says: "A vector of price points",
        fact: "No comment gives the order: both sides ascend, so the best ask comes first and the best bid last.",
        input: "limit bid 1 1 10; limit bid 2 1 11; limit ask 3 1 20; limit ask 4 1 21; depth 2",
        lobster: &["Placed 1", "Placed 2", "Placed 3", "Placed 4", "depth 2: asks (20, 1) (21, 1), bids (10, 1) (11, 1)"],
        ..SAME
    },
    Gap {
        of: "orderbook.rs, depth",
        says: "Bids and offers at the same price level are merged in a single BookLevel",
        fact: "Orders of one side at one price are merged; bids and offers never meet in one level, they stand in two lists (and no price is on both sides).",
        input: "limit bid 1 1 10; limit bid 2 1 10; limit ask 3 1 11; depth 1",
        lobster: &["Placed 1", "Placed 2", "Placed 3", "depth 1: asks (11, 1), bids (10, 2)"],
        ..SAME
    },
    Gap {
        of: "orderbook.rs, depth; models.rs, BookDepth::levels",
        says: "This field will always contain the level that was requested, even if some or all levels are empty",
        fact: "Room for so many levels is reserved twice over first: a large number panics, even on an empty book (2^59 is the least that does; somewhat smaller ones end the program for want of memory).",
        input: "depth 2^59",
        lobster: &["PANIC: capacity overflow"],
        ours: Some(&["depth 576460752303423488: asks, bids"]),
        ..SAME
    },
    Gap {
        of: "models.rs, BookLevel::qty",
        says: "The total quantity of all orders resting at the specified price point",
        fact: "The sum wraps at 2^64 (in a debug build it panics).",
        input: "limit ask 1 2^64-1 5; limit ask 2 3 5; depth 1",
        lobster: &["Placed 1", "Placed 2", "depth 1: asks (5, 2), bids"],
        debug: Some(&["Placed 1", "Placed 2", "PANIC: attempt to add with overflow"]),
        ours: Some(&["Placed 1", "Placed 2", "refused (7): a level's total exceeds 2^64 - 1"]),
    },
    Gap {
        of: "models.rs, BookDepth::asks and bids",
        says: "A vector of price points with the associated quantity",
        fact: "A level whose sum wraps to zero isn't listed at all, though it is the best price.",
        input: "limit ask 1 2^64-1 5; limit ask 2 1 5; ask; depth 1",
        lobster: &["Placed 1", "Placed 2", "ask 5", "depth 1: asks, bids"],
        debug: Some(&["Placed 1", "Placed 2", "ask 5", "PANIC: attempt to add with overflow"]),
        ours: Some(&["Placed 1", "Placed 2", "ask 5", "refused (7): a level's total exceeds 2^64 - 1"]),
    },
    Gap {
        of: "orderbook.rs, traded_volume",
        says: "the total traded volume for all the trades that occurred while the stats tracking was active",
        fact: "It wraps at 2^64. A debug build panics, and then the maker is gone and no event tells of it.",
        input: "track on; limit ask 1 2^64-1 0; market bid 2 2^64-1; limit ask 3 1 0; market bid 4 1; volume; ask",
        lobster: &[
            "tracking on",
            "Placed 1",
            "Filled 2 18446744073709551615 (18446744073709551615 from 1 at 0, whole)",
            "Placed 3",
            "Filled 4 1 (1 from 3 at 0, whole)",
            "volume 0",
            "ask -",
        ],
        debug: Some(&[
            "tracking on",
            "Placed 1",
            "Filled 2 18446744073709551615 (18446744073709551615 from 1 at 0, whole)",
            "Placed 3",
            "PANIC: attempt to add with overflow",
            "volume 18446744073709551615",
            "ask -",
        ]),
        ours: Some(&[
            "tracking on",
            "Placed 1",
            "Filled 2 18446744073709551615 (18446744073709551615 from 1 at 0, whole)",
            "Placed 3",
            "refused (3): tracking is on, there are fills, and the sum of price times quantity or the new volume exceeds 2^64 - 1",
            "volume 18446744073709551615",
            "ask 0",
        ]),
    },
    Gap {
        of: "models.rs, Trade::avg_price",
        says: "The volume-weighted average price computed from all the order fills within this trade",
        fact: "Price times quantity wraps at 2^64: two at 2^63 have the average 0. A debug build panics after the maker is gone and the volume has grown: no event, no last trade.",
        input: "track on; limit ask 1 2 2^63; market bid 2 2; last; volume; ask",
        lobster: &[
            "tracking on",
            "Placed 1",
            "Filled 2 2 (2 from 1 at 9223372036854775808, whole)",
            "last 2, average 0.0, 2 at 9223372036854775808",
            "volume 2",
            "ask -",
        ],
        debug: Some(&["tracking on", "Placed 1", "PANIC: attempt to multiply with overflow", "last -", "volume 2", "ask -"]),
        ours: Some(&[
            "tracking on",
            "Placed 1",
            "refused (3): tracking is on, there are fills, and the sum of price times quantity or the new volume exceeds 2^64 - 1",
            "last -",
            "volume 0",
            "ask 9223372036854775808",
        ]),
    },
    Gap {
        of: "models.rs, Trade::avg_price",
        says: "The volume-weighted average price computed from all the order fills within this trade",
        fact: "The sum over the fills wraps too, where no single product does.",
        input: "track on; limit ask 1 1 2^63; limit ask 2 1 2^63; market bid 3 2; last",
        lobster: &[
            "tracking on",
            "Placed 1",
            "Placed 2",
            "Filled 3 2 (1 from 1 at 9223372036854775808, whole; 1 from 2 at 9223372036854775808, whole)",
            "last 2, average 0.0, 1 at 9223372036854775808",
        ],
        debug: Some(&["tracking on", "Placed 1", "Placed 2", "PANIC: attempt to add with overflow", "last -"]),
        ours: Some(&[
            "tracking on",
            "Placed 1",
            "Placed 2",
            "refused (3): tracking is on, there are fills, and the sum of price times quantity or the new volume exceeds 2^64 - 1",
            "last -",
        ]),
    },
    Gap {
        of: "models.rs, Trade::avg_price; lib.rs",
        says: "Lobster only deals in integer price points and quantities",
        fact: "The average is a double of rounded numbers: it can lie below every fill's price (here the price is 2^53 + 1),",
        input: "track on; limit ask 1 1 2^53+1; market bid 2 1; last; whole",
        lobster: &[
            "tracking on",
            "Placed 1",
            "Filled 2 1 (1 from 1 at 9007199254740993, whole)",
            "last 1, average 9007199254740992.0, 1 at 9007199254740993",
            "(no such call)",
        ],
        ours: Some(&[
            "tracking on",
            "Placed 1",
            "Filled 2 1 (1 from 1 at 9007199254740993, whole)",
            "last 1, average 9007199254740992.0, 1 at 9007199254740993",
            "whole average 9007199254740993",
        ]),
        ..SAME
    },
    Gap {
        of: "models.rs, Trade::avg_price; lib.rs",
        says: "Lobster only deals in integer price points and quantities",
        fact: "or above every fill's price (2^53 + 3). Our double is the same to the bit; the whole average beside it is never outside.",
        input: "track on; limit ask 1 1 2^53+3; market bid 2 1; last; whole",
        lobster: &[
            "tracking on",
            "Placed 1",
            "Filled 2 1 (1 from 1 at 9007199254740995, whole)",
            "last 1, average 9007199254740996.0, 1 at 9007199254740995",
            "(no such call)",
        ],
        ours: Some(&[
            "tracking on",
            "Placed 1",
            "Filled 2 1 (1 from 1 at 9007199254740995, whole)",
            "last 1, average 9007199254740996.0, 1 at 9007199254740995",
            "whole average 9007199254740995",
        ]),
        ..SAME
    },
    Gap {
        of: "models.rs, Trade; orderbook.rs, last_trade",
        says: "A trade that happened as part of the matching process",
        fact: "One Trade stands for all fills of one order, with however many makers.",
        input: "track on; limit ask 1 1 10; limit ask 2 1 12; market bid 3 2; last",
        lobster: &[
            "tracking on",
            "Placed 1",
            "Placed 2",
            "Filled 3 2 (1 from 1 at 10, whole; 1 from 2 at 12, whole)",
            "last 2, average 11.0, 1 at 12",
        ],
        ..SAME
    },
    Gap {
        of: "orderbook.rs, track_stats",
        says: "Toggle the stats tracking on or off",
        fact: "It sets tracking to what it is given; given the same twice it stays.",
        input: "track on; track on; limit ask 1 1 10; market bid 2 1; volume",
        lobster: &["tracking on", "tracking on", "Placed 1", "Filled 2 1 (1 from 1 at 10, whole)", "volume 1"],
        ..SAME
    },
];

fn joined(answers: &[String]) -> String {
    answers.join(" | ")
}

/// Runs one gap; what is written down must be what is answered.
fn shown(number: usize, gap: &Gap, brief: bool) -> bool {
    let script = parsed(gap.input).expect("the scripts here can be read");
    let [release, debug, ours] = three(&script);
    let due = [gap.lobster, gap.debug.unwrap_or(gap.lobster), gap.ours.unwrap_or(gap.lobster)];
    let right = [&release, &debug, &ours].into_iter().zip(due).all(|(answers, due)| answers.iter().eq(due.iter()));
    if right && brief {
        return true;
    }
    println!("{number}. {} says: \"{}\"", gap.of, gap.says);
    println!("   {}", gap.fact);
    println!("   input:    {}", gap.input);
    println!("   lobster:  {}", joined(&release));
    if debug != release {
        println!("   in debug: {}", joined(&debug));
    }
    let as_lobster = ours == release;
    println!("   ours:     {}", if as_lobster { "the same".into() } else { joined(&ours) });
    if !right {
        println!("   A DIFFERENCE from what is written down:\n   {due:?}");
    }
    right
}

/// How many records lobster's book holds, read off its debug text.
fn records(book: &lobster::OrderBook) -> usize {
    format!("{book:?}").matches("LimitOrder {").count()
}

fn ask(id: u128, qty: u64, price: u64) -> lobster::OrderType {
    lobster::OrderType::Limit { id, side: lobster::Side::Ask, qty, price }
}

fn take(id: u128, qty: u64) -> lobster::OrderType {
    lobster::OrderType::Market { id, side: lobster::Side::Bid, qty }
}

/// A fact, and how to see whether it holds.
type Fact = (&'static str, fn() -> bool);

/// What no answer shows: room and time.
const UNSEEN: &[Fact] = &[
    ("orderbook.rs, new, speaks of capacities: new(0, 0, false) takes three orders at one price, so they are no limits", || {
        let mut book = lobster::OrderBook::new(0, 0, false);
        (1..=3).for_each(|id| drop(book.execute(ask(id, 1, 10))));
        book.depth(1).asks[0].qty == 3
    }),
    ("a used-up order keeps its record: three orders used up one after another, none resting, hold 3 records", || {
        records(&used_up_three()) == 3
    }),
    ("until their ids are cancelled: then three new orders take those 3 records", || {
        let mut book = used_up_three();
        (1..=3).for_each(|id| drop(book.execute(lobster::OrderType::Cancel { id })));
        (4..=6).for_each(|id| drop(book.execute(ask(id, 1, 10))));
        records(&book) == 3
    }),
    ("a namesake's record is lost for ever: id 1 used 50 times, then cancelled, then one order: 50 records", || {
        let mut book = lobster::OrderBook::new(1, 1, false);
        (0..50).for_each(|_| drop((book.execute(ask(1, 1, 10)), book.execute(take(100, 1)))));
        book.execute(lobster::OrderType::Cancel { id: 1 });
        book.execute(ask(2, 1, 10));
        records(&book) == 50
    }),
    ("an emptied price stays in the book for ever: three orders at three prices, all cancelled, leave three empty queues", || {
        let mut book = lobster::OrderBook::new(1, 1, false);
        (1..=3).for_each(|id| drop((book.execute(ask(id, 1, 10 + id as u64)), book.execute(lobster::OrderType::Cancel { id }))));
        format!("{book:?}").contains("asks: {11: [], 12: [], 13: []}")
    }),
    ("ours frees a used-up order's place at once: id 1 used 5,000 times in a book of 1,024 places", || {
        let mut book = felavuti::OrderBook::default();
        let one = felavuti::OrderType::Limit { id: 1, side: felavuti::Side::Ask, qty: 1, price: 10 };
        let taken = felavuti::OrderType::Market { id: 100, side: felavuti::Side::Bid, qty: 1 };
        (0..5_000).all(|_| book.execute(one).is_ok() && book.execute(taken).is_ok()) && book.resting() == 0
    }),
    ("orderbook.rs, execute, \"returning immediately\": every order walks over all emptied prices: after 100,000 a market order on an empty book takes more than 20 times what it takes after 100", || {
        let (few, many) = (empty_walk(100), empty_walk(100_000));
        println!("   (an emptied book: a market order takes {few:.0} ns after 100 prices, {many:.0} ns after 100,000)");
        many > 20.0 * few
    }),
];

fn used_up_three() -> lobster::OrderBook {
    let mut book = lobster::OrderBook::new(1, 1, false);
    (1..=3).for_each(|id| drop((book.execute(ask(id, 1, 10)), book.execute(take(100, 1)))));
    book
}

fn unseen(brief: bool) -> bool {
    if !brief {
        println!("Room and time, which no answer shows:");
    }
    let holds = |&(fact, test): &Fact| {
        let right = test();
        if !(right && brief) {
            println!("   {}{fact}", if right { "" } else { "A DIFFERENCE: not so: " });
        }
        right
    };
    UNSEEN.iter().filter(|&fact| holds(fact)).count() == UNSEEN.len()
}

/// What a market order costs on an empty book in which so many prices were used before, in nanoseconds.
fn empty_walk(prices: u64) -> f64 {
    let mut book = lobster::OrderBook::default();
    (0..prices).for_each(|price| drop(book.execute(ask(1, 1, price))));
    book.execute(take(2, prices));
    let start = Instant::now();
    (0..50).for_each(|_| drop(std::hint::black_box(book.execute(take(2, 1)))));
    start.elapsed().as_secs_f64() / 50.0 * 1e9
}

/// Shows all gaps (in brief, only what isn't as written down). `true` where every answer is as written down.
pub fn run(brief: bool) -> bool {
    let shown = GAPS.iter().enumerate().filter(|(at, gap)| shown(at + 1, gap, brief)).count();
    let unseen = unseen(brief);
    println!("gaps: {shown} of {} shown by running{}", GAPS.len(), if unseen { ", and room and time as written" } else { "" });
    shown == GAPS.len() && unseen
}
