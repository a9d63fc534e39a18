//! Document 01's examples, run on ours and on lobster: T1 to T12, D1 to D4, the limits, the counts of the search.

use crate::script::{parsed, three};

struct Example {
    name: &'static str,
    script: &'static str,
    due: &'static [&'static str],
    /// Whether lobster answers the same: it knows no refusal, no whole average and no search.
    lobster: bool,
}

const EXAMPLES: &[Example] = &[
    Example {
        name: "T1 to T12",
        script: "track on; limit ask 1 10 105; limit ask 2 5 103; limit ask 3 7 103; ask; limit bid 4 8 104; volume; limit bid 5 6 103; bid; ask; spread; \
                 market bid 6 12; volume; last; market bid 7 1; volume; last; cancel 1; ask; bid; limit ask 8 0 1; ask; market ask 10 0; limit ask 9 1 103; cancel 5; ask; bid",
        due: &[
            "tracking on",
            "Placed 1",
            "Placed 2",
            "Placed 3",
            "ask 103",
            "Filled 4 8 (5 from 2 at 103, whole; 3 from 3 at 103, part)",
            "volume 8",
            "PartiallyFilled 5 4 (4 from 3 at 103, whole)",
            "bid 103",
            "ask 105",
            "spread 2",
            "PartiallyFilled 6 10 (10 from 1 at 105, whole)",
            "volume 22",
            "last 10, average 105.0, 10 at 105",
            "Unfilled 7",
            "volume 22",
            "last 10, average 105.0, 10 at 105",
            "Canceled 1",
            "ask -",
            "bid 103",
            "Placed 8",
            "ask -",
            "Unfilled 10",
            "Filled 9 1 (1 from 5 at 103, part)",
            "Canceled 5",
            "ask -",
            "bid -",
        ],
        lobster: true,
    },
    Example {
        name: "D1",
        script: "limit bid 7 3 50; limit bid 7 4 49; cancel 7; depth 9; cancel 7; depth 9; market ask 8 3",
        due: &[
            "Placed 7",
            "Placed 7",
            "Canceled 7",
            "depth 9: asks, bids (50, 3)",
            "Canceled 7",
            "depth 9: asks, bids (50, 3)",
            "Filled 8 3 (3 from 7 at 50, whole)",
        ],
        lobster: true,
    },
    Example {
        name: "D2",
        script: "limit bid 1 5 10; limit bid 2 2 11; limit bid 3 3 10; limit ask 4 1 20; depth 1",
        due: &["Placed 1", "Placed 2", "Placed 3", "Placed 4", "depth 1: asks (20, 1), bids (10, 8) (11, 2)"],
        lobster: true,
    },
    Example {
        name: "D3, the largest sum that is accepted",
        script: "track on; limit ask 1 2 2^63-1; market bid 2 2; last; volume",
        due: &[
            "tracking on",
            "Placed 1",
            "Filled 2 2 (2 from 1 at 9223372036854775807, whole)",
            "last 2, average 9.223372036854776e18, 2 at 9223372036854775807",
            "volume 2",
        ],
        lobster: true,
    },
    Example {
        name: "D3, one more",
        script: "track on; limit ask 1 2 2^63; market bid 2 2; track off; market bid 2 2; volume; last",
        due: &[
            "tracking on",
            "Placed 1",
            "refused (3): tracking is on, there are fills, and the sum of price times quantity or the new volume exceeds 2^64 - 1",
            "tracking off",
            "Filled 2 2 (2 from 1 at 9223372036854775808, whole)",
            "volume 0",
            "last -",
        ],
        lobster: false,
    },
    Example {
        name: "D4, the whole average",
        script: "track on; limit ask 1 2 100; limit ask 2 1 101; market bid 3 3; whole",
        due: &[
            "tracking on",
            "Placed 1",
            "Placed 2",
            "Filled 3 3 (2 from 1 at 100, whole; 1 from 2 at 101, whole)",
            "whole average 100",
        ],
        lobster: false,
    },
    Example {
        name: "what a search counts",
        script: "limit ask 5 1 10; limit ask 2053 1 10; get 5; get 2053; get 4101; cancel 5; get 2053; get 5",
        due: &[
            "Placed 5",
            "Placed 2053",
            "5: 1 at 10 (looked at 1)",
            "2053: 1 at 10 (looked at 2)",
            "4101: nothing (looked at 3)",
            "Canceled 5",
            "2053: 1 at 10 (looked at 1)",
            "5: nothing (looked at 2)",
        ],
        lobster: false,
    },
];

/// The 1,024th order and the 128th price are accepted, the next ones refused with 4 and 5; one place for two fills is too few.
fn limits() -> Result<(), String> {
    use felavuti::{FillRow, OrderBook, OrderType, Refusal, Side, ORDERS, PRICES};
    let bid = |id: u64, price: u64| OrderType::Limit { id, side: Side::Bid, qty: 1, price };
    let told = |what: &str, holds: bool| if holds { Ok(()) } else { Err(what.to_string()) };

    let mut book = OrderBook::default();
    let all = (1..=ORDERS as u64).all(|id| book.execute(bid(id, 10)).is_ok());
    told("the 1,024th resting order is accepted", all && book.resting() == ORDERS)?;
    told("the next gets 4", book.execute(bid(0, 10)) == Err(Refusal::BookFull))?;

    let mut book = OrderBook::default();
    let all = (1..=PRICES as u64).all(|price| book.execute(bid(price, price)).is_ok());
    told("the 128th price on a side is accepted", all)?;
    told("the 129th gets 5", book.execute(bid(0, 1_000)) == Err(Refusal::SideFull))?;
    told("another order at one of the 128 is accepted", book.execute(bid(0, 5)).is_ok())?;

    let mut book = OrderBook::default();
    let ask = |id: u64, qty: u64, price: u64| OrderType::Limit { id, side: Side::Ask, qty, price };
    told("D4's asks rest", book.execute(ask(1, 2, 100)).is_ok() && book.execute(ask(2, 1, 101)).is_ok())?;
    let taker = OrderType::Market { id: 3, side: Side::Bid, qty: 3 };
    told(
        "D4 with one place for fills gets 2",
        book.execute_into(taker, &mut [FillRow::default()]) == Err(Refusal::TooManyFills),
    )?;
    told("D4 with two places is accepted", book.execute_into(taker, &mut [FillRow::default(); 2]).is_ok())
}

/// `true` where every answer is document 01's.
pub fn run() -> bool {
    let mut right = true;
    for example in EXAMPLES {
        let [lobster, _, ours] = three(&parsed(example.script).expect("the scripts here can be read"));
        let fits = |answers: &[String]| answers.iter().eq(example.due.iter());
        if !fits(&ours) || (example.lobster && !fits(&lobster)) {
            println!("A DIFFERENCE in {}:\n  due     {:?}\n  ours    {ours:?}\n  lobster {lobster:?}", example.name, example.due);
            right = false;
        }
    }
    if let Err(what) = limits() {
        println!("A DIFFERENCE: not so: {what}");
        right = false;
    }
    println!(
        "examples: T1 to T12, D1 to D4, the limits and the counts of the search {}",
        if right { "as document 01 has them" } else { "DIFFER" }
    );
    right
}
