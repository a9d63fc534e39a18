//! Ours before and after a change, called in turn in one run: the check of a whole book, and what a quote costs beside it.

use crate::bench::{filled, median, one_home, worked, worn, Timed, BATCH};
use crate::random::Random;
use crate::step::{cancel, limit};
use felavuti::{OrderBook, Side, Size, Stored, ORDERS, PRICES};
use std::hint::black_box;

/// Declares the older library's calls, whose names build.rs has changed, and makes functions of them.
macro_rules! older {
    ($($name:ident $call:ident [$($first:ident: $value:expr),*] [$($last:ident: $room:expr),*];)+) => {
        extern "C" {
            $(fn $call(
                $($first: usize,)* desk: *const u64, records: *const u64, records_len: usize, bids: *const u64, bids_len: usize, asks: *const u64,
                asks_len: usize, search: *const u64, search_len: usize $(, $last: *mut u64)*
            ) -> u64;)+
        }
        $(fn $name(s: &Stored) -> u64 {
            // Sound: each pointer comes from a slice or an array of the stated length that outlives the call, and the library is proved to keep inside them.
            unsafe {
                $call(
                    $($value,)* s.desk.as_ptr(), s.records.as_ptr(), s.records.len(), s.bids.as_ptr(), s.bids.len(), s.asks.as_ptr(), s.asks.len(),
                    s.search.as_ptr(), s.search.len() $(, $room)*
                )
            }
        })+
    };
}

older! {
    check before_felavuti_check [orders: ORDERS, prices: PRICES] [];
    min_ask before_felavuti_min_ask [] [answer: [0; 4].as_mut_ptr()];
    max_bid before_felavuti_max_bid [] [answer: [0; 4].as_mut_ptr()];
    spread before_felavuti_spread [] [answer: [0; 4].as_mut_ptr()];
}

type Call = fn(&Stored) -> u64;

/// A call before and after.
type Pair = [Call; 2];

const CHECK: Pair = [check, |s| s.check(Size::BASE)];
/// Lowest ask, highest bid, spread.
const QUOTES: [Pair; 3] =
    [[min_ask, |s| s.min_ask(&mut [0; 4])], [max_bid, |s| s.max_bid(&mut [0; 4])], [spread, |s| s.spread(&mut [0; 4])]];

/// Processor time of a call on these books in turn.
fn time(call: Call, books: &[Stored]) -> f64 {
    assert_eq!(call(&books[0]), 0, "the book is whole");
    worked(BATCH, || (0..BATCH).for_each(|n| assert_eq!(black_box(call(black_box(&books[n % books.len()]))), 0)))
}

/// Median, and the quartiles.
fn spread_of(mut times: Vec<f64>) -> [f64; 3] {
    times.sort_by(f64::total_cmp);
    [2, 1, 3].map(|quarter| times[times.len() * quarter / 4])
}

/// A day's book: orders and cancels at random, 300 at rest at most.
fn day(seed: u64) -> OrderBook {
    let (mut random, mut book, mut ids) = (Random::new(seed), OrderBook::default(), vec![]);
    for id in 1_000..4_000 {
        if ids.len() >= 300 || (ids.len() > 20 && random.one_in(3)) {
            book.carry_out(cancel(ids.swap_remove(random.below(ids.len() as u64) as usize)));
        }
        let price = random.below(40);
        match random.one_in(2) {
            true => book.carry_out(limit(id, Side::Bid, 10, 10_000 - price)),
            false => book.carry_out(limit(id, Side::Ask, 10, 20_000 + price)),
        }
        ids.push(id);
    }
    ids.drain(250..).for_each(|id| book.carry_out(cancel(id)));
    book
}

fn checks(repetitions: usize) {
    println!("| book | resting orders | one book again and again: before, after, ns | ratio | sixteen books in turn: before, after, ns | ratio |");
    println!("|---|---|---|---|---|---|");
    let row = |name: &str, repetitions: usize, make: &dyn Fn(u64) -> OrderBook| {
        let books: Vec<Stored> = (1..=BATCH as u64).map(|seed| make(seed).stored().clone()).collect();
        let mut cells = String::new();
        for part in [&books[..1], &books[..]] {
            let pairs: Vec<[f64; 2]> = (0..repetitions).map(|_| CHECK.map(|call| time(call, part))).collect();
            let [before, after] = [0, 1].map(|k| median(pairs.iter().map(|pair| pair[k]).collect()));
            let [ratio, low, high] = spread_of(pairs.iter().map(|[before, after]| after / before).collect());
            cells += &format!(" {before:.0}, {after:.0} | **{ratio:.2}** ({low:.2} to {high:.2}) |");
        }
        println!("| {name} | {} |{cells}", books[0].desk[0]);
    };
    for resting in [0, 504, ORDERS] {
        row("orders as they came, 64 prices a side", repetitions, &|_| filled(OrderBook::default(), resting as u64, 64));
    }
    row("the same at one price a side", repetitions, &|_| filled(OrderBook::default(), ORDERS as u64, 1));
    row("a day: 3,000 orders and cancels at random, 300 at rest at most", repetitions, &day);
    for resting in [0, 504, ORDERS] {
        row("any ids, after 4,096 cancels", repetitions, &|seed| worn(resting, seed));
    }
    row("all ids of one home", repetitions / 50 + 3, &one_home);
}

fn quotes(repetitions: usize) {
    println!("\n| prices a side | | the check, ns | beside it: lowest ask, highest bid, spread, ns |\n|---|---|---|---|");
    for prices in [1, 16, PRICES as u64] {
        let books = [filled(OrderBook::default(), 2 * PRICES as u64, prices).stored().clone()];
        let mut times = [vec![], vec![]];
        for _ in 0..repetitions {
            for k in [0, 1] {
                let check = time(CHECK[k], &books);
                times[k].push((check, QUOTES.map(|pair| time(pair[k], &books) - check)));
            }
        }
        for (name, times) in ["before", "after"].iter().zip(times) {
            let check = median(times.iter().map(|(check, _)| *check).collect());
            let more = [0, 1, 2].map(|quote| median(times.iter().map(|(_, more)| more[quote]).collect()));
            println!("| {prices} | {name} | {check:.0} | {:.0}, {:.0}, {:.0} |", more[0], more[1], more[2]);
        }
    }
}

pub fn run(repetitions: usize) {
    checks(repetitions);
    quotes(repetitions);
}
