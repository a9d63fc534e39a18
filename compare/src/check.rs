//! Is a stored book whole? The library's check, which takes any size, against the plain check (`whole.rs`): on good books of small
//! sizes in many states, on the same books with each single number changed to many values, with several numbers changed that
//! agree with each other, with wrong lengths and sizes, and on storage full of chance.

use crate::damage::{changed_links, changed_number, changed_together, part_of, PARTS};
use crate::layout::{any_desk, blank, laid_out};
use crate::random::Random;
use crate::whole::whole;
use felavuti::{Refusal, Size, Stored};
use std::collections::BTreeMap;

/// Orders and prices a side: one of each, more prices than orders, no prices at all, places of the search that are and aren't a
/// power of two.
const SIZES: [[usize; 2]; 9] = [[1, 1], [2, 1], [3, 2], [4, 3], [8, 4], [2, 5], [3, 0], [5, 5], [7, 3]];

/// How many times a good book gets several numbers changed, and how many storages of chance are tried beside it.
const SEVERAL: u64 = 60;

/// A book on which the two checks differ.
struct Example {
    size: Size,
    stored: Stored,
    what: String,
    ours: u64,
    plain: Result<(), &'static str>,
}

#[derive(Default)]
struct Tally {
    states: BTreeMap<&'static str, u64>,
    /// What was done to a book: how often, and how many of these were whole.
    runs: BTreeMap<&'static str, [u64; 2]>,
    /// The first sentence that fails, and how often.
    sentences: BTreeMap<&'static str, u64>,
    differ: u64,
    smallest: Option<Example>,
}

impl Tally {
    /// Asks both checks.
    fn ask(&mut self, kind: &'static str, size: Size, stored: &Stored, what: impl FnOnce() -> String) {
        let (ours, plain) = (stored.check(size), whole(size, stored));
        let runs = self.runs.entry(kind).or_default();
        runs[0] += 1;
        runs[1] += u64::from(plain.is_ok());
        if let Err(sentence) = plain {
            *self.sentences.entry(sentence).or_default() += 1;
        }
        let due = if plain.is_ok() { 0 } else { Refusal::NotWhole.number() };
        if ours != due {
            self.differ += 1;
            let length = |stored: &Stored| (stored.records.len() + stored.bids.len() + stored.asks.len(), stored.desk[0]);
            if self.smallest.as_ref().is_none_or(|example| length(stored) < length(&example.stored)) {
                self.smallest = Some(Example { size, stored: stored.clone(), what: what(), ours, plain });
            }
        }
    }

    /// A good book: accepted by both.
    fn good(&mut self, size: Size, stored: &Stored) {
        states_of(size, stored).into_iter().for_each(|state| *self.states.entry(state).or_default() += 1);
        self.ask("good books", size, stored, || "nothing changed".into());
        if whole(size, stored).is_err() {
            // the builder is wrong, or the plain check
            self.differ += 1;
        }
    }

    /// Every single number changed to every value.
    fn each_number(&mut self, size: Size, stored: &mut Stored) {
        let values = values_of(size, stored);
        for (part, name) in PARTS.iter().enumerate() {
            // the desk's other numbers are the statistics, which may hold any values
            let length = if part == 0 { 4 } else { part_of(stored, part).len() };
            for at in 0..length {
                let old = part_of(stored, part)[at];
                let beside = [old.wrapping_add(1), old.wrapping_sub(1), old.wrapping_add(2 * size.orders as u64)];
                let beside = beside.into_iter().filter(|value| values.binary_search(value).is_err());
                for new in values.iter().copied().chain(beside).filter(|&new| new != old) {
                    part_of(stored, part)[at] = new;
                    self.ask("one number changed", size, stored, || format!("{name} at {at}: {old} to {new}"));
                }
                part_of(stored, part)[at] = old;
            }
        }
    }

    /// Several numbers changed: some that agree with each other, or some at random.
    fn several_numbers(&mut self, size: Size, good: &Stored, random: &mut Random) {
        for _ in 0..SEVERAL {
            let mut stored = good.clone();
            let hurt: Vec<String> = match random.below(3) {
                0 => vec![changed_together(&mut stored, random)],
                1 => vec![changed_links(&mut stored, random)],
                _ => (0..random.between(2, 4)).map(|_| changed_number(&mut stored, random)).collect(),
            };
            self.ask("several numbers changed", size, &stored, || hurt.join("; "));
        }
    }

    /// Wrong lengths, and other sizes than the book's.
    fn lengths(&mut self, size: Size, good: &Stored) {
        for (part, name) in PARTS.iter().enumerate().skip(1) {
            for change in [-100, -5, -3, -2, -1, 1, 2, 3, 5, 100_i64] {
                let mut stored = good.clone();
                let lists = [&mut stored.records, &mut stored.bids, &mut stored.asks, &mut stored.search];
                let list = lists.into_iter().nth(part - 1).expect("a part that has a length");
                list.resize((list.len() as i64 + change).max(0) as usize, 0);
                if stored == *good {
                    continue;
                }
                self.ask("lengths and sizes", size, &stored, || format!("{name} longer by {change}"));
            }
        }
        let near = |n: usize| [0, 1, n.wrapping_sub(1), n, n + 1, n + (1 << 63), usize::MAX];
        let others = near(size.orders).into_iter().flat_map(|orders| near(size.prices).map(|prices| Size { orders, prices }));
        for other in others.chain([Size { orders: size.prices, prices: size.orders }]).filter(|&other| other != size) {
            self.ask("lengths and sizes", other, good, || format!("the size said to be {other:?}, not {size:?}"));
        }
        let none = Size { orders: 0, ..size };
        self.ask("lengths and sizes", none, &blank(none), || "a size of no orders".into());
        let mut longer = good.clone();
        [&mut longer.bids, &mut longer.asks].into_iter().for_each(|rows| rows.resize(rows.len() + 3, 1));
        let other = Size { prices: size.prices + 1, ..size };
        self.ask("lengths and sizes", other, &longer, || "one more price a side, and a row for it".into());
    }

    /// Storage of the right lengths, full of small numbers.
    fn chance(&mut self, size: Size, random: &mut Random) {
        for _ in 0..SEVERAL {
            let mut stored = blank(size);
            let zeros = random.between(1, 4);
            for (part, name) in PARTS.iter().enumerate() {
                let most = if *name == "records" { size.orders as u64 + 2 } else { size.orders as u64 + 1 };
                let numbers = part_of(&mut stored, part).iter_mut();
                numbers.for_each(|number| *number = if random.one_in(zeros) { 0 } else { random.below(most) });
            }
            self.ask("storage of chance", size, &stored, || "small numbers at random".into());
        }
    }
}

/// Values to try: 0, 1, every code, the one beyond, the largest, and every number that stands in the book.
fn values_of(size: Size, stored: &Stored) -> Vec<u64> {
    let mut values: Vec<u64> = (0..=size.orders as u64 + 1).chain([1 << 63, u64::MAX]).collect();
    let Stored { desk, records, bids, asks, search } = stored;
    [&desk[..4], records, bids, asks, search].into_iter().for_each(|numbers| values.extend(numbers));
    values.sort_unstable();
    values.dedup();
    values
}

/// What can be said of a good book.
fn states_of(size: Size, stored: &Stored) -> Vec<&'static str> {
    let [resting, free, bids, asks] = [0, 1, 2, 3].map(|at| stored.desk[at]);
    let record = |code: u64| &stored.records[(code as usize - 1) * 5..][..5];
    let entries: Vec<(usize, u64)> = stored.search.iter().copied().enumerate().filter(|&(_, code)| code != 0).collect();
    let home = |code: u64| (record(code)[0] % stored.search.len() as u64) as usize;
    let mut chain = vec![];
    let mut code = free;
    while code != 0 {
        chain.push(code);
        code = record(code)[3];
    }
    let rows = |rows: &[u64], n: u64| rows.chunks_exact(3).take(n as usize).any(|row| row[1] != row[2]);
    let states = [
        ("no order", resting == 0),
        ("full", resting == size.orders as u64),
        ("one price", bids + asks == 1),
        ("a side with all its prices", size.prices > 0 && bids.max(asks) == size.prices as u64),
        ("bids and asks", bids > 0 && asks > 0),
        ("two orders or more at a price", rows(&stored.bids, bids) || rows(&stored.asks, asks)),
        ("hidden namesakes", (entries.len() as u64) < resting),
        ("search entries away from home", entries.iter().any(|&(place, code)| home(code) != place)),
        ("search entries past the end, at the start", entries.iter().any(|&(place, code)| place < home(code))),
        ("free places neither up nor down", !chain.is_sorted() && !chain.iter().rev().is_sorted()),
    ];
    states.into_iter().filter(|state| state.1).map(|state| state.0).collect()
}

/// So many good books of every size. `true` where the two checks never differ.
pub fn run(seed: u64, books: u64) -> bool {
    let mut random = Random::new(seed);
    let mut tally = Tally::default();
    for [orders, prices] in SIZES {
        let size = Size { orders, prices };
        for _ in 0..books {
            let mut stored = laid_out(&any_desk(size, &mut random), &mut random);
            tally.good(size, &stored);
            tally.each_number(size, &mut stored);
            if prices > 0 {
                tally.several_numbers(size, &stored, &mut random);
            }
            tally.lengths(size, &stored);
            tally.chance(size, &mut random);
        }
    }
    told(&tally, seed, books);
    tally.differ == 0
}

fn told(tally: &Tally, seed: u64, books: u64) {
    let sizes = SIZES.map(|[orders, prices]| format!("{orders}/{prices}")).join(", ");
    println!("is it whole?: seed {seed}, {books} good books of each size (orders/prices a side: {sizes})");
    for (state, times) in &tally.states {
        println!("    {times:>10} {state}");
    }
    for (kind, [runs, whole]) in &tally.runs {
        println!("  {kind}: {runs}, of them whole {whole}");
    }
    for (sentence, times) in &tally.sentences {
        println!("    {times:>10} {sentence}");
    }
    match &tally.smallest {
        None if tally.differ == 0 => println!("is it whole?: the library's check and the plain one agree; no difference"),
        None => println!("A DIFFERENCE: {} good books aren't whole by the plain check", tally.differ),
        Some(Example { size, stored, what, ours, plain }) => {
            let Stored { desk, records, bids, asks, search } = stored;
            println!("A DIFFERENCE in {} runs (seed {seed}); the smallest: {size:?}, {what}", tally.differ);
            println!("  the library answers {ours}, the plain check {plain:?}\n  desk {:?}", &desk[..4]);
            println!("  records {records:?}\n  bids {bids:?}\n  asks {asks:?}\n  search {search:?}");
        }
    }
}
