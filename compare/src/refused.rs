//! Refused calls: the library's calls on whole books with short buffers, on damaged books, and on storage of wrong lengths. Every
//! lent slice and value is compared before and after, number for number.
//!
//! The library's calls know one size (`Size::BASE`). A call that takes a size has its place in `SIZES`: books, damage and the
//! plain rules here take any. The check alone takes one so far: see `check.rs`.

use crate::books::{equal, Books};
use crate::damage::{changed_number, changed_together};
use crate::layout::blank;
use crate::plain::Plain;
use crate::random::Random;
use crate::step::{cancel, limit, market, Step};
use crate::whole::whole;
use felavuti::{OrderEvent, OrderType, Refusal, Side, Size, Stored};
use std::collections::BTreeMap;

/// The sizes that the library's calls can be asked for.
const SIZES: [Size; 1] = [Size::BASE];
/// Untouchable numbers on both sides of a lent buffer.
const MARGIN: usize = 8;

#[derive(Debug, Clone, Copy)]
enum Call {
    Fresh,
    Step(Step),
    /// An order with a side's number that is none.
    NoSide(u64, Option<u64>),
    MinAsk,
    MaxBid,
    Spread,
    Depth(u64),
    Get(u64),
}

/// All that is lent to a call.
#[derive(Debug, Clone, PartialEq)]
struct Lent {
    stored: Stored,
    /// The buffer for fills or levels, with its margins.
    buffer: Vec<u64>,
    answer: [u64; 4],
}

impl Lent {
    fn new(stored: &Stored, room: usize, random: &mut Random) -> Lent {
        let buffer = (0..room + 2 * MARGIN).map(|_| random.any()).collect();
        Lent { stored: stored.clone(), buffer, answer: [(); 4].map(|()| random.any()) }
    }

    fn call(&mut self, call: Call) -> u64 {
        let Lent { stored, buffer, answer } = self;
        let end = buffer.len() - MARGIN;
        let room = &mut buffer[MARGIN..end];
        match call {
            Call::Fresh => stored.fresh(),
            Call::Step(Step::Track(on)) => stored.track_stats(on.into()),
            Call::Step(Step::Order(OrderType::Market { id, side, qty })) => stored.market(room, id, side.number(), qty, answer),
            Call::Step(Step::Order(OrderType::Limit { id, side, qty, price })) => {
                stored.limit(room, id, side.number(), qty, price, answer)
            }
            Call::Step(Step::Order(OrderType::Cancel { id })) => stored.cancel(id, answer),
            Call::NoSide(side, None) => stored.market(room, 1, side, 1, answer),
            Call::NoSide(side, Some(price)) => stored.limit(room, 1, side, 1, price, answer),
            Call::MinAsk => stored.min_ask(answer),
            Call::MaxBid => stored.max_bid(answer),
            Call::Spread => stored.spread(answer),
            Call::Depth(levels) => stored.depth(room, levels, answer),
            Call::Get(id) => stored.get(id, answer),
        }
    }

    fn room(&self) -> &[u64] {
        &self.buffer[MARGIN..self.buffer.len() - MARGIN]
    }
}

/// How often each number was given, 0 for accepted.
type Counts = BTreeMap<u64, u64>;

/// Makes a call and sees that it changes nothing where it is refused. The number, and what is lent afterwards.
fn made(call: Call, before: &Lent) -> Result<(u64, Lent), String> {
    let mut after = before.clone();
    let number = after.call(call);
    match number == 0 || after == *before {
        true => Ok((number, after)),
        false => Err(format!("{call:?} was refused with {number}, and yet changed {}", changed(before, &after))),
    }
}

/// The first thing that differs.
fn changed(before: &Lent, after: &Lent) -> String {
    let parts: [(&str, &[u64], &[u64]); 7] = [
        ("the desk's numbers", &before.stored.desk, &after.stored.desk),
        ("records", &before.stored.records, &after.stored.records),
        ("bids", &before.stored.bids, &after.stored.bids),
        ("asks", &before.stored.asks, &after.stored.asks),
        ("search", &before.stored.search, &after.stored.search),
        ("the buffer (with its margins)", &before.buffer, &after.buffer),
        ("the answer", &before.answer, &after.answer),
    ];
    for (name, old, new) in parts {
        if let Some(at) = (0..old.len()).find(|&i| old[i] != new[i]) {
            return format!("{name} at {at}: {} to {}", old[at], new[at]);
        }
    }
    "nothing".into()
}

/// A call with its arguments, at random.
fn any_call(books: &mut Books) -> Call {
    match books.random.below(12) {
        0 => Call::MinAsk,
        1 => Call::MaxBid,
        2 => Call::Spread,
        3 | 4 => Call::Depth(books.random.bits(64)),
        5 => Call::Get(books.random.below(3_000)),
        _ => Call::Step(books.drawn()),
    }
}

/// A whole book, a call, and a buffer that may be too short: number, answer, book, statistics and buffer as the rules say.
fn lent_calls(size: Size, seed: u64, rounds: u64) -> Result<Counts, String> {
    let mut books = Books::new(size, seed)?;
    let mut counts = Counts::new();
    for _ in 0..rounds {
        books.next()?;
        let call = any_call(&mut books);
        let places = needed(call, &books.plain);
        let row = if matches!(call, Call::Depth(_)) { 2 } else { 5 };
        let room = (places as u64 + 2).saturating_sub(books.random.below(5)) * row + books.random.below(row);
        let before = Lent::new(&books.stored, room as usize, &mut books.random);
        let (number, after) = made(call, &before)?;
        *counts.entry(number).or_default() += 1;
        as_due(call, &books.plain, number, &before, &after, room as usize / row as usize)
            .map_err(|what| format!("{what}: {call:?}, {places} places needed, {room} numbers lent"))?;
    }
    Ok(counts)
}

/// How many places of a buffer the call needs.
fn needed(call: Call, plain: &Plain) -> usize {
    match call {
        Call::Step(step) => match plain.clone().carry_out(step, usize::MAX) {
            Ok(Some(OrderEvent::Filled { fills, .. } | OrderEvent::PartiallyFilled { fills, .. })) => fills.len(),
            _ => 0,
        },
        Call::Depth(_) => plain.prices(Side::Bid) + plain.prices(Side::Ask),
        _ => 0,
    }
}

/// Whether the call did what the rules say.
fn as_due(call: Call, plain: &Plain, number: u64, before: &Lent, after: &Lent, room: usize) -> Result<(), String> {
    let present = |quote: Option<u64>| quote.map_or(vec![0], |price| vec![1, price]);
    let (ask, bid, spread) = plain.quotes();
    let mut then = plain.clone();
    let (answer, rows) = match call {
        Call::Step(step) => match then.carry_out(step, room) {
            Err(refusal) => return equal("the number", &number, &refusal.number()),
            Ok(event) => event.map_or((vec![], vec![]), |event| numbers_of(&event)),
        },
        Call::Depth(levels) => match plain.depth(room) {
            Err(refusal) => return equal("the number", &number, &refusal.number()),
            Ok((asks, bids)) => {
                let answer = vec![levels, asks.len() as u64, bids.len() as u64];
                (answer, asks.iter().chain(&bids).flat_map(|&(price, total)| [price, total]).collect())
            }
        },
        Call::MinAsk => (present(ask), vec![]),
        Call::MaxBid => (present(bid), vec![]),
        Call::Spread => (present(spread), vec![]),
        Call::Get(id) => (plain.find(id).map_or(vec![0], |order| vec![1, order.price, order.qty]), vec![]),
        Call::Fresh | Call::NoSide(..) => return Err("this call isn't judged here".into()),
    };
    equal("the number", &number, &0)?;
    equal("the answer", &after.answer[..answer.len()], &answer)?;
    let beyond = &before.room()[rows.len()..];
    equal("the buffer", after.room(), &[&rows, beyond].concat())?;
    equal("the margins", &margins(after), &margins(before))?;
    book_as(&then, after)?;
    if !matches!(call, Call::Step(_)) {
        equal("the stored book after a question", &after.stored, &before.stored)?;
    }
    Ok(())
}

fn margins(lent: &Lent) -> [&[u64]; 2] {
    [&lent.buffer[..MARGIN], &lent.buffer[lent.buffer.len() - MARGIN..]]
}

/// An event as the library's four numbers, and its fills as rows.
fn numbers_of(event: &OrderEvent) -> (Vec<u64>, Vec<u64>) {
    let (kind, id, filled, fills) = match event {
        OrderEvent::Unfilled { id } => (0, *id, 0, &vec![]),
        OrderEvent::Placed { id } => (1, *id, 0, &vec![]),
        OrderEvent::Canceled { id } => (2, *id, 0, &vec![]),
        OrderEvent::PartiallyFilled { id, filled_qty, fills } => (3, *id, *filled_qty, fills),
        OrderEvent::Filled { id, filled_qty, fills } => (4, *id, *filled_qty, fills),
    };
    let row =
        |f: &felavuti::FillMetadata| [f.order_1, f.order_2, f.qty, f.price, f.taker_side.number() * 2 + u64::from(f.total_fill)];
    (vec![kind, id, filled, fills.len() as u64], fills.iter().flat_map(row).collect())
}

/// The stored book is whole and reads as the plain desk: every order in its turn, found or not, and the statistics.
fn book_as(plain: &Plain, after: &Lent) -> Result<(), String> {
    let stored = &after.stored;
    whole(plain.size, stored).map_err(|sentence| format!("the book afterwards isn't whole: {sentence}"))?;
    let shown = if plain.last.is_some() { 8 } else { 3 };
    equal("the statistics", &stored.desk[4..4 + shown], &plain.statistics()[..shown])?;
    let asks: Vec<[u64; 4]> = orders(stored, &stored.asks, stored.desk[3]).concat();
    let bids: Vec<[u64; 4]> = orders(stored, &stored.bids, stored.desk[2]).into_iter().rev().flatten().collect();
    let listed = |side: &[crate::plain::Resting]| -> Vec<[u64; 4]> {
        side.iter().map(|order| [order.id, order.qty, order.price, order.found.into()]).collect()
    };
    equal("the asks (id, quantity, price, found)", &asks, &listed(&plain.asks))?;
    equal("the bids (id, quantity, price, found)", &bids, &listed(&plain.bids))
}

/// The orders of a side, price by price: id, quantity, price, found.
fn orders(stored: &Stored, rows: &[u64], n: u64) -> Vec<Vec<[u64; 4]>> {
    let queue = |row: &[u64]| {
        let mut orders = vec![];
        let mut code = row[1];
        while code != 0 {
            let record = &stored.records[(code as usize - 1) * 5..][..5];
            orders.push([record[0], record[1], record[2], stored.search.contains(&code).into()]);
            code = record[3];
        }
        orders
    };
    rows.chunks_exact(3).take(n as usize).map(queue).collect()
}

/// Damaged books: refusal 1 exactly where the book isn't whole, and nothing changed.
fn damaged(size: Size, seed: u64, rounds: u64) -> Result<(Counts, BTreeMap<&'static str, u64>), String> {
    let mut books = Books::new(size, seed)?;
    let mut counts = Counts::new();
    let mut sentences = BTreeMap::new();
    for _ in 0..rounds {
        books.next()?;
        let mut stored = books.stored.clone();
        let times = if books.random.one_in(3) { books.random.between(2, 6) } else { 1 };
        let hurt: Vec<String> = match books.random.one_in(4) {
            true => vec![changed_together(&mut stored, &mut books.random)],
            false => (0..times).map(|_| changed_number(&mut stored, &mut books.random)).collect(),
        };
        // the statistics may hold any numbers, a side's questions and every refusal keep them
        if books.random.one_in(3) {
            stored.desk[4..].iter_mut().for_each(|number| *number = books.random.any());
        }
        let verdict = whole(size, &stored);
        *sentences.entry(verdict.err().unwrap_or("(still whole)")).or_default() += 1;
        let due = if verdict.is_ok() { 0 } else { Refusal::NotWhole.number() };
        equal(&format!("the check; damage: {hurt:?}"), &stored.check(size), &due)?;
        let steps = [(); 3].map(|()| Call::Step(books.drawn()));
        let others = [Call::MinAsk, Call::MaxBid, Call::Spread, Call::Depth(1), Call::Get(books.random.below(50))];
        for call in steps.into_iter().chain(others) {
            let room = books.random.below(40) as usize;
            let before = Lent::new(&stored, room, &mut books.random);
            let (number, after) = made(call, &before).map_err(|what| format!("{what}; damage: {hurt:?}"))?;
            *counts.entry(number).or_default() += 1;
            let refusable = !matches!(call, Call::Step(Step::Track(_)));
            if refusable && (number == 1) != verdict.is_err() {
                return Err(format!("{call:?} gave {number}, and the plain check says {verdict:?}; damage: {hurt:?}"));
            }
            if number == 0 && !matches!(call, Call::Step(_)) && after.stored != before.stored {
                return Err(format!("{call:?} is a question, and yet changed {}; damage: {hurt:?}", changed(&before, &after)));
            }
            if number == 0 && verdict.is_ok() && whole(size, &after.stored).is_err() {
                return Err(format!("{call:?} left a book that isn't whole; damage: {hurt:?}"));
            }
        }
    }
    Ok((counts, sentences))
}

/// Storage of wrong lengths: every call on a book gives 1 and changes nothing, a fresh book too.
fn wrong_lengths(size: Size, seed: u64) -> Result<Counts, String> {
    let mut books = Books::new(size, seed)?;
    let mut counts = Counts::new();
    for part in 1..5 {
        for change in [-100_000, -5, -3, -2, -1, 1, 2, 3, 5, 100_000_i64] {
            books.next()?;
            let mut stored = books.stored.clone();
            let list =
                [&mut stored.records, &mut stored.bids, &mut stored.asks, &mut stored.search].into_iter().nth(part - 1).unwrap();
            let length = (list.len() as i64 + change).max(0) as usize;
            list.resize(length, 0);
            let step = Call::Step(limit(7, Side::Bid, 3, 5));
            let others = [Call::Step(market(7, Side::Ask, 3)), Call::Step(cancel(1))];
            let quotes = [Call::MinAsk, Call::MaxBid, Call::Spread, Call::Depth(1), Call::Get(1)];
            for call in [Call::Fresh, step].into_iter().chain(others).chain(quotes) {
                let before = Lent::new(&stored, 40, &mut books.random);
                let (number, _) = made(call, &before)?;
                *counts.entry(number).or_default() += 1;
                equal(&format!("{call:?} where part {part} has length {length}"), &number, &Refusal::NotWhole.number())?;
            }
        }
    }
    Ok(counts)
}

/// Every way in which refusals 2 to 5 can be due together, on both sides: the lowest number is given.
fn together(size: Size, seed: u64) -> Result<Counts, String> {
    let mut random = Random::new(seed);
    let mut counts = Counts::new();
    for case in 0..64 {
        let on = |bit: u32| case >> bit & 1 == 1;
        let (side, fills) = (if on(0) { Side::Bid } else { Side::Ask }, on(1));
        let mut books = Books::new(size, seed)?;
        (books.stored, books.plain) = (blank(size), Plain::new(size));
        equal("a fresh book", &books.stored.fresh(), &0)?;
        // own prices: as many as a side can have, or one fewer; the other side fills the book, or leaves one place
        let own = size.prices - usize::from(!on(2));
        let others = size.orders - own - usize::from(!on(3));
        // a bid's own side lies below 5,000, an ask's above
        let (mine, theirs) = if side == Side::Bid { (1_000, 5_000) } else { (5_000, 1_000) };
        (0..own as u64).try_for_each(|k| books.both(limit(k, side, 1, mine + 2 * k)))?;
        (0..others as u64).try_for_each(|k| books.both(limit(5_000 + k, !side, 1, theirs + k % 7)))?;
        books.plain.tracking = on(4);
        books.plain.volume = u64::MAX;
        books.stored.desk[4..].copy_from_slice(&books.plain.statistics());
        // crossing all of the other side with a remainder, or resting between the sides
        let price = match (fills, side) {
            (true, Side::Bid) => 9_000,
            (true, Side::Ask) => 1,
            (false, _) => 4_000,
        };
        let room = if on(5) { 0 } else { size.orders };
        for (price, qty) in [(price, 5_000), (price, 0), (mine, 1)] {
            let call = Call::Step(limit(1, side, qty, price));
            let before = Lent::new(&books.stored, room * 5, &mut random);
            let (number, after) = made(call, &before)?;
            *counts.entry(number).or_default() += 1;
            as_due(call, &books.plain, number, &before, &after, room).map_err(|what| format!("{what}: {call:?}, case {case}"))?;
        }
    }
    Ok(counts)
}

/// Sides that are none, and fresh books made of rubbish.
fn others(size: Size, seed: u64, rounds: u64) -> Result<Counts, String> {
    let mut books = Books::new(size, seed)?;
    let mut counts = Counts::new();
    for _ in 0..rounds {
        books.next()?;
        let side = books.random.pick(&[2, 3, 4, 1 << 32, u64::MAX]);
        let limit = books.random.one_in(2).then_some(books.random.any());
        let before = Lent::new(&books.stored, 5, &mut books.random);
        let (number, _) = made(Call::NoSide(side, limit), &before)?;
        *counts.entry(number).or_default() += 1;
        equal(&format!("an order with side {side}"), &number, &Refusal::NoSuchSide.number())?;
        let mut lent = before;
        let hurt = books.random.below(3_000);
        for _ in 0..hurt {
            changed_number(&mut lent.stored, &mut books.random);
        }
        lent.stored.desk = [(); 12].map(|()| books.random.any());
        let (number, after) = made(Call::Fresh, &lent)?;
        *counts.entry(number).or_default() += 1;
        equal("a fresh book", &number, &0)?;
        equal("what else a fresh book changes", &(&after.buffer, after.answer), &(&lent.buffer, lent.answer))?;
        book_as(&Plain::new(size), &after)?;
    }
    Ok(counts)
}

fn shown(counts: &Counts) -> String {
    counts
        .iter()
        .map(|(number, times)| if *number == 0 { format!("accepted {times}") } else { format!("refused({number}) {times}") })
        .collect::<Vec<_>>()
        .join(", ")
}

/// All of them. `true` where nothing is amiss.
pub fn run(seed: u64, rounds: u64) -> bool {
    SIZES.into_iter().all(|size| {
        println!("refused calls: seed {seed}, {} orders, {} prices a side", size.orders, size.prices);
        let outcome = (|| {
            println!("  whole books, buffers of all lengths: {}", shown(&lent_calls(size, seed, rounds * 4)?));
            let (counts, sentences) = damaged(size, seed + 1, rounds)?;
            println!("  damaged books, 8 calls each: {}", shown(&counts));
            for (sentence, times) in sentences {
                println!("    {times:>8} {sentence}");
            }
            println!("  refusals 2 to 5 due together: {}", shown(&together(size, seed + 4)?));
            println!("  wrong lengths: {}", shown(&wrong_lengths(size, seed + 2)?));
            println!("  no such side, fresh books of rubbish: {}", shown(&others(size, seed + 3, rounds / 10 + 1)?));
            Ok::<(), String>(())
        })();
        match outcome {
            Ok(()) => println!("refused calls: nothing lent was changed by a refusal; no difference"),
            Err(ref what) => println!("A DIFFERENCE in a refused or lent call (seed {seed}):\n  {what}"),
        }
        outcome.is_ok()
    })
}
