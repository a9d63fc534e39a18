//! Good books of any size, laid out by plain Rust from the rules' lists and not by the library: which record an order has, how the
//! free places follow one another and who came first to a place of the search is left to chance.

use crate::plain::{Plain, Resting};
use crate::random::Random;
use crate::step::{cancel, limit};
use felavuti::{Side, Size, Stored};

/// A desk in some state: ids and prices of one kind, some orders gone again.
pub fn any_desk(size: Size, random: &mut Random) -> Plain {
    let mut plain = Plain::new(size);
    let wanted = random.pick(&[0, 1, size.orders / 2 + 1, size.orders, size.orders]);
    let [ids, prices, sides] = [random.below(5), random.below(4), random.below(5)];
    for _ in 0..8 * size.orders {
        if plain.resting() >= wanted {
            break;
        }
        let bid = if sides < 2 { sides == 0 } else { random.one_in(2) };
        let side = if bid { Side::Bid } else { Side::Ask };
        let qty = random.pick(&[1, 2, 10, u64::MAX]);
        let step = limit(any_id(ids, size, random), side, qty, any_price(prices, size, side, random));
        // what the rules refuse isn't there
        let _ = plain.carry_out(step, size.orders);
    }
    while plain.resting() > 0 && random.one_in(4) {
        let orders = [plain.bids.as_slice(), &plain.asks].concat();
        let id = orders[random.below(orders.len() as u64) as usize].id;
        let _ = plain.carry_out(cancel(id), size.orders);
    }
    plain
}

/// Few ids, so that orders hide their namesakes; ids apart; ids of one home; ids whose home is at the end; the highest ids.
fn any_id(kind: u64, size: Size, random: &mut Random) -> u64 {
    let places = 2 * size.orders as u64;
    match kind {
        0 => random.below(3),
        1 => random.below(4 * places),
        2 => 1 + places * random.below(2 * places),
        3 => places * random.below(places) + places - random.between(1, 2),
        _ => u64::MAX - random.below(places),
    }
}

/// One price a side; as many as a side has room for; the lowest and the highest; prices that meet.
fn any_price(kind: u64, size: Size, side: Side, random: &mut Random) -> u64 {
    let above = u64::from(side == Side::Ask);
    match kind {
        0 => 7 + above,
        1 => random.below(size.prices.max(1) as u64) + above * size.prices as u64,
        2 if side == Side::Bid => random.pick(&[0, 1, 1 << 63]),
        2 => random.pick(&[(1 << 63) + 1, u64::MAX - 1, u64::MAX]),
        _ => random.below(20) + 4 * above,
    }
}

/// Storage for a book of a size, all zero.
pub fn blank(size: Size) -> Stored {
    Stored::blank(size).expect("there is memory for books as small as ours")
}

/// The stored book of a desk, in one of its many placements.
pub fn laid_out(plain: &Plain, random: &mut Random) -> Stored {
    let mut stored = blank(plain.size);
    if random.one_in(2) {
        // what no sentence speaks of may hold anything
        let numbers = stored.records.iter_mut().chain(&mut stored.bids).chain(&mut stored.asks).chain(&mut stored.desk[4..]);
        numbers.for_each(|number| *number = random.below(plain.size.orders as u64 + 2));
    }
    let mut codes = turned((1..=plain.size.orders as u64).collect(), random);
    let spare = turned(codes.split_off(plain.resting()), random);
    let mut codes = codes.into_iter();
    let bids: Vec<&[Resting]> = plain.bids.chunk_by(|a, b| a.price == b.price).rev().collect();
    let asks: Vec<&[Resting]> = plain.asks.chunk_by(|a, b| a.price == b.price).collect();
    let mut found = lay_side(&mut stored.records, &mut stored.bids, &bids, &mut codes);
    found.extend(lay_side(&mut stored.records, &mut stored.asks, &asks, &mut codes));
    for (&code, next) in spare.iter().zip(spare.iter().skip(1).chain([&0])) {
        let record = &mut stored.records[(code as usize - 1) * 5..][..5];
        (record[1], record[3]) = (0, *next);
    }
    for (id, code) in turned(found, random) {
        let mut place = (id % stored.search.len() as u64) as usize;
        while stored.search[place] != 0 {
            place = (place + 1) % stored.search.len();
        }
        stored.search[place] = code;
    }
    let first = spare.first().copied().unwrap_or(0);
    stored.desk[..4].copy_from_slice(&[plain.resting() as u64, first, bids.len() as u64, asks.len() as u64]);
    stored
}

/// The list as it is, from its end, or in any order.
fn turned<T>(mut list: Vec<T>, random: &mut Random) -> Vec<T> {
    match random.below(4) {
        0 => {}
        1 => list.reverse(),
        _ => (1..list.len()).for_each(|i| list.swap(i, random.below(i as u64 + 1) as usize)),
    }
    list
}

/// Writes the rows of a side and the records of its orders; the ids that the search is to find, with their codes.
fn lay_side(
    records: &mut [u64],
    rows: &mut [u64],
    levels: &[&[Resting]],
    codes: &mut impl Iterator<Item = u64>,
) -> Vec<(u64, u64)> {
    let mut found = vec![];
    for (row, level) in rows.chunks_exact_mut(3).zip(levels) {
        let queue: Vec<u64> = codes.by_ref().take(level.len()).collect();
        row.copy_from_slice(&[level[0].price, queue[0], queue[queue.len() - 1]]);
        for (i, (order, &code)) in level.iter().zip(&queue).enumerate() {
            let next = queue.get(i + 1).copied().unwrap_or(0);
            let previous = if i == 0 { 0 } else { queue[i - 1] };
            records[(code as usize - 1) * 5..][..5].copy_from_slice(&[order.id, order.qty, order.price, next, previous]);
            if order.found {
                found.push((order.id, code));
            }
        }
    }
    found
}
