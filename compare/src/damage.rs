//! Damage to stored books: single numbers, and several that agree with each other.

use crate::random::Random;
use felavuti::Stored;

/// The parts of a stored book.
pub const PARTS: [&str; 5] = ["the desk", "records", "bids", "asks", "search"];

/// Changes one number of a stored book; in words, which.
pub fn changed_number(stored: &mut Stored, random: &mut Random) -> String {
    let (part, at) = target(stored, random);
    let codes = stored.records.len() as u64 / 5;
    let old = part_of(stored, part)[at];
    let other = {
        let numbers = part_of(stored, part);
        numbers[random.below(numbers.len() as u64) as usize]
    };
    let rests = random.below(codes.min(stored.desk[0].max(1))) + 1;
    let new = match random.below(9) {
        0 => 0,
        1 => old.wrapping_add(1),
        2 => old.wrapping_sub(1),
        3 => rests,
        4 => random.between(1, codes + 2),
        5 => other,
        6 => random.pick(&[u64::MAX, 1 << 63, 1, 2]),
        7 => old ^ (1 << random.below(12)),
        _ => random.any(),
    };
    part_of(stored, part)[at] = new;
    format!("{} at {at}: {old} to {new}", PARTS[part])
}

/// Changes several numbers that agree with each other: the book may even stay whole. In words, which.
pub fn changed_together(stored: &mut Stored, random: &mut Random) -> String {
    let taken: Vec<usize> = (0..stored.search.len()).filter(|&place| stored.search[place] != 0).collect();
    match random.below(6) {
        0 | 1 if stored.desk[2] + stored.desk[3] > 0 => other_price(stored, random),
        2..=4 if !taken.is_empty() => other_entry(stored, random.pick(&taken), random),
        _ => {
            let first = stored.desk[1] as usize;
            if first != 0 {
                stored.desk[1] = stored.records[(first - 1) * 5 + 3];
            }
            stored.desk[0] = stored.desk[0].wrapping_add(random.below(2));
            "the first free place lost".into()
        }
    }
}

/// A level with all its orders gets another price: a neighbour's, the other side's best, one beside.
fn other_price(stored: &mut Stored, random: &mut Random) -> String {
    let (bids, asks, best) = (stored.desk[2], stored.desk[3], stored.asks[0]);
    let at = random.below(bids + asks);
    let (rows, row) = if at < bids { (&mut stored.bids, at as usize * 3) } else { (&mut stored.asks, (at - bids) as usize * 3) };
    let old = rows[row];
    let beside = rows[(row + 3) % rows.len()];
    let new = random.pick(&[old.wrapping_add(1), old.wrapping_sub(1), beside, best, best.wrapping_sub(1), 0, u64::MAX]);
    rows[row] = new;
    let mut code = rows[row + 1];
    while code != 0 {
        stored.records[(code as usize - 1) * 5 + 2] = new;
        code = stored.records[(code as usize - 1) * 5 + 3];
    }
    format!("a level's price {old} to {new}, its orders' too")
}

/// An entry of the search leaves (its order is then hidden), moves, stands twice, or its order gets another id of the same home.
fn other_entry(stored: &mut Stored, place: usize, random: &mut Random) -> String {
    let places = stored.search.len();
    let other = (place + random.between(1, 3) as usize) % places;
    match random.below(4) {
        0 => {
            stored.search[place] = 0;
            format!("search place {place} cleared")
        }
        1 => {
            stored.search[other] = stored.search[place];
            format!("search place {place} copied to {other}")
        }
        2 => {
            stored.search[other] = stored.search[place];
            stored.search[place] = 0;
            format!("search place {place} moved to {other}")
        }
        _ => {
            let row = (stored.search[place] as usize - 1) * 5;
            stored.records[row] = stored.records[row].wrapping_add(places as u64 * random.between(1, 3));
            format!("an id changed, its home kept, at search place {place}")
        }
    }
}

/// Changes what the links of a good book say, several at a time: the book may even stay whole. In words, how.
pub fn changed_links(stored: &mut Stored, random: &mut Random) -> String {
    let orders = stored.records.len() as u64 / 5;
    let [a, b] = [random.between(1, orders), random.between(1, orders)];
    let bids = random.one_in(2);
    match random.below(8) {
        0 => exchanged_codes(stored, a, b),
        1 => exchanged_rows(stored, a, b),
        2 => other_link(stored, a, b),
        3 => lost_order(stored, a, random.one_in(2)),
        4 => exchanged_levels(if bids { &mut stored.bids } else { &mut stored.asks }),
        5 => level_twice(stored, bids, random.one_in(2)),
        6 => {
            stored.desk.swap(2, 3);
            std::mem::swap(&mut stored.bids, &mut stored.asks);
            "bids and asks exchanged".into()
        }
        _ => {
            let used = random.one_in(2);
            (stored.desk[0], stored.desk[1]) = if used { (orders, 0) } else { (0, stored.desk[1]) };
            "other counts of the resting orders".into()
        }
    }
}

/// Two records exchange their codes, wherever these stand: the book stays whole.
fn exchanged_codes(stored: &mut Stored, a: u64, b: u64) -> String {
    exchanged_rows(stored, a, b);
    let Stored { desk, records, bids, asks, search } = stored;
    let links = records.chunks_exact_mut(5).flat_map(|record| &mut record[3..]);
    let ends = bids.chunks_exact_mut(3).chain(asks.chunks_exact_mut(3)).flat_map(|row| &mut row[1..]);
    for code in links.chain(ends).chain(search).chain(&mut desk[1..2]).filter(|code| [a, b].contains(code)) {
        *code = if *code == a { b } else { a };
    }
    format!("records {a} and {b} exchanged, and their codes everywhere")
}

/// Two records exchange all their numbers.
fn exchanged_rows(stored: &mut Stored, a: u64, b: u64) -> String {
    (0..5).for_each(|column| stored.records.swap((a as usize - 1) * 5 + column, (b as usize - 1) * 5 + column));
    format!("records {a} and {b} exchanged")
}

/// A record is followed by another one, which has it before itself.
fn other_link(stored: &mut Stored, a: u64, b: u64) -> String {
    stored.records[(a as usize - 1) * 5 + 3] = b;
    stored.records[(b as usize - 1) * 5 + 4] = a;
    format!("record {a} followed by {b}, both ways")
}

/// The record leaves whatever chain it is in, and the count and its row say so; it may become the first free place.
fn lost_order(stored: &mut Stored, code: u64, freed: bool) -> String {
    let row = (code as usize - 1) * 5;
    let [next, previous] = [stored.records[row + 3], stored.records[row + 4]];
    for record in stored.records.chunks_exact_mut(5) {
        record[3] = if record[3] == code { next } else { record[3] };
        record[4] = if record[4] == code { previous } else { record[4] };
    }
    for level in stored.bids.chunks_exact_mut(3).chain(stored.asks.chunks_exact_mut(3)) {
        level[1] = if level[1] == code { next } else { level[1] };
        level[2] = if level[2] == code { previous } else { level[2] };
    }
    stored.desk[1] = if stored.desk[1] == code { next } else { stored.desk[1] };
    stored.desk[0] -= u64::from(stored.records[row + 1] != 0);
    if freed {
        (stored.records[row + 1], stored.records[row + 3]) = (0, stored.desk[1]);
        stored.desk[1] = code;
    }
    format!("record {code} out of its chain, freed: {freed}")
}

/// The first two rows of a side exchange their places.
fn exchanged_levels(rows: &mut [u64]) -> String {
    if rows.len() >= 6 {
        (0..3).for_each(|column| rows.swap(column, 3 + column));
    }
    "the first two levels of a side exchanged".into()
}

/// A side gets one more row in use: its last one again, or one without orders, at a price above.
fn level_twice(stored: &mut Stored, bids: bool, empty: bool) -> String {
    let (rows, count) = if bids { (&mut stored.bids, 2) } else { (&mut stored.asks, 3) };
    let at = stored.desk[count] as usize * 3;
    if at > 0 && at < rows.len() {
        let [price, head, tail] = [rows[at - 3], rows[at - 2], rows[at - 1]];
        rows[at..at + 3].copy_from_slice(&if empty { [price.wrapping_add(1), 0, 0] } else { [price, head, tail] });
        stored.desk[count] += 1;
    }
    format!("one more level, empty: {empty}")
}

/// The numbers of a part.
pub fn part_of(stored: &mut Stored, part: usize) -> &mut [u64] {
    match part {
        0 => &mut stored.desk,
        1 => &mut stored.records,
        2 => &mut stored.bids,
        3 => &mut stored.asks,
        _ => &mut stored.search,
    }
}

/// A part and a place in it, mostly one that matters.
fn target(stored: &Stored, random: &mut Random) -> (usize, usize) {
    let used = |rows: u64, length: usize| ((rows as usize + 1) * 3).min(length) as u64;
    let anywhere = random.one_in(5);
    match random.below(8) {
        0 => (0, random.below(4) as usize),
        1 if !anywhere => (2, random.below(used(stored.desk[2].min(1 << 20), stored.bids.len())) as usize),
        1 => (2, random.below(stored.bids.len() as u64) as usize),
        2 if !anywhere => (3, random.below(used(stored.desk[3].min(1 << 20), stored.asks.len())) as usize),
        2 => (3, random.below(stored.asks.len() as u64) as usize),
        3 | 4 if !anywhere => {
            // an entry of the search, or a place beside one
            let taken: Vec<usize> = (0..stored.search.len()).filter(|&place| stored.search[place] != 0).collect();
            match taken.is_empty() {
                true => (4, random.below(stored.search.len() as u64) as usize),
                false => (4, (random.pick(&taken) + random.below(2) as usize) % stored.search.len()),
            }
        }
        3 | 4 => (4, random.below(stored.search.len() as u64) as usize),
        5 | 6 if !anywhere => {
            // a number of an order at rest
            let taken: Vec<usize> = (0..stored.records.len() / 5).filter(|&row| stored.records[row * 5 + 1] != 0).collect();
            match taken.is_empty() {
                true => (1, random.below(stored.records.len() as u64) as usize),
                false => (1, random.pick(&taken) * 5 + random.below(5) as usize),
            }
        }
        _ => (1, random.below(stored.records.len() as u64) as usize),
    }
}
