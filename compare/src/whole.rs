//! Document 01's 'A whole book' over the stored numbers, sentence by sentence, slowly and plainly, for a book of any size. The
//! library's refusal 1 is compared with it.

use felavuti::{Size, Stored};

/// `Ok` where the stored book is whole, else the first sentence that fails.
pub fn whole(size: Size, stored: &Stored) -> Result<(), &'static str> {
    let Stored { desk, records, bids, asks, search } = stored;
    let [resting, free, bid_prices, ask_prices] = [desk[0], desk[1], desk[2], desk[3]];
    let lengths = [records.len(), bids.len(), asks.len(), search.len()].map(|length| length as u128);
    let [orders, prices] = [size.orders, size.prices].map(|number| number as u128);
    if orders == 0 || lengths != [orders * 5, prices * 3, prices * 3, orders * 2] {
        return Err("storage has the right lengths, for one order at least");
    }
    if resting > size.orders as u64 || bid_prices > size.prices as u64 || ask_prices > size.prices as u64 {
        return Err("counts are within limits");
    }
    let bids = side(size, records, bids, bid_prices as usize)?;
    let asks = side(size, records, asks, ask_prices as usize)?;
    if matches!((bids.last(), asks.first()), (Some(bid), Some(ask)) if bid.0 >= ask.0) {
        return Err("best bid is below best ask");
    }
    let queued: Vec<u64> = bids.iter().chain(&asks).flat_map(|level| level.1.clone()).collect();
    if queued.len() as u64 != resting {
        return Err("as many orders rest as are counted");
    }
    let spare = chain(size, records, free).ok_or("the free places are a chain that ends")?;
    if spare.iter().any(|&code| field(records, code, 1) != 0) {
        return Err("a free place has quantity 0");
    }
    let mut all = [queued.as_slice(), &spare].concat();
    all.sort_unstable();
    if !all.into_iter().eq(1..=size.orders as u64) {
        return Err("each record is in one queue once, or is a free place once");
    }
    searched(records, search, &queued)
}

fn field(records: &[u64], code: u64, column: usize) -> u64 {
    records[(code as usize - 1) * 5 + column]
}

/// The codes from one on by `next`; `None` where they don't end or leave the records.
fn chain(size: Size, records: &[u64], first: u64) -> Option<Vec<u64>> {
    let mut codes = vec![];
    let mut code = first;
    while code != 0 {
        if code > size.orders as u64 || codes.len() == size.orders {
            return None;
        }
        codes.push(code);
        code = field(records, code, 3);
    }
    Some(codes)
}

/// A side's prices with their queues.
fn side(size: Size, records: &[u64], rows: &[u64], n: usize) -> Result<Vec<(u64, Vec<u64>)>, &'static str> {
    let mut levels: Vec<(u64, Vec<u64>)> = vec![];
    for row in rows.chunks_exact(3).take(n) {
        let (price, head, tail) = (row[0], row[1], row[2]);
        let queue = chain(size, records, head).ok_or("a queue is a chain that ends")?;
        if queue.last() != Some(&tail) {
            return Err("a price is occupied, and its row names the last order");
        }
        let before = [&[0], &queue[..queue.len() - 1]].concat();
        if queue.iter().zip(before).any(|(&code, previous)| field(records, code, 4) != previous) {
            return Err("each order names the one before it");
        }
        if queue.iter().any(|&code| field(records, code, 1) == 0 || field(records, code, 2) != price) {
            return Err("each resting quantity is at least 1, under its own price");
        }
        if levels.last().is_some_and(|level| level.0 >= price) {
            return Err("prices are strictly ascending");
        }
        levels.push((price, queue));
    }
    Ok(levels)
}

/// The search finds only resting orders, at most one an id, and no free place lies between an id's home and its place.
fn searched(records: &[u64], search: &[u64], queued: &[u64]) -> Result<(), &'static str> {
    let places = search.len();
    let mut rests = vec![false; records.len() / 5 + 1];
    queued.iter().for_each(|&code| rests[code as usize] = true);
    let entries: Vec<(usize, u64)> = (0..places).map(|place| (place, search[place])).filter(|&(_, code)| code != 0).collect();
    if entries.iter().any(|&(_, code)| !rests.get(code as usize).copied().unwrap_or(false)) {
        return Err("the search finds only resting orders");
    }
    let mut ids: Vec<u64> = entries.iter().map(|&(_, code)| field(records, code, 0)).collect();
    ids.sort_unstable();
    if ids.windows(2).any(|pair| pair[0] == pair[1]) {
        return Err("the search finds at most one order an id");
    }
    for (place, code) in entries {
        let home = (field(records, code, 0) % places as u64) as usize;
        let way = (place + places - home) % places;
        if (0..way).any(|step| search[(home + step) % places] == 0) {
            return Err("no free place lies between an id's home and its place");
        }
    }
    Ok(())
}
