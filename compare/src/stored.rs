//! The stored answers: a fixed list of orders, and lobster's answers to them as text. A proved program reads the first and must
//! print the second, so that the gate needs no Rust.
//!
//! An order is five numbers of 8 bytes, low byte first: kind (0 market, 1 limit, 2 cancel, 3 tracking), side (0 bid, 1 ask; for
//! tracking 0 off, 1 on), id, quantity, price; what a kind hasn't is 0. The text has for each order its event
//! (`Placed 1`, `Unfilled 7`, `Canceled 1`, `Filled 4 8 2`: id, filled quantity, fills; `tracking on`), a line a fill
//! (`fill 2 5 103 whole`: maker, quantity, price, whether used up), and one line of figures
//! (`ask 103 bid - spread - volume 8 last 8 103 3 4637229..`: total, last price, last quantity, bits of the average).

use crate::judge::{order_of, Desks, Verdict};
use crate::random::Random;
use crate::shapes::{Draw, SHAPES};
use crate::step::{cancel, limit, market, Step};
use felavuti::{OrderType, Side, ORDERS};
use std::fmt::Write as _;
use std::path::Path;

const SEED: u64 = 20_260;
/// How many steps each shape adds, and how many the one that fills the book adds.
const SHARE: usize = 120;
const FULL_SHARE: usize = 1_600;
/// What the program that reads them has room for.
const MOST_BYTES: usize = 262_144;

/// Document 01's trading day, T1 to T12, then D1 and D2 on what it leaves: an empty book.
fn by_example() -> Vec<Step> {
    use Side::{Ask, Bid};
    vec![
        Step::Track(true),
        limit(1, Ask, 10, 105),
        limit(2, Ask, 5, 103),
        limit(3, Ask, 7, 103),
        limit(4, Bid, 8, 104),
        limit(5, Bid, 6, 103),
        market(6, Bid, 12),
        market(7, Bid, 1),
        cancel(1),
        limit(8, Ask, 0, 1),
        market(10, Ask, 0),
        limit(9, Ask, 1, 103),
        cancel(5),
        limit(7, Bid, 3, 50),
        limit(7, Bid, 4, 49),
        cancel(7),
        cancel(7),
        market(11, Ask, 3),
        limit(12, Bid, 5, 10),
        limit(13, Bid, 2, 11),
        limit(14, Bid, 3, 10),
        limit(15, Ask, 1, 20),
    ]
}

/// Empties the book: tracking off, and both sides are taken whole (as often as a quantity of 2^64 - 1 needs).
fn emptying(desks: &Desks) -> Vec<Step> {
    let mut steps = vec![Step::Track(false)];
    for side in [Side::Bid, Side::Ask] {
        let rests: u128 = desks.plain.side(!side).iter().map(|order| u128::from(order.qty)).sum();
        steps.extend((0..rests.div_ceil(u64::MAX.into())).map(|_| market(0, side, u64::MAX)));
    }
    steps
}

/// The fixed list. Every step is accepted by ours, and compared.
fn orders() -> Result<Vec<Step>, String> {
    let mut desks = Desks::new();
    let mut steps = vec![];
    let mut one = |desks: &mut Desks, step: Step| -> Result<bool, String> {
        let accepted = matches!(desks.step(step)?, Verdict::Accepted);
        if accepted {
            steps.push(step);
        }
        Ok(accepted)
    };
    for step in by_example() {
        one(&mut desks, step)?;
    }
    for shape in SHAPES {
        for step in emptying(&desks) {
            one(&mut desks, step)?;
        }
        one(&mut desks, Step::Track(shape.tracking))?;
        let mut draw = Draw::new(Random::of_history(SEED, shape.name, 0));
        let mut left = if shape.name == "full-book" { FULL_SHARE } else { SHARE };
        // a book that is full ends the shape that fills it
        while left > 0 && desks.plain.resting() < ORDERS {
            let step = draw.step(shape, &desks.plain);
            left -= usize::from(one(&mut desks, step)?);
        }
    }
    Ok(steps)
}

fn bytes(steps: &[Step]) -> Vec<u8> {
    let numbers = |step: &Step| match *step {
        Step::Order(OrderType::Market { id, side, qty }) => [0, side.number(), id, qty, 0],
        Step::Order(OrderType::Limit { id, side, qty, price }) => [1, side.number(), id, qty, price],
        Step::Order(OrderType::Cancel { id }) => [2, 0, id, 0, 0],
        Step::Track(on) => [3, on.into(), 0, 0, 0],
    };
    steps.iter().flat_map(numbers).flat_map(u64::to_le_bytes).collect()
}

/// Lobster's answers, and lobster's alone.
fn text(steps: &[Step]) -> String {
    let mut book = lobster::OrderBook::default();
    let mut out = String::new();
    for &step in steps {
        match step {
            Step::Track(on) => {
                book.track_stats(on);
                out += if on { "tracking on\n" } else { "tracking off\n" };
            }
            Step::Order(order) => out += &event(book.execute(order_of(order))),
        }
        out += &figures(&book);
    }
    out
}

/// An event of lobster's with its fills, a line each.
pub fn event(event: lobster::OrderEvent) -> String {
    use lobster::OrderEvent::{Canceled, Filled, PartiallyFilled, Placed, Unfilled};
    let filled = |name: &str, id: u128, qty: u64, fills: Vec<lobster::FillMetadata>| {
        let mut out = format!("{name} {id} {qty} {}\n", fills.len());
        for fill in fills {
            let used = if fill.total_fill { "whole" } else { "part" };
            writeln!(out, "fill {} {} {} {used}", fill.order_2, fill.qty, fill.price).expect("a string takes any text");
        }
        out
    };
    match event {
        Unfilled { id } => format!("Unfilled {id}\n"),
        Placed { id } => format!("Placed {id}\n"),
        Canceled { id } => format!("Canceled {id}\n"),
        PartiallyFilled { id, filled_qty, fills } => filled("PartiallyFilled", id, filled_qty, fills),
        Filled { id, filled_qty, fills } => filled("Filled", id, filled_qty, fills),
    }
}

fn figures(book: &lobster::OrderBook) -> String {
    let or_dash = |number: Option<u64>| number.map_or("-".into(), |number| number.to_string());
    let last = book.last_trade().map_or("-".into(), |trade| {
        format!("{} {} {} {}", trade.total_qty, trade.last_price, trade.last_qty, trade.avg_price.to_bits())
    });
    let (ask, bid, spread) = (or_dash(book.min_ask()), or_dash(book.max_bid()), or_dash(book.spread()));
    format!("ask {ask} bid {bid} spread {spread} volume {} last {last}\n", book.traded_volume())
}

/// Writes the orders as DIR/stdin and the answers as DIR/stdout, or sees that those there are the same.
pub fn run(folder: &Path, check: bool) -> Result<(), String> {
    let steps = orders()?;
    let (input, output) = (bytes(&steps), text(&steps));
    if input.len() > MOST_BYTES {
        return Err(format!("{} bytes of orders are more than {MOST_BYTES}", input.len()));
    }
    for (name, content) in [("stdin", input.as_slice()), ("stdout", output.as_bytes())] {
        let path = folder.join(name);
        let said = |error: std::io::Error| format!("{}: {error}", path.display());
        match check {
            false => std::fs::write(&path, content).map_err(said)?,
            true if std::fs::read(&path).map_err(said)? == content => {}
            true => return Err(format!("{} is not what lobster answers today", path.display())),
        }
    }
    println!(
        "stored answers: {} orders ({} bytes), {} lines of lobster's answers ({} bytes), {}",
        steps.len(),
        input.len(),
        output.lines().count(),
        output.len(),
        if check { "as stored" } else { "written" }
    );
    Ok(())
}
