//! Random histories as tapes: the program felavuti reads each, and its text must be lobster's answers in the same form, byte for
//! byte. What a tape is stands here once more, from document 02's words: nothing of the proved reader and writer is used.

use crate::histories::Plan;
use crate::judge::order_of;
use crate::plain::Plain;
use crate::random::Random;
use crate::shapes::{Draw, Shape};
use crate::step::Step;
use crate::stored::event;
use felavuti::{OrderType, Side, Size, ORDERS};
use std::io::Write as _;
use std::path::{Path, PathBuf};
use std::process::{Command, Output, Stdio};

/// The places of a field where its tag, its length and, but for a cancel, its side stand.
const TELLING: [usize; 4] = [0, 1, 2, 11];
/// What is put there: tags, lengths, sides, and what is none of them.
const WRONG: [u8; 10] = [0, 1, 2, 3, 4, 8, 16, 17, 25, 255];

#[derive(Default)]
struct Totals {
    histories: u64,
    orders: u64,
    lines: usize,
    refused: u64,
    stopped: u64,
}

/// What is due of a tape.
struct Due {
    text: String,
    orders: u64,
    refused: u64,
    /// Whether a bad field ends it.
    stopped: bool,
}

/// The program: in the folder that FELAVUTI_BIN names, else in the one where `rt ci` leaves it.
pub fn program() -> Result<PathBuf, String> {
    let usual = concat!(env!("CARGO_MANIFEST_DIR"), "/../crates/felavuti/out");
    let path = std::env::var_os("FELAVUTI_BIN").map_or(usual.into(), PathBuf::from).join("felavuti");
    match path.is_file() {
        true => Ok(path),
        false => Err(format!(
            "there is no program {} (make it in crates/felavuti with: rt run; FELAVUTI_BIN may name its folder)",
            path.display()
        )),
    }
}

pub fn field(order: OrderType) -> Vec<u8> {
    let wish = |id: u64, side: Side, qty: u64| {
        let side = match side {
            Side::Bid => 0,
            Side::Ask => 1,
        };
        [&id.to_be_bytes()[..], &[side], &qty.to_be_bytes()].concat()
    };
    let (tag, value) = match order {
        OrderType::Market { id, side, qty } => (1, wish(id, side, qty)),
        OrderType::Limit { id, side, qty, price } => (2, [&wish(id, side, qty)[..], &price.to_be_bytes()].concat()),
        OrderType::Cancel { id } => (3, id.to_be_bytes().to_vec()),
    };
    [&[tag, 0, value.len() as u8], &value[..]].concat()
}

/// The order that the bytes begin with and how many they are, or the number that its field is refused with.
fn first_order(bytes: &[u8]) -> Result<(OrderType, usize), u64> {
    let [tag, high, low, rest @ ..] = bytes else { return Err(11) };
    let length = match tag {
        1 => 17,
        2 => 25,
        3 => 8,
        _ => return Err(8),
    };
    if usize::from(*high) * 256 + usize::from(*low) != length {
        return Err(9);
    }
    let value = rest.get(..length).ok_or(11_u64)?;
    let number = |at: usize| value[at..at + 8].iter().fold(0, |n, &byte| n << 8 | u64::from(byte));
    let id = number(0);
    if *tag == 3 {
        return Ok((OrderType::Cancel { id }, 3 + length));
    }
    let side = match value[8] {
        0 => Side::Bid,
        1 => Side::Ask,
        _ => return Err(10),
    };
    let qty = number(9);
    let order = match tag {
        1 => OrderType::Market { id, side, qty },
        _ => OrderType::Limit { id, side, qty, price: number(17) },
    };
    Ok((order, 3 + length))
}

/// Lobster's answers to a tape's orders. Where the rules refuse one, lobster never sees it.
fn due(tape: &[u8]) -> Due {
    let mut plain = Plain::new(Size::BASE);
    let mut book = lobster::OrderBook::default();
    let mut due = Due { text: String::new(), orders: 0, refused: 0, stopped: false };
    let mut at = 0;
    while at < tape.len() {
        let (order, length) = match first_order(&tape[at..]) {
            Ok(found) => found,
            Err(number) => {
                due.text += &format!("Refused {number} at {at}\n");
                due.stopped = true;
                return due;
            }
        };
        at += length;
        due.orders += 1;
        match plain.carry_out(Step::Order(order), ORDERS) {
            Ok(_) => due.text += &event(book.execute(order_of(order))),
            Err(refusal) => {
                due.text += &format!("Refused {}\n", refusal.number());
                due.refused += 1;
            }
        }
    }
    due
}

/// Lobster's answers to a tape whose orders all are accepted.
pub fn lobsters_text(tape: &[u8]) -> String {
    let mut book = lobster::OrderBook::default();
    let mut text = String::new();
    let mut rest = tape;
    while let Ok((order, length)) = first_order(rest) {
        text += &event(book.execute(order_of(order)));
        rest = &rest[length..];
    }
    text
}

/// A shape's orders, on a desk that never tracks; every other history is short.
fn drawn(shape: &Shape, random: Random, number: u64) -> Vec<OrderType> {
    let mut plain = Plain::new(Size::BASE);
    let mut draw = Draw::new(random);
    let mut orders = vec![];
    let length = if number.is_multiple_of(2) { shape.length } else { shape.length / 4 };
    while orders.len() < length {
        let step = draw.step(shape, &plain);
        if let Step::Order(order) = step {
            // a refused order goes onto the tape too
            let _ = plain.carry_out(step, ORDERS);
            orders.push(order);
        }
    }
    orders
}

/// Of four tapes two stay as they are, one is cut off anywhere, and one gets a wrong byte where a field says what it is.
fn damaged(mut tape: Vec<u8>, orders: &[OrderType], random: &mut Random) -> Vec<u8> {
    match random.below(4) {
        0 => tape.truncate(random.below(tape.len() as u64 + 1) as usize),
        1 => {
            let before = &orders[..random.below(orders.len() as u64) as usize];
            let start: usize = before.iter().map(|&order| field(order).len()).sum();
            if let Some(byte) = tape.get_mut(start + random.pick(&TELLING)) {
                *byte = random.pick(&WRONG);
            }
        }
        _ => {}
    }
    tape
}

/// What the program does with a tape on standard input.
fn piped(program: &Path, tape: &[u8]) -> std::io::Result<Output> {
    let pipe = Stdio::piped;
    let mut child = Command::new(program).stdin(pipe()).stdout(pipe()).stderr(pipe()).spawn()?;
    let mut input = child.stdin.take().expect("it was asked for");
    // the tape goes in while the text comes out: neither waits for the other. A program that stops early closes the pipe.
    std::thread::scope(|scope| {
        scope.spawn(move || input.write_all(tape));
        child.wait_with_output()
    })
}

/// What it does with the tape in a file.
fn from_file(program: &Path, tape: &[u8]) -> std::io::Result<Output> {
    let path = std::env::temp_dir().join(format!("felavuti-tape-{}", std::process::id()));
    std::fs::write(&path, tape)?;
    let output = Command::new(program).arg(&path).stdin(Stdio::null()).output();
    std::fs::remove_file(&path)?;
    output
}

/// The first line in which two texts differ, with its number.
fn first_difference(ours: &[u8], due: &str) -> String {
    let ours = String::from_utf8_lossy(ours);
    let at = ours.lines().zip(due.lines()).take_while(|(ours, due)| ours == due).count();
    let line = |text: &str| text.lines().nth(at).map_or("nothing".into(), |line| format!("'{line}'"));
    let ends = |text: &str| if text.ends_with('\n') || text.is_empty() { "" } else { ", whose last line has no end" };
    format!("line {}: felavuti says {}{}, due is {}", at + 1, line(&ours), ends(&ours), line(due))
}

/// One history. What differs, if anything does.
fn one(program: &Path, plan: &Plan, shape: &Shape, number: u64, totals: &mut Totals) -> Result<(), String> {
    let mut random = Random::of_history(plan.seed, shape.name, number);
    let orders = drawn(shape, random.clone(), number);
    let whole: Vec<u8> = orders.iter().flat_map(|&order| field(order)).collect();
    let tape = damaged(whole, &orders, &mut random);
    let due = due(&tape);
    let by_pipe = random.one_in(2);
    let output = if by_pipe { piped(program, &tape) } else { from_file(program, &tape) };
    let output = output.map_err(|error| format!("{}: {error}", program.display()))?;
    totals.histories += 1;
    totals.orders += due.orders;
    totals.refused += due.refused;
    totals.stopped += u64::from(due.stopped);
    totals.lines += due.text.lines().count();
    if output.stdout != due.text.as_bytes() {
        return Err(first_difference(&output.stdout, &due.text));
    }
    match output.status.success() && output.stderr.is_empty() {
        true => Ok(()),
        false => Err(format!("{}, and on standard error: {}", output.status, String::from_utf8_lossy(&output.stderr))),
    }
}

fn run_shape(program: &Path, plan: &Plan, shape: &Shape, share: u64, totals: &mut Totals) -> bool {
    let goal = totals.orders + share;
    let mut number = plan.history.unwrap_or(0);
    while totals.orders < goal {
        if let Err(what) = one(program, plan, shape, number, totals) {
            println!("A DIFFERENCE: shape {}, seed {}, history {number}\n  {what}", shape.name, plan.seed);
            println!("  again: tapes --shape {} --seed {} --history {number}", shape.name, plan.seed);
            return false;
        }
        if plan.history.is_some() {
            break;
        }
        number += 1;
    }
    true
}

/// A number with a comma between thousands.
fn grouped(n: u64) -> String {
    match n {
        0..1_000 => n.to_string(),
        _ => format!("{},{:03}", grouped(n / 1_000), n % 1_000),
    }
}

/// Runs the histories of a plan through the program, shape by shape, until one differs. `true` where none does.
pub fn run(plan: &Plan) -> Result<bool, String> {
    let program = program()?;
    let share = plan.orders.div_ceil(plan.shapes.len() as u64);
    let mut totals = Totals::default();
    let same = plan.shapes.iter().all(|shape| run_shape(&program, plan, shape, share, &mut totals));
    println!(
        "tapes: {} histories, {} orders through felavuti, {} of them refused by the desk, {} tapes ended by a bad field, {} lines, {}",
        totals.histories,
        grouped(totals.orders),
        grouped(totals.refused),
        totals.stopped,
        grouped(totals.lines as u64),
        if same { "0 differences" } else { "A DIFFERENCE" }
    );
    Ok(same)
}
