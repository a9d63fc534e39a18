//! Speed: ours and lobster on the same orders in one run, the cost of single calls, and how cost grows. Writes bench.md (tables)
//! and growth.csv (for the plots).

use crate::judge::order_of;
use crate::plain::Plain;
use crate::random::Random;
use crate::shapes::{named, Draw};
use crate::step::{limit, market, Step};
use crate::tapes;
use felavuti::{FillRow, OrderBook, OrderType, Side, Size, ORDERS, PLACES, PRICES};
use std::fmt::Write as _;
use std::hint::black_box;
use std::io::Write as _;
use std::path::Path;
use std::process::{Command, Stdio};
use std::time::Instant;

const SEED: u64 = 1;
const SHAPES: [&str; 8] =
    ["usual", "few-prices", "many-prices", "one-price", "sweeps", "market-heavy", "cancel-heavy", "full-book"];
/// Calls of one kind in a row, so that the clock's own cost doesn't count.
pub const BATCH: usize = 16;

pub struct Plan {
    pub orders: usize,
    pub repetitions: usize,
}

/// Uses a value, so that the work behind it is done.
fn hold<T>(value: T) {
    let _ = black_box(value);
}

pub fn median(mut times: Vec<f64>) -> f64 {
    times.sort_by(f64::total_cmp);
    times[times.len() / 2]
}

/// This thread's processor time in nanoseconds: other programs on the computer don't count.
#[cfg(target_os = "linux")]
fn processor_time() -> f64 {
    const OF_THE_THREAD: i32 = 3;
    extern "C" {
        fn clock_gettime(clock: i32, time: *mut [i64; 2]) -> i32;
    }
    let mut time = [0; 2];
    // Sound: the C library writes seconds and nanoseconds to two numbers of 64 bits.
    unsafe { clock_gettime(OF_THE_THREAD, &mut time) };
    time[0] as f64 * 1e9 + time[1] as f64
}

#[cfg(not(target_os = "linux"))]
fn processor_time() -> f64 {
    static START: std::sync::OnceLock<Instant> = std::sync::OnceLock::new();
    START.get_or_init(Instant::now).elapsed().as_secs_f64() * 1e9
}

/// Processor time of each of many things done by f.
pub fn worked(n: usize, f: impl FnOnce()) -> f64 {
    let start = processor_time();
    f();
    (processor_time() - start) / n as f64
}

/// Nanoseconds by the clock for each of n things done by f.
fn nanoseconds(n: usize, f: impl FnOnce()) -> f64 {
    let start = Instant::now();
    f();
    start.elapsed().as_secs_f64() * 1e9 / n as f64
}

/// So many accepted orders of a shape, from a fixed seed. Tracking is switched once, at the start.
fn orders(name: &str, count: usize) -> (bool, Vec<OrderType>) {
    let shape = named(name).expect("a shape of the list");
    let mut draw = Draw::new(Random::of_history(SEED, name, 0));
    let mut plain = Plain::new(Size::BASE);
    plain.tracking = shape.tracking;
    let mut orders = vec![];
    while orders.len() < count {
        if let step @ Step::Order(order) = draw.step(shape, &plain) {
            if plain.carry_out(step, ORDERS).is_ok() {
                orders.push(order);
            }
        }
    }
    (shape.tracking, orders)
}

/// One shape: nanoseconds an order for ours, ours with lent rows, and lobster, in turn, over and over.
fn shape(plan: &Plan, name: &str) -> String {
    let (tracking, ours) = orders(name, plan.orders);
    let theirs: Vec<lobster::OrderType> = ours.iter().map(|&order| order_of(order)).collect();
    let mut times = [vec![], vec![], vec![]];
    let mut ratios = [vec![], vec![]];
    for _ in 0..plan.repetitions {
        let mut book = OrderBook::new(tracking);
        let plain = worked(ours.len(), || ours.iter().for_each(|&order| hold(book.execute(order))));
        let mut book = OrderBook::new(tracking);
        let mut rows = vec![FillRow::default(); ORDERS];
        let lent = worked(ours.len(), || ours.iter().for_each(|&order| hold(book.execute_into(order, &mut rows))));
        let mut book = lobster::OrderBook::default();
        book.track_stats(tracking);
        let lobster = worked(ours.len(), || theirs.iter().for_each(|&order| hold(book.execute(order))));
        for (list, time) in times.iter_mut().zip([plain, lent, lobster]) {
            list.push(time);
        }
        ratios[0].push(plain / lobster);
        ratios[1].push(lent / lobster);
    }
    let spread = |list: &[f64]| (list.iter().copied().fold(f64::MAX, f64::min), list.iter().copied().fold(0.0, f64::max));
    let (least, most) = spread(&ratios[0]);
    let [plain, lent, lobster] = times.map(median);
    let [ratio, lent_ratio] = ratios.map(median);
    println!("  {name:14} ours {plain:8.0} ns, lent {lent:8.0} ns, lobster {lobster:8.0} ns an order, ratio {ratio:.2}");
    format!("| {name} | {plain:.0} | {lent:.0} | {lobster:.0} | **{ratio:.2}** | {least:.2} to {most:.2} | {lent_ratio:.2} |\n")
}

/// Processor time in nanoseconds of the programs that were run and have ended.
#[cfg(target_os = "linux")]
fn programs_time() -> f64 {
    const OF_ENDED_CHILDREN: i32 = -1;
    extern "C" {
        fn getrusage(who: i32, usage: *mut [i64; 18]) -> i32;
    }
    let mut usage = [0; 18];
    // Sound: the C library writes two times, each of seconds and microseconds, and fourteen numbers, all of 64 bits.
    unsafe { getrusage(OF_ENDED_CHILDREN, &mut usage) };
    (usage[0] + usage[2]) as f64 * 1e9 + (usage[1] + usage[3]) as f64 * 1e3
}

#[cfg(not(target_os = "linux"))]
fn programs_time() -> f64 {
    processor_time()
}

/// One shape as a tape in a file: the program felavuti; its reading alone, by the library; and lobster, which reads the same bytes
/// and makes the same text.
fn tape(plan: &Plan, name: &str, program: &Path, path: &Path) -> Result<String, String> {
    let said = |error: std::io::Error| format!("{}: {error}", path.display());
    let (_, ours) = orders(name, plan.orders);
    let bytes: Vec<u8> = ours.iter().flat_map(|&order| tapes::field(order)).collect();
    std::fs::write(path, &bytes).map_err(said)?;
    let mut times = [vec![], vec![], vec![]];
    let mut ratios = vec![];
    for _ in 0..plan.repetitions {
        let start = programs_time();
        let ended = Command::new(program).arg(path).stdout(Stdio::null()).status().map_err(said)?;
        let felavuti = (programs_time() - start) / ours.len() as f64;
        if !ended.success() {
            return Err(format!("felavuti on {}: {ended}", path.display()));
        }
        let reading = worked(ours.len(), || hold(felavuti::tape::Orders::new(&bytes).filter(Result::is_ok).count()));
        let mut out = std::fs::File::create("/dev/null").map_err(said)?;
        let mut result = Ok(());
        let lobster = worked(ours.len(), || {
            let bytes = std::fs::read(path).unwrap_or_default();
            result = out.write_all(tapes::lobsters_text(&bytes).as_bytes());
        });
        result.map_err(said)?;
        for (list, time) in times.iter_mut().zip([felavuti, reading, lobster]) {
            list.push(time);
        }
        ratios.push(felavuti / lobster);
    }
    let (least, most) = (ratios.iter().copied().fold(f64::MAX, f64::min), ratios.iter().copied().fold(0.0, f64::max));
    let [felavuti, reading, lobster] = times.map(median);
    let (ratio, rate) = (median(ratios), 1e3 / felavuti);
    println!("  {name:14} felavuti {felavuti:6.0} ns, its reading {reading:4.0} ns, lobster {lobster:6.0} ns an order, ratio {ratio:.2}");
    Ok(format!(
        "| {name} | {felavuti:.0} | {rate:.1} | {reading:.0} | {lobster:.0} | **{ratio:.2}** | {least:.2} to {most:.2} |\n"
    ))
}

/// The program felavuti on tapes, next to lobster on the same bytes.
pub fn of_tapes(plan: &Plan) -> Result<String, String> {
    let program = tapes::program()?;
    let path = std::env::temp_dir().join(format!("felavuti-bench-{}", std::process::id()));
    let rows: Result<String, String> = SHAPES.iter().map(|name| tape(plan, name, &program, &path)).collect();
    let _ = std::fs::remove_file(&path);
    Ok(format!(
        "{} orders a shape, seed {SEED}, median of {} repetitions\n\n| shape | felavuti | million orders a second | its reading | lobster | ratio | from, to |\n\
         |---|---|---|---|---|---|---|\n{}",
        plan.orders, plan.repetitions, rows?
    ))
}

/// A desk that is timed.
pub trait Timed {
    fn carry_out(&mut self, step: Step);
    fn min_ask(&self) -> Option<u64>;
    fn depth(&self) -> usize;
    fn get(&self, _id: u64) -> Option<u64> {
        None
    }
}

impl Timed for OrderBook {
    fn carry_out(&mut self, step: Step) {
        match step {
            Step::Order(order) => hold(self.execute(order).expect("the benchmark draws no refused order")),
            Step::Track(on) => self.track_stats(on),
        }
    }
    fn min_ask(&self) -> Option<u64> {
        OrderBook::min_ask(self)
    }
    fn depth(&self) -> usize {
        OrderBook::depth(self, 1).map_or(0, |depth| depth.asks.len())
    }
    fn get(&self, id: u64) -> Option<u64> {
        OrderBook::get(self, id).order.map(|order| order.qty)
    }
}

impl Timed for lobster::OrderBook {
    fn carry_out(&mut self, step: Step) {
        match step {
            Step::Order(order) => hold(self.execute(order_of(order))),
            Step::Track(on) => self.track_stats(on),
        }
    }
    fn min_ask(&self) -> Option<u64> {
        lobster::OrderBook::min_ask(self)
    }
    fn depth(&self) -> usize {
        lobster::OrderBook::depth(self, 1).asks.len()
    }
}

/// A book with so many orders over so many prices a side; ids count from 1, quantities are 10.
pub fn filled<D: Timed>(mut desk: D, resting: u64, prices: u64) -> D {
    for id in 1..=resting {
        let place = (id - 1) / 2 % prices;
        match id % 2 {
            0 => desk.carry_out(limit(id, Side::Bid, 10, 10_000 - place)),
            _ => desk.carry_out(limit(id, Side::Ask, 10, 20_000 + place)),
        }
    }
    desk
}

/// Nanoseconds for a limit order that rests at a price, and for its cancel.
fn rest_and_cancel<D: Timed>(desk: &mut D, price: u64, repetitions: usize) -> [f64; 2] {
    let ids = 1_000_000..1_000_000 + BATCH as u64;
    let (mut rests, mut cancels) = (vec![], vec![]);
    for _ in 0..repetitions {
        rests.push(nanoseconds(BATCH, || ids.clone().for_each(|id| desk.carry_out(limit(id, Side::Ask, 10, price)))));
        cancels.push(nanoseconds(BATCH, || ids.clone().for_each(|id| desk.carry_out(crate::step::cancel(id)))));
    }
    [median(rests), median(cancels)]
}

/// Nanoseconds for a market order that uses up one maker, at a price better than all others.
fn take_one<D: Timed>(desk: &mut D, repetitions: usize) -> f64 {
    let ids = 1_000_000..1_000_000 + BATCH as u64;
    let mut times = vec![];
    for _ in 0..repetitions {
        ids.clone().for_each(|id| desk.carry_out(limit(id, Side::Ask, 10, 15_000)));
        times.push(nanoseconds(BATCH, || ids.clone().for_each(|id| desk.carry_out(market(id, Side::Bid, 10)))));
    }
    median(times)
}

/// Nanoseconds for a question.
fn question(repetitions: usize, mut f: impl FnMut()) -> f64 {
    median((0..repetitions).map(|_| nanoseconds(BATCH, || (0..BATCH).for_each(|_| f()))).collect())
}

/// What single calls cost on a book with so many resting orders: name, nanoseconds.
fn calls<D: Timed>(desk: D, resting: u64, n: usize) -> Vec<(&'static str, f64)> {
    let mut desk = filled(desk, resting, 64);
    let [rest, cancelled] = rest_and_cancel(&mut desk, 20_005, n);
    let taken = take_one(&mut desk, n);
    vec![
        ("lowest ask", question(n, || hold(desk.min_ask()))),
        ("search for an id", question(n, || hold(desk.get(1)))),
        ("depth", question(n, || hold(desk.depth()))),
        ("market order of 0", question(n, || desk.carry_out(market(5, Side::Bid, 0)))),
        ("market order, one maker used up", taken),
        ("limit order that rests", rest),
        ("cancel of it", cancelled),
        ("cancel of nothing", question(n, || desk.carry_out(crate::step::cancel(999)))),
    ]
}

fn single_calls(repetitions: usize) -> String {
    let full = (ORDERS - BATCH) as u64;
    let mut out = String::from(
        "| call | resting orders | ours, ns | share of the check | lobster, ns | ratio |\n|---|---|---|---|---|---|\n",
    );
    for resting in [0, full / 2, full] {
        let ours = calls(OrderBook::default(), resting, repetitions);
        let theirs = calls(lobster::OrderBook::default(), resting, repetitions);
        let check = ours[0].1;
        for ((name, time), (_, other)) in ours.iter().zip(&theirs) {
            let share = (100.0 * check / time).min(100.0);
            let (other, ratio) = match *name {
                "search for an id" => ("-".into(), "-".into()),
                _ => (format!("{other:.0}"), format!("{:.1}", time / other.max(0.1))),
            };
            writeln!(out, "| {name} | {resting} | {time:.0} | {share:.0} % | {other} | {ratio} |")
                .expect("a string takes any text");
        }
        println!("  single calls with {resting} resting: the check takes about {check:.0} ns");
    }
    out
}

/// A book through which many orders have gone: any ids, records, free places and entries of the search in any order.
pub fn worn(resting: usize, seed: u64) -> OrderBook {
    let mut random = Random::new(seed);
    let mut book = OrderBook::default();
    let mut ids: Vec<u64> = vec![];
    for n in 0..5 * ORDERS {
        if n >= ORDERS {
            let gone = ids.swap_remove(random.below(ids.len() as u64) as usize);
            book.carry_out(crate::step::cancel(gone));
        }
        let id = random.any();
        let price = random.below(64);
        match random.one_in(2) {
            true => book.carry_out(limit(id, Side::Bid, 10, 10_000 - price)),
            false => book.carry_out(limit(id, Side::Ask, 10, 20_000 + price)),
        }
        ids.push(id);
    }
    ids.drain(resting..).for_each(|id| book.carry_out(crate::step::cancel(id)));
    book
}

/// A full book in which all ids have one home: the search for the last looks at every entry.
pub fn one_home(seed: u64) -> OrderBook {
    let mut book = OrderBook::default();
    (0..ORDERS as u64).for_each(|n| book.carry_out(limit(seed + PLACES as u64 * n, Side::Ask, 10, 20_000 + n % 64)));
    book
}

/// What the check of a whole book costs: of one book again and again, and of several in turn.
pub fn checks(repetitions: usize) -> String {
    let mut out =
        String::from("| book | resting orders | one book again and again, ns | sixteen books in turn, ns |\n|---|---|---|---|\n");
    let mut row = |name: &str, resting: usize, repetitions: usize, make: &dyn Fn(u64) -> OrderBook| {
        let books: Vec<OrderBook> = (1..=BATCH as u64).map(make).collect();
        let check = |book: &OrderBook| assert_eq!(black_box(book.stored()).check(Size::BASE), 0, "the book is whole");
        let time = |f: &dyn Fn()| median((0..repetitions).map(|_| worked(BATCH, f)).collect());
        let one = time(&|| (0..BATCH).for_each(|_| check(&books[0])));
        let several = time(&|| books.iter().for_each(check));
        println!("  the check, {name}, {resting} resting: {one:.0} ns one book, {several:.0} ns sixteen in turn");
        writeln!(out, "| {name} | {resting} | {one:.0} | {several:.0} |").expect("a string takes any text");
    };
    for resting in [0, 504, ORDERS] {
        row("orders as they came, ids 1, 2, 3 ..", resting, repetitions, &|_| filled(OrderBook::default(), resting as u64, 64));
    }
    for resting in [0, 504, ORDERS] {
        row("any ids, after 4,096 cancels", resting, repetitions, &|seed| worn(resting, seed));
    }
    row("all ids of one home", ORDERS, repetitions / 10 + 1, &one_home);
    out
}

/// What a quote costs beside the check that comes before it: 256 resting orders at few and at many prices.
pub fn quotes(repetitions: usize) -> String {
    let mut out = String::from(
        "| prices a side | the check, ns | lowest ask | highest bid | spread | lobster's spread, ns |\n|---|---|---|---|---|---|\n",
    );
    for prices in [1, 16, PRICES as u64] {
        let book = filled(OrderBook::default(), 2 * PRICES as u64, prices);
        let theirs = filled(lobster::OrderBook::default(), 2 * PRICES as u64, prices);
        let (stored, mut answer) = (book.stored(), [0; 4]);
        let mut times = [vec![], vec![], vec![], vec![], vec![]];
        for _ in 0..repetitions {
            let time = |f: &mut dyn FnMut()| worked(BATCH, || (0..BATCH).for_each(|_| f()));
            let check = time(&mut || hold(black_box(stored).check(Size::BASE)));
            let ask = time(&mut || hold(black_box(stored).min_ask(&mut answer)));
            let bid = time(&mut || hold(black_box(stored).max_bid(&mut answer)));
            let spread = time(&mut || hold(black_box(stored).spread(&mut answer)));
            let other = time(&mut || hold(black_box(&theirs).spread()));
            for (list, time) in times.iter_mut().zip([check, ask - check, bid - check, spread - check, other]) {
                list.push(time);
            }
        }
        let [check, ask, bid, spread, other] = times.map(median);
        println!("  quotes with {prices} prices a side: {check:.0} ns the check; beside it {ask:+.0} ns lowest ask, {bid:+.0} highest bid, {spread:+.0} spread");
        writeln!(out, "| {prices} | {check:.0} | {ask:+.0} | {bid:+.0} | {spread:+.0} | {other:.0} |")
            .expect("a string takes any text");
    }
    out
}

/// Gives a desk the steps that make a book.
type Build<'a> = &'a dyn Fn(&mut dyn FnMut(Step));

/// How cost grows. Each row: what grows, how much there is of it, the call, ours and lobster in nanoseconds.
struct Growth {
    repetitions: usize,
    rows: String,
}

impl Growth {
    fn row(&mut self, grows: &str, size: u64, call: &str, ours: f64, lobster: f64) {
        writeln!(self.rows, "{grows},{size},{call},{ours:.1},{lobster:.1}").expect("a string takes any text");
    }

    fn both(build: Build) -> (OrderBook, lobster::OrderBook) {
        let (mut ours, mut theirs) = (OrderBook::default(), lobster::OrderBook::default());
        build(&mut |step| ours.carry_out(step));
        build(&mut |step| theirs.carry_out(step));
        (ours, theirs)
    }

    /// An order that rests at a price, its cancel, and one that takes a maker, on the book that was built.
    fn calls(&mut self, grows: &str, size: u64, price: u64, build: Build) {
        let (mut ours, mut theirs) = Growth::both(build);
        let [rest, cancel] = rest_and_cancel(&mut ours, price, self.repetitions);
        let [their_rest, their_cancel] = rest_and_cancel(&mut theirs, price, self.repetitions);
        let (take, their_take) = (take_one(&mut ours, self.repetitions), take_one(&mut theirs, self.repetitions));
        self.row(grows, size, "rest", rest, their_rest);
        self.row(grows, size, "cancel", cancel, their_cancel);
        self.row(grows, size, "take", take, their_take);
    }

    /// A market order on a book in which so many prices were used and are empty again.
    fn emptied(&mut self, size: u64) {
        let (mut ours, mut theirs) = Growth::both(&|give| {
            for first in (0..size).step_by(100) {
                let last = size.min(first + 100);
                (first..last).for_each(|price| give(limit(1, Side::Ask, 1, 30_000 + price)));
                give(market(2, Side::Bid, last - first));
            }
        });
        let few = if size > 1_000 { (self.repetitions / 10).max(3) } else { self.repetitions };
        let time = question(few, || ours.carry_out(market(5, Side::Bid, 1)));
        let their_time = question(few, || theirs.carry_out(market(5, Side::Bid, 1)));
        self.row("prices used before", size, "market order", time, their_time);
    }
}

fn growth(repetitions: usize) -> String {
    let mut growth = Growth { repetitions, rows: "grows,size,call,ours,lobster\n".into() };
    let sizes = [1, 2, 4, 8, 16, 32, 64, 128, 256, 512, 1_000];
    for size in sizes {
        growth
            .calls("orders at one price", size, 20_000, &|give| (1..=size).for_each(|id| give(limit(id, Side::Ask, 10, 20_000))));
    }
    for size in [1, 2, 4, 8, 16, 32, 64, PRICES as u64 - 1] {
        growth.calls("prices", size, 20_000, &|give| (1..=size).for_each(|id| give(limit(id, Side::Ask, 10, 20_000 + id))));
    }
    for size in sizes {
        let prices = (size / 8).clamp(1, PRICES as u64 / 2);
        growth.calls("resting orders", size, 20_001, &|give| {
            (0..size).for_each(|id| give(limit(id + 1, Side::Ask, 10, 20_001 + id % prices)));
        });
    }
    [1, 10, 100, 1_000, 10_000, 100_000].into_iter().for_each(|size| growth.emptied(size));
    growth.rows
}

/// What was measured, with what, on what.
fn setting() -> String {
    let about = std::fs::read_to_string("/proc/cpuinfo").unwrap_or_default();
    let computer = about
        .lines()
        .find_map(|line| line.strip_prefix("model name"))
        .map_or("unknown", |name| name.trim_start_matches([' ', '\t', ':']));
    format!(
        "Processor: {computer}. Ours: libffi.a as `rust/library` makes it, called through the safe wrapper. The wrapper and lobster: {}, opt-level 3, without \
         link-time optimisation; lobster's sums wrap, as in any release build. Buffers for fills are made once with the book and never cleared; each order of \
         ours checks the whole book first.\n\n",
        env!("RUSTC_VERSION")
    )
}

pub fn run(plan: &Plan, folder: &Path) -> Result<(), String> {
    std::fs::create_dir_all(folder).map_err(|error| format!("{}: {error}", folder.display()))?;
    println!(
        "speed: {} orders a shape, seed {SEED}, median of {} repetitions, ours and lobster in turn",
        plan.orders, plan.repetitions
    );
    let mut text = format!(
        "{}## {} orders a shape\n\nNanoseconds an order (processor time), median of {} repetitions on fresh books, ours and lobster in turn, seed {SEED}. `lent`: ours with \
         fills in lent rows instead of a new Vec an order. Ratio: ours / lobster, median (least to most).\n\n\
         | shape | ours | lent | lobster | ratio | from, to | lent / lobster |\n|---|---|---|---|---|---|---|\n",
        setting(),
        plan.orders,
        plan.repetitions
    );
    SHAPES.iter().for_each(|name| text += &shape(plan, name));
    let repetitions = 40 * plan.repetitions;
    write!(
        text,
        "\n## Single calls\n\nMedian of {repetitions} batches of {BATCH}; {} is as full as a batch of resting orders allows. The share of the check is the cost of \
         `lowest ask` (the check and one look) in the call's cost.\n\n{}",
        ORDERS - BATCH,
        single_calls(repetitions)
    )
    .expect("a string takes any text");
    write!(
        text,
        "\n## Is the book whole?\n\nThe check by itself, through `felavuti_check`: processor time, median of {repetitions} batches of {BATCH} (fewer where all ids have \
         one home).\n\n{}",
        checks(repetitions)
    )
    .expect("a string takes any text");
    write!(
        text,
        "\n## Quotes\n\nThe check, and what a quote costs beside it: processor time, median of {repetitions} batches of {BATCH} each, in turn; 256 resting orders.\n\n{}",
        quotes(repetitions)
    )
    .expect("a string takes any text");
    let growth = growth(repetitions);
    for (name, content) in [("bench.md", &text), ("growth.csv", &growth)] {
        let path = folder.join(name);
        std::fs::write(&path, content).map_err(|error| format!("{}: {error}", path.display()))?;
        println!("  written: {}", path.display());
    }
    crate::plot::run(folder)
}
