//! Random histories: every shape, many seeds, all answers compared, and the first difference told in full.

use crate::judge::{Desks, Difference, Verdict};
use crate::random::Random;
use crate::shapes::{Draw, Shape, SHAPES};
use crate::step::{listed, Step};
use felavuti::{OrderEvent, OrderType, Side};
use std::panic::{catch_unwind, AssertUnwindSafe};
use std::sync::atomic::{AtomicBool, AtomicUsize, Ordering};
use std::sync::Mutex;
use std::time::{Duration, Instant};

/// A history ends where so many draws in a row are refused.
const PATIENCE: usize = 64;
/// Depth is compared after every so many steps, the search after every so many.
const DEPTH_EVERY: u64 = 50;
const SEARCH_EVERY: u64 = 5;
/// A replay looks for the ids of so many steps before.
const LATEST: usize = 6;
/// How long a failing history is shortened.
const SHORTENING: Duration = Duration::from_secs(10);

pub struct Plan {
    pub seed: u64,
    /// How many steps to compare, over all shapes.
    pub orders: u64,
    pub shapes: Vec<&'static Shape>,
    /// One history alone, by its number.
    pub history: Option<u64>,
    pub threads: usize,
}

#[derive(Default, Clone)]
struct Totals {
    histories: u64,
    steps: u64,
    markets: u64,
    limits: u64,
    cancels: u64,
    switches: u64,
    fills: u64,
    /// The most fills of one order, the most orders at rest, the most prices of a side.
    most_fills: usize,
    most_resting: usize,
    most_prices: usize,
    /// Cancels that took an order away; orders that hid a namesake.
    removed: u64,
    hid: u64,
    depths: u64,
    searches: u64,
    /// Refused with 3, 4, 5, and depth with 7.
    refused: [u64; 8],
}

impl Totals {
    fn add(&mut self, t: &Totals) {
        self.histories += t.histories;
        self.steps += t.steps;
        self.markets += t.markets;
        self.limits += t.limits;
        self.cancels += t.cancels;
        self.switches += t.switches;
        self.fills += t.fills;
        self.most_fills = self.most_fills.max(t.most_fills);
        self.most_resting = self.most_resting.max(t.most_resting);
        self.most_prices = self.most_prices.max(t.most_prices);
        self.removed += t.removed;
        self.hid += t.hid;
        self.depths += t.depths;
        self.searches += t.searches;
        for (mine, theirs) in self.refused.iter_mut().zip(t.refused) {
            *mine += theirs;
        }
    }

    fn line(&self, name: &str) -> String {
        let kinds = format!("{:>10} {:>9} {:>9} {:>8}", self.limits, self.markets, self.cancels, self.switches);
        let came = format!("{:>10} {:>8} {:>8}", self.fills, self.removed, self.hid);
        let asked = format!("{:>8} {:>9}", self.depths, self.searches);
        let [_, _, _, sums, full, crowded, _, levels] = self.refused;
        let refused = format!("{sums:>8} {full:>8} {crowded:>8} {levels:>6}");
        let most = format!("{:>5} {:>5} {:>4}", self.most_fills, self.most_resting, self.most_prices);
        format!("{name:15} {:>6} {:>10} {kinds} {came} {asked} {refused} {most}", self.histories, self.steps)
    }
}

/// `removed`: cancels that took an order away. `hid`: orders that hid a namesake. The last three: the most fills of an order, orders
/// at rest, prices of a side.
const HEADING: &str = "shape          histor.      steps     limits   markets   cancels switches      fills  removed      hid   depths  searches refused3        4        5      7 fills  rest price";

/// One history: its desks, what was drawn, and the steps that were accepted or refused so far.
struct History {
    desks: Desks,
    draw: Draw,
    steps: Vec<Step>,
    totals: Totals,
}

/// A difference, and where it is.
struct Failure {
    shape: &'static str,
    number: u64,
    steps: Vec<Step>,
    what: Difference,
}

impl History {
    fn new(plan: &Plan, shape: &Shape, number: u64) -> History {
        let random = Random::of_history(plan.seed, shape.name, number);
        History {
            desks: Desks::new(),
            draw: Draw::new(random),
            steps: vec![],
            totals: Totals { histories: 1, ..Totals::default() },
        }
    }

    fn run(&mut self, shape: &Shape, steps: u64) -> Result<(), Difference> {
        self.one(Step::Track(shape.tracking))?;
        let mut refused = 0;
        while self.totals.steps < steps && refused < PATIENCE {
            let step = self.draw.step(shape, &self.desks.plain);
            refused = if self.one(step)? { 0 } else { refused + 1 };
        }
        self.depth()
    }

    /// Whether the step was accepted.
    fn one(&mut self, step: Step) -> Result<bool, Difference> {
        self.steps.push(step);
        let hides = self.hides(step);
        let before = self.desks.plain.resting();
        match self.desks.step(step)? {
            Verdict::Refused(refusal) => {
                self.totals.refused[refusal.number() as usize % 8] += 1;
                return Ok(false);
            }
            Verdict::Accepted => self.count(step, before, hides),
        }
        if self.totals.steps.is_multiple_of(SEARCH_EVERY) {
            self.search(step)?;
        }
        if self.totals.steps.is_multiple_of(DEPTH_EVERY) {
            self.depth()?;
        }
        Ok(true)
    }

    /// Whether the order finds a namesake at rest that it would hide.
    fn hides(&self, step: Step) -> bool {
        matches!(step, Step::Order(OrderType::Limit { id, .. }) if self.desks.plain.find(id).is_some())
    }

    fn count(&mut self, step: Step, before: usize, hides: bool) {
        let plain = &self.desks.plain;
        let t = &mut self.totals;
        t.steps += 1;
        match step {
            Step::Track(_) => t.switches += 1,
            Step::Order(OrderType::Market { .. }) => t.markets += 1,
            Step::Order(OrderType::Limit { .. }) => t.limits += 1,
            Step::Order(OrderType::Cancel { .. }) => {
                t.cancels += 1;
                t.removed += u64::from(plain.resting() < before);
            }
        }
        match &self.desks.event {
            Some(OrderEvent::Filled { fills, .. } | OrderEvent::PartiallyFilled { fills, .. }) => {
                t.fills += fills.len() as u64;
                t.most_fills = t.most_fills.max(fills.len());
            }
            Some(OrderEvent::Placed { .. }) => t.hid += u64::from(hides && plain.resting() > before),
            _ => {}
        }
        t.most_resting = t.most_resting.max(plain.resting());
    }

    fn search(&mut self, step: Step) -> Result<(), Difference> {
        let id = step.id().unwrap_or_else(|| self.draw.random.below(64));
        self.totals.searches += 1;
        self.desks.search(id)
    }

    fn depth(&mut self) -> Result<(), Difference> {
        self.totals.depths += 1;
        let plain = &self.desks.plain;
        self.totals.most_prices = self.totals.most_prices.max(plain.prices(Side::Bid)).max(plain.prices(Side::Ask));
        if let Verdict::Refused(refusal) = self.desks.depth(self.draw.random.any())? {
            self.totals.refused[refusal.number() as usize % 8] += 1;
        }
        Ok(())
    }
}

/// A panic is a difference too.
fn caught<T>(f: impl FnOnce() -> Result<T, Difference>) -> Result<T, Difference> {
    catch_unwind(AssertUnwindSafe(f)).unwrap_or_else(|panic| {
        let text = panic.downcast_ref::<String>().cloned().or(panic.downcast_ref::<&str>().map(ToString::to_string));
        Err(format!("a panic: {}", text.unwrap_or_default()))
    })
}

/// Runs one shape's histories until its share of steps is reached.
fn run_shape(plan: &Plan, shape: &'static Shape, share: u64, stop: &AtomicBool) -> Result<Totals, Box<Failure>> {
    let mut totals = Totals::default();
    let mut number = plan.history.unwrap_or(0);
    while totals.steps < share && !stop.load(Ordering::Relaxed) {
        let mut history = History::new(plan, shape, number);
        let outcome = caught(|| history.run(shape, (shape.length as u64).min(share.max(100))));
        totals.add(&history.totals);
        if let Err(what) = outcome {
            return Err(Box::new(Failure { shape: shape.name, number, steps: history.steps, what }));
        }
        if plan.history.is_some() {
            break;
        }
        number += 1;
    }
    Ok(totals)
}

/// Runs the shapes on so many threads, one shape at a time on each. The totals, and the first failure that was met.
fn run_shapes(plan: &Plan, share: u64) -> (Totals, Option<Box<Failure>>) {
    let (next, stop) = (AtomicUsize::new(0), AtomicBool::new(false));
    let all = Mutex::new((Totals::default(), None));
    let work = || {
        while let Some(shape) = plan.shapes.get(next.fetch_add(1, Ordering::Relaxed)) {
            let outcome = run_shape(plan, shape, share, &stop);
            let mut all = all.lock().expect("no thread ends while it holds this");
            match outcome {
                Ok(totals) => {
                    println!("{}", totals.line(shape.name));
                    all.0.add(&totals);
                }
                Err(found) => {
                    stop.store(true, Ordering::Relaxed);
                    all.1.get_or_insert(found);
                }
            }
        }
    };
    std::thread::scope(|scope| (0..plan.threads.max(1)).for_each(|_| drop(scope.spawn(work))));
    all.into_inner().expect("no thread ended while it held this")
}

/// Runs all shapes of a plan. `true` where nothing differs.
pub fn run(plan: &Plan) -> bool {
    let share = plan.orders.div_ceil(plan.shapes.len() as u64);
    let start = Instant::now();
    println!("histories: seed {}, {} shapes, {share} steps each", plan.seed, plan.shapes.len());
    println!("{HEADING}");
    let hook = std::panic::take_hook();
    std::panic::set_hook(Box::new(|_| {}));
    let (all, failure) = run_shapes(plan, share);
    if let Some(found) = &failure {
        tell(plan, found);
    }
    std::panic::set_hook(hook);
    println!("{}", all.line("all"));
    println!(
        "histories: {} steps of {} histories compared in {:.1} s, {} depths, {} searches, {} refusals as due; {}",
        all.steps,
        all.histories,
        start.elapsed().as_secs_f64(),
        all.depths,
        all.searches,
        all.refused.iter().sum::<u64>(),
        if failure.is_none() { "no difference" } else { "A DIFFERENCE" }
    );
    failure.is_none()
}

/// Replays steps on fresh desks and compares everything after each, the latest ids' searches included. The first step that shows a
/// difference, and what it is.
fn replay(steps: &[Step]) -> Option<(usize, Difference)> {
    let mut desks = Desks::new();
    for (at, &step) in steps.iter().enumerate() {
        let outcome = caught(|| {
            desks.step(step)?;
            desks.depth(0)?;
            desks.depth(1)?;
            steps[at.saturating_sub(LATEST)..=at].iter().filter_map(Step::id).try_for_each(|id| desks.search(id))
        });
        if let Err(what) = outcome {
            return Some((at, what));
        }
    }
    None
}

/// A shorter list that still shows a difference: pieces are left out as long as one remains.
fn shortened(steps: &[Step]) -> Option<(Vec<Step>, Difference)> {
    let start = Instant::now();
    let (at, mut what) = replay(steps)?;
    let mut steps = steps[..=at].to_vec();
    let mut piece = steps.len() / 2;
    while piece > 0 {
        let mut from = 0;
        while from < steps.len() && start.elapsed() < SHORTENING {
            let mut fewer = steps.clone();
            fewer.drain(from..(from + piece).min(steps.len()));
            match replay(&fewer) {
                Some((at, other)) => {
                    fewer.truncate(at + 1);
                    (steps, what) = (fewer, other);
                }
                None => from += piece,
            }
        }
        piece /= 2;
    }
    Some((steps, what))
}

fn tell(plan: &Plan, failure: &Failure) {
    let Failure { shape, number, steps, what } = failure;
    println!("A DIFFERENCE: shape {shape}, seed {}, history {number}, step {}", plan.seed, steps.len());
    println!("  {what}");
    println!("  again: histories --shape {shape} --seed {} --history {number}", plan.seed);
    match shortened(steps) {
        Some((few, what)) => println!("  shortened to {} steps, on a fresh book:\n{}  {what}", few.len(), listed(&few)),
        None => println!("  it doesn't show when the steps are replayed on fresh desks"),
    }
    println!("  all {} steps up to it:\n{}", steps.len(), listed(steps));
}

/// All shapes, or the one that is named.
pub fn chosen(name: Option<&str>) -> Option<Vec<&'static Shape>> {
    match name {
        None => Some(SHAPES.iter().collect()),
        Some(name) => crate::shapes::named(name).map(|shape| vec![shape]),
    }
}
