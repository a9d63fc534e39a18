//! Orders and questions as short lines, given to lobster (both builds) and to ours, with the answers as text. `compare try` and
//! the list of gaps use it.
//!
//! `limit ask 1 10 105`, `market bid 2 5`, `cancel 1`, `track on`, `depth 1`, `ask`, `bid`, `spread`, `volume`, `last`, `whole`
//! (the whole average), `get 1`.
//! Numbers may be written as `2^63`, `2^64-1`, `2^53+1`.

use felavuti::Side;
use std::panic::{catch_unwind, AssertUnwindSafe};

#[derive(Debug, Clone, PartialEq)]
pub enum Line {
    Market(u128, Side, u64),
    Limit(u128, Side, u64, u64),
    Cancel(u128),
    Track(bool),
    Depth(usize),
    Ask,
    Bid,
    Spread,
    Volume,
    Last,
    Whole,
    Get(u128),
}

/// The lines of a script; a semicolon or a new line ends each.
pub fn parsed(script: &str) -> Result<Vec<Line>, String> {
    script.split([';', '\n']).map(str::trim).filter(|line| !line.is_empty()).map(line).collect()
}

fn line(text: &str) -> Result<Line, String> {
    let words: Vec<&str> = text.split_whitespace().collect();
    Ok(match words[..] {
        ["market", s, id, qty] => Line::Market(number(id)?, side(s)?, small(qty)?),
        ["limit", s, id, qty, price] => Line::Limit(number(id)?, side(s)?, small(qty)?, small(price)?),
        ["cancel", id] => Line::Cancel(number(id)?),
        ["track", "on"] => Line::Track(true),
        ["track", "off"] => Line::Track(false),
        ["depth", levels] => Line::Depth(small(levels)? as usize),
        ["ask"] => Line::Ask,
        ["bid"] => Line::Bid,
        ["spread"] => Line::Spread,
        ["volume"] => Line::Volume,
        ["last"] => Line::Last,
        ["whole"] => Line::Whole,
        ["get", id] => Line::Get(number(id)?),
        _ => return Err(format!("not a line of a script: {text}")),
    })
}

fn side(word: &str) -> Result<Side, String> {
    match word {
        "bid" => Ok(Side::Bid),
        "ask" => Ok(Side::Ask),
        _ => Err(format!("neither bid nor ask: {word}")),
    }
}

fn small(word: &str) -> Result<u64, String> {
    number(word)?.try_into().map_err(|_| format!("not below 2^64: {word}"))
}

fn number(word: &str) -> Result<u128, String> {
    let no = || format!("not a number: {word}");
    let plain = |text: &str| text.replace(',', "").parse::<u128>().map_err(|_| no());
    let power = |text: &str| match text.split_once('^') {
        Some((base, exponent)) => plain(base)?.checked_pow(exponent.parse().map_err(|_| no())?).ok_or_else(no),
        None => plain(text),
    };
    match word.find(['+', '-']) {
        Some(at) if word[at..].starts_with('+') => power(&word[..at])?.checked_add(plain(&word[at + 1..])?).ok_or_else(no),
        Some(at) => power(&word[..at])?.checked_sub(plain(&word[at + 1..])?).ok_or_else(no),
        None => power(word),
    }
}

pub trait Desk {
    fn answer(&mut self, line: &Line) -> String;
}

/// The answers to a script, a panic included: the script goes on after it.
pub fn answers(desk: &mut dyn Desk, script: &[Line]) -> Vec<String> {
    let hook = std::panic::take_hook();
    std::panic::set_hook(Box::new(|_| {}));
    let answers = script
        .iter()
        .map(|line| {
            catch_unwind(AssertUnwindSafe(|| desk.answer(line))).unwrap_or_else(|panic| {
                let text = panic.downcast_ref::<String>().cloned().or(panic.downcast_ref::<&str>().map(ToString::to_string));
                format!("PANIC: {}", text.unwrap_or_default())
            })
        })
        .collect();
    std::panic::set_hook(hook);
    answers
}

fn or_dash(quote: Option<u64>) -> String {
    quote.map_or("-".into(), |price| price.to_string())
}

fn fill(maker: u128, qty: u64, price: u64, used_up: bool) -> String {
    format!("{qty} from {maker} at {price}, {}", if used_up { "whole" } else { "part" })
}

fn event(name: &str, id: u128, filled: u64, fills: &[String]) -> String {
    format!("{name} {id} {filled} ({})", fills.join("; "))
}

fn levels(asked: usize, asks: &[(u64, u64)], bids: &[(u64, u64)]) -> String {
    let list = |side: &[(u64, u64)]| side.iter().map(|(price, qty)| format!(" ({price}, {qty})")).collect::<String>();
    format!("depth {asked}: asks{}, bids{}", list(asks), list(bids))
}

/// The lines to which lobster and ours answer by calls of the same names.
macro_rules! said_alike {
    ($desk:expr, $line:expr) => {
        match $line {
            Line::Track(on) => {
                $desk.track_stats(on);
                format!("tracking {}", if on { "on" } else { "off" })
            }
            Line::Ask => format!("ask {}", or_dash($desk.min_ask())),
            Line::Bid => format!("bid {}", or_dash($desk.max_bid())),
            Line::Spread => format!("spread {}", or_dash($desk.spread())),
            Line::Volume => format!("volume {}", $desk.traded_volume()),
            Line::Last => $desk.last_trade().map_or("last -".into(), |t| {
                format!("last {}, average {:?}, {} at {}", t.total_qty, t.avg_price, t.last_qty, t.last_price)
            }),
            ref line => unreachable!("{line:?} is answered before"),
        }
    };
}

/// A desk that is a book of one of lobster's builds.
macro_rules! lobster_desk {
    ($module:ident, $lobster:ident) => {
        pub mod $module {
            use super::*;
            use $lobster::{BookLevel, FillMetadata, OrderBook, OrderEvent, OrderType};

            pub fn side_of(side: Side) -> $lobster::Side {
                match side {
                    Side::Bid => $lobster::Side::Bid,
                    Side::Ask => $lobster::Side::Ask,
                }
            }

            fn told(result: OrderEvent) -> String {
                let all = |fills: Vec<FillMetadata>| -> Vec<String> {
                    fills.iter().map(|f| fill(f.order_2, f.qty, f.price, f.total_fill)).collect()
                };
                match result {
                    OrderEvent::Unfilled { id } => format!("Unfilled {id}"),
                    OrderEvent::Placed { id } => format!("Placed {id}"),
                    OrderEvent::Canceled { id } => format!("Canceled {id}"),
                    OrderEvent::PartiallyFilled { id, filled_qty, fills } => {
                        event("PartiallyFilled", id, filled_qty, &all(fills))
                    }
                    OrderEvent::Filled { id, filled_qty, fills } => event("Filled", id, filled_qty, &all(fills)),
                }
            }

            impl Desk for OrderBook {
                fn answer(&mut self, line: &Line) -> String {
                    let pairs = |side: Vec<BookLevel>| side.iter().map(|l| (l.price, l.qty)).collect::<Vec<_>>();
                    match *line {
                        Line::Market(id, side, qty) => told(self.execute(OrderType::Market { id, side: side_of(side), qty })),
                        Line::Limit(id, side, qty, price) => {
                            told(self.execute(OrderType::Limit { id, side: side_of(side), qty, price }))
                        }
                        Line::Cancel(id) => told(self.execute(OrderType::Cancel { id })),
                        Line::Depth(asked) => {
                            let depth = self.depth(asked);
                            levels(depth.levels, &pairs(depth.asks), &pairs(depth.bids))
                        }
                        Line::Whole | Line::Get(_) => "(no such call)".into(),
                        _ => said_alike!(self, *line),
                    }
                }
            }
        }
    };
}

lobster_desk!(release, lobster);
lobster_desk!(debug, lobster_checked);

/// Ours. An id that needs more than 64 bits can't be written down at all; here that is said in words.
impl Desk for felavuti::OrderBook {
    fn answer(&mut self, line: &Line) -> String {
        let narrow = |id: u128| u64::try_from(id).map_err(|_| format!("(no such id: {id} needs more than 64 bits)"));
        match *line {
            Line::Market(id, side, qty) => {
                narrow(id).map_or_else(|no| no, |id| self.order(felavuti::OrderType::Market { id, side, qty }))
            }
            Line::Limit(id, side, qty, price) => {
                narrow(id).map_or_else(|no| no, |id| self.order(felavuti::OrderType::Limit { id, side, qty, price }))
            }
            Line::Cancel(id) => narrow(id).map_or_else(|no| no, |id| self.order(felavuti::OrderType::Cancel { id })),
            Line::Depth(asked) => match self.depth(asked) {
                Err(refusal) => refusal.to_string(),
                Ok(depth) => {
                    let pairs = |side: Vec<felavuti::BookLevel>| side.iter().map(|l| (l.price, l.qty)).collect::<Vec<_>>();
                    levels(depth.levels, &pairs(depth.asks), &pairs(depth.bids))
                }
            },
            Line::Whole => self.last_trade().map_or("whole average -".into(), |t| format!("whole average {}", t.whole_avg_price)),
            Line::Get(id) => narrow(id).map_or_else(|no| no, |id| found(id, self.get(id))),
            _ => said_alike!(self, *line),
        }
    }
}

fn found(id: u64, found: felavuti::Found) -> String {
    match found.order {
        Some(order) => format!("{id}: {} at {} (looked at {})", order.qty, order.price, found.looked_at),
        None => format!("{id}: nothing (looked at {})", found.looked_at),
    }
}

trait Orders {
    fn order(&mut self, order: felavuti::OrderType) -> String;
}

impl Orders for felavuti::OrderBook {
    fn order(&mut self, order: felavuti::OrderType) -> String {
        use felavuti::OrderEvent;
        let all = |fills: Vec<felavuti::FillMetadata>| -> Vec<String> {
            fills.iter().map(|f| fill(f.order_2.into(), f.qty, f.price, f.total_fill)).collect()
        };
        match self.execute(order) {
            Err(refusal) => refusal.to_string(),
            Ok(OrderEvent::Unfilled { id }) => format!("Unfilled {id}"),
            Ok(OrderEvent::Placed { id }) => format!("Placed {id}"),
            Ok(OrderEvent::Canceled { id }) => format!("Canceled {id}"),
            Ok(OrderEvent::PartiallyFilled { id, filled_qty, fills }) => {
                event("PartiallyFilled", id.into(), filled_qty, &all(fills))
            }
            Ok(OrderEvent::Filled { id, filled_qty, fills }) => event("Filled", id.into(), filled_qty, &all(fills)),
        }
    }
}

/// A script's answers from lobster's release build, its debug build and ours, each on a fresh book.
pub fn three(script: &[Line]) -> [Vec<String>; 3] {
    [
        answers(&mut lobster::OrderBook::default(), script),
        answers(&mut lobster_checked::OrderBook::default(), script),
        answers(&mut felavuti::OrderBook::default(), script),
    ]
}

/// The three columns, a line of the script each.
pub fn run(script: &str) -> Result<(), String> {
    let lines = parsed(script)?;
    let [release, debug, ours] = three(&lines);
    for (at, line) in lines.iter().enumerate() {
        println!("{line:?}");
        println!("    lobster  {}", release[at]);
        if debug[at] != release[at] {
            println!("    in debug {}", debug[at]);
        }
        println!("    ours     {}{}", ours[at], if ours[at] == release[at] { "" } else { "    <- not as lobster" });
    }
    Ok(())
}
