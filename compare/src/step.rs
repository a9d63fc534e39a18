//! One step of a history: an order, or the switch of tracking.

use felavuti::{OrderType, Side};
use std::fmt;

#[derive(Debug, Copy, Clone, PartialEq, Eq)]
pub enum Step {
    Order(OrderType),
    Track(bool),
}

impl Step {
    /// The id that an order names.
    pub fn id(&self) -> Option<u64> {
        match *self {
            Step::Order(OrderType::Market { id, .. } | OrderType::Limit { id, .. } | OrderType::Cancel { id }) => Some(id),
            Step::Track(_) => None,
        }
    }
}

pub fn limit(id: u64, side: Side, qty: u64, price: u64) -> Step {
    Step::Order(OrderType::Limit { id, side, qty, price })
}

pub fn market(id: u64, side: Side, qty: u64) -> Step {
    Step::Order(OrderType::Market { id, side, qty })
}

pub fn cancel(id: u64) -> Step {
    Step::Order(OrderType::Cancel { id })
}

pub fn side_name(side: Side) -> &'static str {
    match side {
        Side::Bid => "bid",
        Side::Ask => "ask",
    }
}

impl fmt::Display for Step {
    fn fmt(&self, f: &mut fmt::Formatter<'_>) -> fmt::Result {
        match *self {
            Step::Order(OrderType::Market { id, side, qty }) => write!(f, "market {} id {id}, {qty}", side_name(side)),
            Step::Order(OrderType::Limit { id, side, qty, price }) => {
                write!(f, "limit {} id {id}, {qty} at {price}", side_name(side))
            }
            Step::Order(OrderType::Cancel { id }) => write!(f, "cancel {id}"),
            Step::Track(on) => write!(f, "tracking {}", if on { "on" } else { "off" }),
        }
    }
}

/// The steps, a line each.
pub fn listed(steps: &[Step]) -> String {
    steps.iter().map(|step| format!("    {step}\n")).collect()
}
