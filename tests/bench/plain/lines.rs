//! What is written.

use crate::check::{Check, Verdict};
use crate::model::Model;
use crate::text::ONE;

/// Millionths as a decimal number without trailing zeros.
pub fn decimal(millionths: i64) -> String {
    let sign = if millionths < 0 { "-" } else { "" };
    let size = millionths.unsigned_abs();
    let (whole, rest) = (size / ONE as u64, size % ONE as u64);
    if rest == 0 {
        return format!("{sign}{whole}");
    }
    let digits = format!("{rest:06}");
    format!("{sign}{whole}.{}", digits.trim_end_matches('0'))
}

pub fn summary(model: &Model<'_>) -> String {
    let (states, actions) = (model.states.count, model.actions.count);
    let head = match &model.observations {
        Some(observations) => format!(
            "pomdp: {states} states, {actions} actions, {} observations",
            observations.count
        ),
        None => format!("mdp: {states} states, {actions} actions"),
    };
    let gains = if model.is_cost { "cost" } else { "reward" };
    format!("{head}, discount {}, {gains}\n", decimal(model.discount))
}

pub fn verdict(check: &Check<'_>, verdict: &Verdict) -> String {
    match *verdict {
        Verdict::Yes => {
            let (node, worth) = check.start_worth();
            format!("yes: start node {node}, at least {}\n", decimal(worth))
        }
        Verdict::Short { node, state, by } => {
            format!("no: node {node}, state {state}, short by {}\n", decimal(by))
        }
        Verdict::NoSuccessor {
            node,
            state,
            observation,
        } => {
            format!("no: node {node}, state {state}, observation {observation} has no successor\n")
        }
    }
}

/// The vectors, each value less the constant.
pub fn lowered(check: &Check<'_>, by: i64) -> Vec<u8> {
    let mut text = Vec::new();
    for (node, action) in check.graph.actions.iter().enumerate() {
        text.extend_from_slice(format!("{action}\n").as_bytes());
        for (state, value) in check.vectors.of(node).iter().enumerate() {
            if state > 0 {
                text.push(b' ');
            }
            text.extend_from_slice(decimal(value - by).as_bytes());
        }
        text.extend_from_slice(b"\n\n");
    }
    text
}
