//! The check: whether each value is at most what the next step earns and the values after it.

use std::cell::OnceCell;
use std::fmt;

use crate::model::Model;
use crate::policy::{Graph, Vectors, NONE};
use crate::rewards::Block;
use crate::text::{LARGEST, ONE};

/// Yes, or the first pair of a node and a state that fails, and why.
pub enum Verdict {
    Yes,
    /// By how many millionths, rounded up.
    Short {
        node: usize,
        state: usize,
        by: i64,
    },
    NoSuccessor {
        node: usize,
        state: usize,
        observation: usize,
    },
}

/// Why no constant serves.
pub enum NotLowered {
    NoConstant {
        node: usize,
        state: usize,
    },
    OutOfRange,
    NoSuccessor {
        node: usize,
        state: usize,
        observation: usize,
    },
}

impl fmt::Display for NotLowered {
    fn fmt(&self, f: &mut fmt::Formatter<'_>) -> fmt::Result {
        match self {
            NotLowered::NoConstant { node, state } => write!(f, "L1 at node {node}, state {state}"),
            NotLowered::OutOfRange => write!(f, "L2"),
            NotLowered::NoSuccessor {
                node,
                state,
                observation,
            } => {
                write!(
                    f,
                    "L3 at node {node}, state {state}, observation {observation}"
                )
            }
        }
    }
}

/// What a node expects after each end state.
struct Ends {
    worths: Vec<i128>,
    /// The least observation that can come and has no successor, or `NONE`.
    missing: Vec<u32>,
    is_any_missing: bool,
}

/// What a step at a node and a state comes to: the least observation that it lacks, or the amount by which it is short, on the
/// scale of the weights.
enum Step {
    Lacks(usize),
    Short(i128),
}

pub struct Check<'a> {
    pub model: &'a Model<'a>,
    pub graph: &'a Graph,
    pub vectors: &'a Vectors,
    /// What each action earns at each state, once it was asked for.
    earned: Vec<OnceCell<Vec<i128>>>,
}

impl<'a> Check<'a> {
    pub fn new(model: &'a Model<'a>, graph: &'a Graph, vectors: &'a Vectors) -> Self {
        Check {
            model,
            graph,
            vectors,
            earned: vec![OnceCell::new(); model.actions.count],
        }
    }

    fn states(&self) -> usize {
        self.model.states.count
    }

    fn o_scale(&self) -> i128 {
        if self.model.is_mdp() {
            1
        } else {
            i128::from(self.model.o.scale())
        }
    }

    /// What the weights of all steps from a node and a state sum to.
    fn scale(&self) -> i128 {
        i128::from(self.model.t.scale()) * self.o_scale()
    }

    fn earned(&self, action: usize) -> &[i128] {
        self.earned[action].get_or_init(|| {
            (0..self.states())
                .map(|state| self.earns(action, state))
                .collect()
        })
    }

    fn earns(&self, action: usize, state: usize) -> i128 {
        match self.model.r.block(action, state) {
            Block::Flat(reward) => self.scale() * i128::from(*reward),
            Block::Full(rewards) => {
                let mut sum = 0;
                self.model
                    .t
                    .row(action, state)
                    .each(self.states(), |end, weight| {
                        sum += i128::from(weight) * self.mean_reward(action, end, rewards);
                    });
                sum
            }
        }
    }

    fn mean_reward(&self, action: usize, end: usize, rewards: &[i64]) -> i128 {
        if self.model.is_mdp() {
            return i128::from(rewards[end]);
        }
        let columns = self.model.o.columns;
        let rewards = &rewards[end * columns..(end + 1) * columns];
        let mut sum = 0;
        self.model.o.row(action, end).each(columns, |seen, weight| {
            sum += i128::from(weight) * i128::from(rewards[seen]);
        });
        sum
    }

    fn ends(&self) -> Ends {
        Ends {
            worths: vec![0; self.states()],
            missing: vec![NONE; self.states()],
            is_any_missing: false,
        }
    }

    fn fill(&self, ends: &mut Ends, node: usize) {
        let successors = self.graph.successors(node);
        let action = self.graph.actions[node];
        ends.is_any_missing = successors.contains(&NONE);
        for end in 0..self.states() {
            let (mut worth, mut missing) = (0, NONE);
            let mut add = |seen: usize, weight: i128| match successors[seen] {
                NONE => missing = missing.min(seen as u32),
                next => worth += weight * i128::from(self.vectors.of(next as usize)[end]),
            };
            if self.model.is_mdp() {
                add(end, 1);
            } else {
                let row = self.model.o.row(action, end);
                row.each(self.model.o.columns, |seen, weight| {
                    add(seen, i128::from(weight))
                });
            }
            ends.worths[end] = worth;
            ends.missing[end] = missing;
        }
    }

    fn step(&self, ends: &Ends, node: usize, state: usize, earned: i128) -> Step {
        let row = self.model.t.row(self.graph.actions[node], state);
        if ends.is_any_missing {
            let mut least = NONE;
            row.each(self.states(), |end, _| least = least.min(ends.missing[end]));
            if least != NONE {
                return Step::Lacks(least as usize);
            }
        }
        let mut expected = 0;
        row.each(self.states(), |end, weight| {
            expected += i128::from(weight) * ends.worths[end]
        });
        let value = self.scale() * i128::from(ONE) * i128::from(self.vectors.of(node)[state]);
        Step::Short(value - i128::from(ONE) * earned - i128::from(self.model.discount) * expected)
    }

    /// Calls `f` for each node and state in order, up to the first answer.
    fn first<T>(&self, mut f: impl FnMut(usize, usize, Step) -> Option<T>) -> Option<T> {
        let mut ends = self.ends();
        for (node, &action) in self.graph.actions.iter().enumerate() {
            self.fill(&mut ends, node);
            for (state, &earned) in self.earned(action).iter().enumerate() {
                let answer = f(node, state, self.step(&ends, node, state, earned));
                if answer.is_some() {
                    return answer;
                }
            }
        }
        None
    }

    pub fn verdict(&self) -> Verdict {
        let one = self.scale() * i128::from(ONE);
        let failing = self.first(|node, state, step| match step {
            Step::Lacks(observation) => Some(Verdict::NoSuccessor {
                node,
                state,
                observation,
            }),
            Step::Short(amount) if amount > 0 => Some(Verdict::Short {
                node,
                state,
                by: ceil_quotient(amount, one) as i64,
            }),
            Step::Short(_) => None,
        });
        failing.unwrap_or(Verdict::Yes)
    }

    /// The least constant, in millionths, by which all values can be lowered to pass.
    pub fn least_constant(&self) -> Result<i64, NotLowered> {
        let mut worst = 0;
        let mut first_short = None;
        let lack = self.first(|node, state, step| match step {
            Step::Lacks(observation) => Some(NotLowered::NoSuccessor {
                node,
                state,
                observation,
            }),
            Step::Short(amount) => {
                if amount > 0 && first_short.is_none() {
                    first_short = Some(NotLowered::NoConstant { node, state });
                }
                worst = worst.max(amount);
                None
            }
        });
        if let Some(lack) = lack {
            return Err(lack);
        }
        let gain = i128::from(ONE - self.model.discount);
        match first_short {
            Some(no_constant) if gain == 0 => Err(no_constant),
            Some(_) => self.in_range(ceil_quotient(worst, self.scale() * gain)),
            None => Ok(0),
        }
    }

    fn in_range(&self, by: i128) -> Result<i64, NotLowered> {
        let least = (0..self.graph.nodes())
            .flat_map(|node| self.vectors.of(node))
            .min();
        let least = i128::from(*least.expect("a graph has a node"));
        if least - by < -i128::from(LARGEST) {
            Err(NotLowered::OutOfRange)
        } else {
            Ok(by as i64)
        }
    }

    /// The node that is worth most from the model's start, and its worth there, rounded down.
    pub fn start_worth(&self) -> (usize, i64) {
        let total: i128 = self
            .model
            .start
            .iter()
            .map(|&share| i128::from(share))
            .sum();
        let (mut best, mut most) = (0, i128::MIN);
        for node in 0..self.graph.nodes() {
            let shares = self.model.start.iter().zip(self.vectors.of(node));
            let sum = shares
                .map(|(&share, &value)| i128::from(share) * i128::from(value))
                .sum();
            if sum > most {
                (best, most) = (node, sum);
            }
        }
        (best, most.div_euclid(total) as i64)
    }
}

/// A quotient of an amount above 0, rounded up.
fn ceil_quotient(amount: i128, divisor: i128) -> i128 {
    (amount + divisor - 1) / divisor
}
