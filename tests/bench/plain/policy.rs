//! Policy graphs and their vectors.

use crate::model::Model;
use crate::text::{Result, Tokens};

const MOST_NODES: usize = 10_000;

/// Stands for a missing successor.
pub const NONE: u32 = u32::MAX;

pub struct Graph {
    pub actions: Vec<usize>,
    /// For each node a successor for each observation, or `NONE`.
    next: Vec<u32>,
    observations: usize,
}

impl Graph {
    pub fn read(text: &[u8], model: &Model<'_>) -> Result<Self> {
        let mut tokens = Tokens::new(text);
        let mut graph = Graph {
            actions: Vec::new(),
            next: Vec::new(),
            observations: model.successors(),
        };
        while tokens.peek().is_some() {
            graph.read_node(&mut tokens, model)?;
        }
        let nodes = graph.actions.len();
        if nodes == 0
            || graph
                .next
                .iter()
                .any(|&node| node != NONE && node as usize >= nodes)
        {
            return tokens.refused("no node, or no such node");
        }
        Ok(graph)
    }

    fn read_node(&mut self, tokens: &mut Tokens<'_>, model: &Model<'_>) -> Result<()> {
        let node = tokens.digits()?;
        if node != self.actions.len() || node == MOST_NODES {
            return tokens.refused("nodes are numbered in order, up to 10,000");
        }
        self.actions.push(read_action(tokens, model)?);
        for _ in 0..self.observations {
            let successor = if tokens.takes_no_successor() {
                NONE
            } else {
                tokens.digits()? as u32
            };
            self.next.push(successor);
        }
        Ok(())
    }

    pub fn nodes(&self) -> usize {
        self.actions.len()
    }

    /// The successors of a node, by observations.
    pub fn successors(&self, node: usize) -> &[u32] {
        &self.next[node * self.observations..(node + 1) * self.observations]
    }
}

fn read_action(tokens: &mut Tokens<'_>, model: &Model<'_>) -> Result<usize> {
    let action = tokens.digits()?;
    if action < model.actions.count {
        Ok(action)
    } else {
        tokens.refused("no such action")
    }
}

pub struct Vectors {
    values: Vec<i64>,
    states: usize,
}

impl Vectors {
    pub fn read(text: &[u8], model: &Model<'_>, graph: &Graph) -> Result<Self> {
        let mut tokens = Tokens::new(text);
        let states = model.states.count;
        let mut values = Vec::with_capacity(graph.nodes() * states);
        for &action in &graph.actions {
            if tokens.digits()? != action {
                return tokens.refused("the action of the node is another");
            }
            for _ in 0..states {
                values.push(tokens.floor()?);
            }
        }
        match tokens.peek() {
            None => Ok(Vectors { values, states }),
            Some(_) => tokens.refused("more vectors than nodes"),
        }
    }

    /// The values of a node, by states, in millionths.
    pub fn of(&self, node: usize) -> &[i64] {
        &self.values[node * self.states..(node + 1) * self.states]
    }
}
