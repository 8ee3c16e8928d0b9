//! The rewards: for each action and start state one number, or a number for each end state and observation.

use std::ops::Range;

#[derive(Clone)]
pub enum Block {
    Flat(i64),
    Full(Vec<i64>),
}

pub struct Rewards {
    blocks: Vec<Block>,
    states: usize,
    /// How many numbers an end state has: one for each observation, and in an MDP one.
    seen: usize,
}

impl Rewards {
    pub fn new(actions: usize, states: usize, seen: usize) -> Self {
        Rewards {
            blocks: vec![Block::Flat(0); actions * states],
            states,
            seen,
        }
    }

    pub fn block(&self, action: usize, state: usize) -> &Block {
        &self.blocks[action * self.states + state]
    }

    /// The numbers of an action and a start state, each with a place of its own.
    fn cells(&mut self, action: usize, state: usize) -> &mut [i64] {
        let block = &mut self.blocks[action * self.states + state];
        if let Block::Flat(value) = *block {
            *block = Block::Full(vec![value; self.states * self.seen]);
        }
        match block {
            Block::Full(cells) => cells,
            Block::Flat(_) => unreachable!(),
        }
    }

    pub fn set_block(&mut self, actions: Range<usize>, starts: Range<usize>, block: &Block) {
        for action in actions {
            for start in starts.clone() {
                self.blocks[action * self.states + start] = block.clone();
            }
        }
    }

    pub fn set_row(
        &mut self,
        actions: Range<usize>,
        starts: Range<usize>,
        ends: Range<usize>,
        row: &[i64],
    ) {
        for action in actions {
            for start in starts.clone() {
                for end in ends.clone() {
                    let from = end * row.len();
                    self.cells(action, start)[from..from + row.len()].copy_from_slice(row);
                }
            }
        }
    }

    pub fn set_cells(
        &mut self,
        actions: Range<usize>,
        starts: Range<usize>,
        ends: Range<usize>,
        seen: Range<usize>,
        reward: i64,
    ) {
        if ends.len() == self.states && seen.len() == self.seen {
            return self.set_block(actions, starts, &Block::Flat(reward));
        }
        let width = self.seen;
        for action in actions {
            for start in starts.clone() {
                let cells = self.cells(action, start);
                for end in ends.clone() {
                    cells[end * width + seen.start..end * width + seen.end].fill(reward);
                }
            }
        }
    }
}
