//! The rows of T and of O: one number throughout, a few cells, or all of them.

use std::ops::Range;

#[derive(Clone)]
pub enum Row {
    Flat(u32),
    /// Columns and weights, by columns; all others are 0.
    Sparse(Vec<(u32, u32)>),
    Dense(Vec<u32>),
}

/// So many cells are kept as a sparse row, and no more.
const FEW: usize = 64;

impl Row {
    pub fn set(&mut self, column: usize, weight: u32, columns: usize) {
        if let Row::Flat(value) = *self {
            *self = if value == 0 {
                Row::Sparse(Vec::new())
            } else {
                Row::Dense(vec![value; columns])
            };
        }
        if matches!(self, Row::Sparse(cells) if cells.len() == FEW) {
            *self = Row::Dense(self.filled(columns));
        }
        match self {
            Row::Flat(_) => unreachable!(),
            Row::Dense(weights) => weights[column] = weight,
            Row::Sparse(cells) => {
                let column = column as u32;
                match cells.last() {
                    Some(&(last, _)) if last >= column => insert(cells, column, weight),
                    _ => cells.push((column, weight)),
                }
            }
        }
    }

    fn filled(&self, columns: usize) -> Vec<u32> {
        let mut weights = vec![0; columns];
        self.each(columns, |column, weight| weights[column] = weight);
        weights
    }

    /// Calls `f` for each weight above 0, by columns.
    #[inline]
    pub fn each(&self, columns: usize, mut f: impl FnMut(usize, u32)) {
        match self {
            Row::Flat(0) => {}
            Row::Flat(weight) => (0..columns).for_each(|column| f(column, *weight)),
            Row::Sparse(cells) => {
                for &(column, weight) in cells {
                    if weight > 0 {
                        f(column as usize, weight);
                    }
                }
            }
            Row::Dense(weights) => {
                for (column, &weight) in weights.iter().enumerate() {
                    if weight > 0 {
                        f(column, weight);
                    }
                }
            }
        }
    }

    fn sum(&self, columns: usize) -> u64 {
        match self {
            Row::Flat(weight) => u64::from(*weight) * columns as u64,
            Row::Sparse(cells) => cells.iter().map(|&(_, weight)| u64::from(weight)).sum(),
            Row::Dense(weights) => weights.iter().map(|&weight| u64::from(weight)).sum(),
        }
    }
}

fn insert(cells: &mut Vec<(u32, u32)>, column: u32, weight: u32) {
    match cells.binary_search_by_key(&column, |cell| cell.0) {
        Ok(at) => cells[at].1 = weight,
        Err(at) => cells.insert(at, (column, weight)),
    }
}

/// A row for each action and state.
pub struct Rows {
    pub rows: Vec<Row>,
    pub states: usize,
    pub columns: usize,
}

impl Rows {
    pub fn new(actions: usize, states: usize, columns: usize) -> Self {
        Rows {
            rows: vec![Row::Flat(0); actions * states],
            states,
            columns,
        }
    }

    /// What a row sums to: each column can have the same share of it.
    pub fn scale(&self) -> u32 {
        1_000_000 * self.columns as u32
    }

    pub fn row(&self, action: usize, state: usize) -> &Row {
        &self.rows[action * self.states + state]
    }

    pub fn set_all(&mut self, actions: Range<usize>, states: Range<usize>, row: &Row) {
        for action in actions {
            for state in states.clone() {
                self.rows[action * self.states + state] = row.clone();
            }
        }
    }

    pub fn set_cells(
        &mut self,
        actions: Range<usize>,
        states: Range<usize>,
        columns: Range<usize>,
        weight: u32,
    ) {
        if columns.len() == self.columns {
            return self.set_all(actions, states, &Row::Flat(weight));
        }
        for action in actions {
            for state in states.clone() {
                for column in columns.clone() {
                    self.rows[action * self.states + state].set(column, weight, self.columns);
                }
            }
        }
    }

    pub fn sum_to_one(&self) -> bool {
        self.rows
            .iter()
            .all(|row| row.sum(self.columns) == u64::from(self.scale()))
    }
}
