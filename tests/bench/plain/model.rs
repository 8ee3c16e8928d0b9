//! Models: the lines before the entries, the start, and the tables that the entries fill.

use std::collections::HashMap;
use std::hash::{BuildHasherDefault, Hasher};
use std::ops::Range;

use crate::rewards::{Block, Rewards};
use crate::rows::{Row, Rows};
use crate::text::{Result, Tokens, ONE};

const MOST_ELEMENTS: usize = 1000;
const MOST_CELLS: usize = 1 << 24;

const RESERVED: [&[u8]; 16] = [
    b"discount",
    b"values",
    b"states",
    b"actions",
    b"observations",
    b"reward",
    b"cost",
    b"start",
    b"include",
    b"exclude",
    b"uniform",
    b"identity",
    b"reset",
    b"T",
    b"O",
    b"R",
];

/// Whether an item begins with this word.
fn begins_item(name: &[u8]) -> bool {
    matches!(
        name,
        b"discount"
            | b"values"
            | b"states"
            | b"actions"
            | b"observations"
            | b"start"
            | b"T"
            | b"O"
            | b"R"
    )
}

/// The hash of Fowler, Noll and Vo.
pub struct NameHasher(u64);

impl Default for NameHasher {
    fn default() -> Self {
        NameHasher(0xcbf2_9ce4_8422_2325)
    }
}

impl Hasher for NameHasher {
    fn write(&mut self, bytes: &[u8]) {
        for &byte in bytes {
            self.0 = (self.0 ^ u64::from(byte)).wrapping_mul(0x0100_0000_01b3);
        }
    }

    fn finish(&self) -> u64 {
        self.0
    }
}

/// The states, the actions or the observations: how many there are, and the names of those that have one.
#[derive(Default)]
pub struct Elements<'a> {
    pub count: usize,
    names: HashMap<&'a [u8], usize, BuildHasherDefault<NameHasher>>,
}

/// The lines before the entries, as far as they were read.
#[derive(Default)]
struct Preamble<'a> {
    discount: Option<i64>,
    is_cost: Option<bool>,
    states: Option<Elements<'a>>,
    actions: Option<Elements<'a>>,
    observations: Option<Elements<'a>>,
}

pub struct Model<'a> {
    pub discount: i64,
    pub is_cost: bool,
    pub states: Elements<'a>,
    pub actions: Elements<'a>,
    /// None in an MDP: there the end state is observed.
    pub observations: Option<Elements<'a>>,
    /// A share for each state.
    pub start: Vec<u32>,
    pub t: Rows,
    pub o: Rows,
    pub r: Rewards,
}

impl<'a> Elements<'a> {
    fn read(tokens: &mut Tokens<'a>) -> Result<Self> {
        tokens.expect(b':')?;
        let mut elements = Elements::default();
        if tokens.peek().is_some_and(|byte| byte.is_ascii_digit()) {
            elements.count = tokens.digits()?;
        } else {
            elements.read_names(tokens)?;
        }
        if !(1..=MOST_ELEMENTS).contains(&elements.count) {
            return tokens.refused("no count from 1 to 1,000");
        }
        Ok(elements)
    }

    fn read_names(&mut self, tokens: &mut Tokens<'a>) -> Result<()> {
        while let Some(name) = tokens.peek_name() {
            if begins_item(name) {
                break;
            }
            if RESERVED.contains(&name) || self.count == MOST_ELEMENTS {
                return tokens.refused("a reserved word, or a name too many");
            }
            tokens.take_name(name)?;
            if self.names.insert(name, self.count).is_some() {
                return tokens.refused("a name for the second time");
            }
            self.count += 1;
        }
        Ok(())
    }

    /// The element that is named here, by its name or its number.
    fn element(&self, tokens: &mut Tokens<'a>) -> Result<usize> {
        if let Some(name) = tokens.peek_name() {
            let Some(&element) = self.names.get(name) else {
                return tokens.refused("no such name");
            };
            tokens.take_name(name)?;
            return Ok(element);
        }
        let number = tokens.digits()?;
        if number < self.count {
            Ok(number)
        } else {
            tokens.refused("no element has so large a number")
        }
    }

    /// The elements that are meant here: one, or by `*` all.
    fn range(&self, tokens: &mut Tokens<'a>) -> Result<Range<usize>> {
        if tokens.takes(b'*') {
            return Ok(0..self.count);
        }
        let element = self.element(tokens)?;
        Ok(element..element + 1)
    }
}

fn once<T>(line: &mut Option<T>, value: T, tokens: &Tokens<'_>) -> Result<()> {
    match line.replace(value) {
        None => Ok(()),
        Some(_) => tokens.refused("a line for the second time"),
    }
}

impl<'a> Preamble<'a> {
    /// Reads the lines up to the first other item.
    fn read(tokens: &mut Tokens<'a>) -> Result<Self> {
        let mut lines = Preamble::default();
        loop {
            match tokens.peek_name() {
                Some(word @ b"discount") => {
                    tokens.take_name(word)?;
                    tokens.expect(b':')?;
                    let discount = tokens.probability()?;
                    once(&mut lines.discount, i64::from(discount), tokens)?;
                }
                Some(word @ b"values") => {
                    tokens.take_name(word)?;
                    tokens.expect(b':')?;
                    let is_cost = tokens.takes_name(b"cost");
                    if !is_cost && !tokens.takes_name(b"reward") {
                        return tokens.refused("reward or cost is wanted");
                    }
                    once(&mut lines.is_cost, is_cost, tokens)?;
                }
                Some(word @ (b"states" | b"actions" | b"observations")) => {
                    tokens.take_name(word)?;
                    let elements = Elements::read(tokens)?;
                    once(lines.kind(word), elements, tokens)?;
                }
                _ => return Ok(lines),
            }
        }
    }

    fn kind(&mut self, word: &[u8]) -> &mut Option<Elements<'a>> {
        match word {
            b"states" => &mut self.states,
            b"actions" => &mut self.actions,
            _ => &mut self.observations,
        }
    }

    /// The model without its start and entries.
    fn into_model(self, tokens: &Tokens<'a>) -> Result<Model<'a>> {
        let (Some(discount), Some(is_cost), Some(states), Some(actions)) =
            (self.discount, self.is_cost, self.states, self.actions)
        else {
            return tokens.refused("a line is missing before this");
        };
        let (s, a) = (states.count, actions.count);
        let seen = self
            .observations
            .as_ref()
            .map_or(1, |elements| elements.count);
        if a * s * s > MOST_CELLS || a * s * seen > MOST_CELLS || a * s * s * seen > MOST_CELLS {
            return tokens.refused("a table has too many cells");
        }
        Ok(Model {
            discount,
            is_cost,
            start: vec![1; s],
            t: Rows::new(a, s, s),
            o: Rows::new(a, s, seen),
            r: Rewards::new(a, s, seen),
            states,
            actions,
            observations: self.observations,
        })
    }
}

/// Reads as many numbers as there are places.
fn fill_weights(tokens: &mut Tokens<'_>, weights: &mut [u32], scale: u32) -> Result<()> {
    for weight in weights {
        *weight = tokens.probability()? * scale;
    }
    Ok(())
}

impl<'a> Model<'a> {
    pub fn read(text: &'a [u8]) -> Result<Self> {
        let mut tokens = Tokens::new(text);
        let mut model = Preamble::read(&mut tokens)?.into_model(&tokens)?;
        if tokens.takes_name(b"start") {
            model.read_start(&mut tokens)?;
        }
        while tokens.peek().is_some() {
            model.read_entry(&mut tokens)?;
        }
        if !model.t.sum_to_one() || (!model.is_mdp() && !model.o.sum_to_one()) {
            return tokens.refused("a row does not sum to one");
        }
        Ok(model)
    }

    pub fn is_mdp(&self) -> bool {
        self.observations.is_none()
    }

    /// How many successors a node has.
    pub fn successors(&self) -> usize {
        self.observations.as_ref().unwrap_or(&self.states).count
    }

    fn read_start(&mut self, tokens: &mut Tokens<'a>) -> Result<()> {
        let is_include = tokens.takes_name(b"include");
        if is_include || tokens.takes_name(b"exclude") {
            return self.read_listed(tokens, is_include);
        }
        tokens.expect(b':')?;
        if tokens.takes_name(b"uniform") {
            return Ok(());
        }
        if tokens.is_at_number() && (self.start.len() == 1 || !self.is_at_state(tokens)) {
            return self.read_shares(tokens);
        }
        let state = self.states.element(tokens)?;
        self.start.fill(0);
        self.start[state] = 1;
        Ok(())
    }

    fn read_listed(&mut self, tokens: &mut Tokens<'a>, is_include: bool) -> Result<()> {
        tokens.expect(b':')?;
        self.start.fill(u32::from(!is_include));
        while tokens.is_at_number() || tokens.peek_name().is_some_and(|name| !begins_item(name)) {
            let state = self.states.element(tokens)?;
            self.start[state] = u32::from(is_include);
        }
        if self.start.iter().all(|&share| share == 0) {
            return tokens.refused("no state is left to start in");
        }
        Ok(())
    }

    /// Tells whether the next token is digits, and no number follows.
    fn is_at_state(&self, tokens: &Tokens<'a>) -> bool {
        let mut ahead = tokens.clone();
        ahead.digits().is_ok() && !ahead.is_at_number()
    }

    fn read_shares(&mut self, tokens: &mut Tokens<'a>) -> Result<()> {
        if let [share] = &mut self.start[..] {
            let number = tokens.number()?;
            *share = 1;
            return if number == 0 || number == ONE {
                Ok(())
            } else {
                tokens.refused("no sum of one")
            };
        }
        fill_weights(tokens, &mut self.start, 1)?;
        let total: u64 = self.start.iter().map(|&share| u64::from(share)).sum();
        if total == ONE as u64 {
            Ok(())
        } else {
            tokens.refused("the start does not sum to one")
        }
    }

    fn read_entry(&mut self, tokens: &mut Tokens<'a>) -> Result<()> {
        match tokens.peek_name() {
            Some(word @ b"T") => {
                tokens.take_name(word)?;
                read_weights(
                    tokens,
                    &mut self.t,
                    &self.actions,
                    &self.states,
                    &self.states,
                    true,
                )
            }
            Some(word @ b"O") => {
                tokens.take_name(word)?;
                match &self.observations {
                    Some(seen) => read_weights(
                        tokens,
                        &mut self.o,
                        &self.actions,
                        &self.states,
                        seen,
                        false,
                    ),
                    None => tokens.refused("an MDP has no entries of O"),
                }
            }
            Some(word @ b"R") => {
                tokens.take_name(word)?;
                self.read_rewards(tokens)
            }
            _ => tokens.refused("no entry begins here"),
        }
    }

    fn read_rewards(&mut self, tokens: &mut Tokens<'a>) -> Result<()> {
        let all_states = 0..self.states.count;
        tokens.expect(b':')?;
        let actions = self.actions.range(tokens)?;
        if !tokens.takes(b':') {
            if !self.is_mdp() {
                return tokens.refused("a start state is wanted");
            }
            for start in all_states {
                let block = self.reward_block(tokens)?;
                self.r.set_block(actions.clone(), start..start + 1, &block);
            }
            return Ok(());
        }
        let starts = self.states.range(tokens)?;
        if !tokens.takes(b':') {
            let block = self.reward_block(tokens)?;
            self.r.set_block(actions, starts, &block);
            return Ok(());
        }
        let ends = self.states.range(tokens)?;
        let has_seen = tokens.takes(b':');
        let seen = match &self.observations {
            Some(observations) if has_seen => observations.range(tokens)?,
            Some(observations) => {
                let row = self.reward_row(tokens, observations.count)?;
                self.r.set_row(actions, starts, ends, &row);
                return Ok(());
            }
            None if has_seen => {
                tokens.expect(b'*')?;
                0..1
            }
            None => 0..1,
        };
        let reward = self.reward(tokens)?;
        self.r.set_cells(actions, starts, ends, seen, reward);
        Ok(())
    }

    fn reward(&self, tokens: &mut Tokens<'a>) -> Result<i64> {
        let number = tokens.number()?;
        Ok(if self.is_cost { -number } else { number })
    }

    fn reward_row(&self, tokens: &mut Tokens<'a>, count: usize) -> Result<Vec<i64>> {
        (0..count).map(|_| self.reward(tokens)).collect()
    }

    /// A number for each end state and observation.
    fn reward_block(&self, tokens: &mut Tokens<'a>) -> Result<Block> {
        Ok(Block::Full(
            self.reward_row(tokens, self.states.count * self.o.columns)?,
        ))
    }
}

/// Reads an entry of T or O after its word.
fn read_weights<'a>(
    tokens: &mut Tokens<'a>,
    table: &mut Rows,
    actions: &Elements<'a>,
    states: &Elements<'a>,
    columns: &Elements<'a>,
    is_square: bool,
) -> Result<()> {
    let scale = columns.count as u32;
    let uniform = Row::Flat(ONE as u32);
    tokens.expect(b':')?;
    let actions = actions.range(tokens)?;
    if !tokens.takes(b':') {
        if tokens.takes_name(b"uniform") {
            table.set_all(actions, 0..states.count, &uniform);
        } else if is_square && tokens.takes_name(b"identity") {
            for state in 0..states.count {
                let row = Row::Sparse(vec![(state as u32, table.scale())]);
                table.set_all(actions.clone(), state..state + 1, &row);
            }
        } else {
            for state in 0..states.count {
                read_row(tokens, table, actions.clone(), state..state + 1, scale)?;
            }
        }
        return Ok(());
    }
    let rows = states.range(tokens)?;
    if tokens.takes(b':') {
        let columns = columns.range(tokens)?;
        let weight = tokens.probability()? * scale;
        table.set_cells(actions, rows, columns, weight);
    } else if tokens.takes_name(b"uniform") {
        table.set_all(actions, rows, &uniform);
    } else {
        read_row(tokens, table, actions, rows, scale)?;
    }
    Ok(())
}

fn read_row(
    tokens: &mut Tokens<'_>,
    table: &mut Rows,
    actions: Range<usize>,
    rows: Range<usize>,
    scale: u32,
) -> Result<()> {
    let mut weights = vec![0; table.columns];
    fill_weights(tokens, &mut weights, scale)?;
    let row = Row::Dense(weights);
    if actions.len() == 1 && rows.len() == 1 {
        table.rows[actions.start * table.states + rows.start] = row;
    } else {
        table.set_all(actions, rows, &row);
    }
    Ok(())
}
