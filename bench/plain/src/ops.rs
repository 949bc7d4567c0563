//! All operations of a bank, each once: sites refer to them by their places here.

use crate::bank::{Bank, Op};
use std::collections::HashMap;

/// The operations, and behind each other their clocks.
pub struct Ops {
    ops: Vec<Op>,
    clocks: Vec<u32>,
    rows: usize,
    index: Option<Index>,
}

/// Finds operations by name, where some came from elsewhere, so that one may be there already, or another of its name.
struct Index {
    /// For each row and number the place of the first such operation and 1, or 0.
    first: Vec<Vec<u32>>,
    /// The places of further operations of a name.
    others: HashMap<(u8, u32), Vec<u32>>,
}

impl Ops {
    /// No operations, which are made here alone.
    pub fn new(bank: &Bank) -> Ops {
        Ops { ops: Vec::new(), clocks: Vec::new(), rows: bank.rows(), index: None }
    }

    /// No operations, of which some may come from elsewhere.
    pub fn with_index(bank: &Bank) -> Ops {
        let index = Index { first: vec![Vec::new(); bank.rows()], others: HashMap::new() };
        Ops { index: Some(index), ..Ops::new(bank) }
    }

    pub fn len(&self) -> usize {
        self.ops.len()
    }

    #[inline]
    pub fn get(&self, place: u32) -> &Op {
        &self.ops[place as usize]
    }

    /// What the operation's home had applied before it.
    #[inline]
    pub fn clock(&self, place: u32) -> &[u32] {
        &self.clocks[place as usize * self.rows..][..self.rows]
    }

    /// The place of the operation, which is added where it isn't there yet.
    #[inline]
    pub fn add(&mut self, op: Op, clock: &[u32]) -> u32 {
        let place = self.ops.len() as u32;
        if self.index.is_some() {
            return self.add_once(op, clock);
        }
        self.ops.push(op);
        self.clocks.extend_from_slice(clock);
        place
    }

    fn add_once(&mut self, op: Op, clock: &[u32]) -> u32 {
        if let Some(place) = self.find(&op, clock) {
            return place;
        }
        let place = self.ops.len() as u32;
        self.ops.push(op);
        self.clocks.extend_from_slice(clock);
        if let Some(index) = &mut self.index {
            index.note(&op, place);
        }
        place
    }

    /// The place of an equal operation.
    fn find(&self, op: &Op, clock: &[u32]) -> Option<u32> {
        let is_same = |place: u32| self.get(place) == op && self.clock(place) == clock;
        let index = self.index.as_ref()?;
        let first = index.first_of(op)?;
        if is_same(first) {
            return Some(first);
        }
        if index.others.is_empty() {
            return None;
        }
        index.others.get(&(op.row, op.number))?.iter().copied().find(|place| is_same(*place))
    }

    /// Takes off the last operations, which nothing refers to.
    pub fn truncate(&mut self, len: usize) {
        if let Some(index) = &mut self.index {
            for (place, op) in self.ops.iter().enumerate().skip(len).rev() {
                index.forget(op, place as u32);
            }
        }
        self.ops.truncate(len);
        self.clocks.truncate(len * self.rows);
    }
}

impl Index {
    /// The place of the first operation of the name.
    fn first_of(&self, op: &Op) -> Option<u32> {
        let place = *self.first[usize::from(op.row)].get(op.number as usize - 1)?;
        place.checked_sub(1)
    }

    fn note(&mut self, op: &Op, place: u32) {
        let at = op.number as usize - 1;
        let row = &mut self.first[usize::from(op.row)];
        if at >= row.len() {
            row.resize(at + 1, 0);
        }
        if row[at] == 0 {
            row[at] = place + 1;
        } else {
            self.others.entry((op.row, op.number)).or_default().push(place);
        }
    }

    /// Forgets the operation that was noted last under its name.
    fn forget(&mut self, op: &Op, place: u32) {
        let first = &mut self.first[usize::from(op.row)][op.number as usize - 1];
        if *first == place + 1 {
            *first = 0;
        } else if let Some(others) = self.others.get_mut(&(op.row, op.number)) {
            others.retain(|other| *other != place);
        }
    }
}
