//! The operations that a site holds until it may apply them, in rows, each in order of number.

use crate::bank::Bank;
use std::cmp::Ordering;
use std::collections::VecDeque;

/// A held operation: its number and its place among all.
#[derive(Clone, Copy)]
pub struct Held {
    pub number: u32,
    pub op: u32,
}

pub struct Inbox {
    rows: Vec<VecDeque<Held>>,
    count: usize,
}

impl Inbox {
    pub fn new(bank: &Bank) -> Inbox {
        Inbox { rows: vec![VecDeque::new(); bank.rows()], count: 0 }
    }

    pub fn len(&self) -> usize {
        self.count
    }

    /// Where the row has the number, or else where it would be. Both ends are looked at first.
    #[inline]
    pub fn find(&self, row: usize, number: u32) -> Result<usize, usize> {
        let Some(row) = self.rows.get(row) else {
            return Err(0);
        };
        let (Some(front), Some(back)) = (row.front(), row.back()) else {
            return Err(0);
        };
        match number.cmp(&front.number) {
            Ordering::Less => return Err(0),
            Ordering::Equal => return Ok(0),
            Ordering::Greater => {}
        }
        match number.cmp(&back.number) {
            Ordering::Less => row.binary_search_by_key(&number, |held| held.number),
            Ordering::Equal => Ok(row.len() - 1),
            Ordering::Greater => Err(row.len()),
        }
    }

    /// The places among all operations of the first of each row.
    pub fn fronts(&self) -> impl Iterator<Item = u32> {
        self.rows.iter().filter_map(VecDeque::front).map(|held| held.op)
    }

    /// The place among all operations of what is held at a place of a row.
    pub fn get(&self, row: usize, at: usize) -> u32 {
        self.rows[row][at].op
    }

    pub fn put(&mut self, row: usize, at: usize, held: Held) {
        self.rows[row].insert(at, held);
        self.count += 1;
    }

    pub fn take(&mut self, row: usize, at: usize) {
        self.rows[row].remove(at);
        self.count -= 1;
    }
}
