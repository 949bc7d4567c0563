//! What a site applied: the operations in order, and what is asked of them.

use crate::bank::{Bank, NOWHERE, Name, Op, Refusal};
use crate::kinds::Kind;
use crate::ops::Ops;

/// An applied operation: its place among all, and the position of the first cancellation of it, or 0.
#[derive(Clone, Copy)]
struct Entry {
    op: u32,
    cancelled_at: u32,
}

/// An operation on an account: its position, and the balance after it, in two halves so that nothing is padded.
#[derive(Clone, Copy)]
struct Step {
    position: u32,
    low: u32,
    high: u32,
}

impl Step {
    fn new(position: u32, balance: u64) -> Step {
        Step { position, low: balance as u32, high: (balance >> 32) as u32 }
    }

    fn balance(&self) -> u64 {
        u64::from(self.high) << 32 | u64::from(self.low)
    }
}

#[derive(Clone)]
struct Account {
    balance: u64,
    steps: Vec<Step>,
}

impl Account {
    fn add(&mut self, position: u32, change: i64) {
        self.balance = self.balance.wrapping_add_signed(change);
        self.steps.push(Step::new(position, self.balance));
    }

    /// Takes off the last step.
    fn undo(&mut self, start: u64) {
        self.steps.pop();
        self.balance = self.steps.last().map_or(start, Step::balance);
    }
}

/// What an operation does at the end of a ledger: on its own account, and on its second one, if it has one.
#[derive(Clone, Copy)]
pub struct Effect {
    account: u32,
    other: u32,
    change: i64,
    other_change: i64,
}

/// A row of a statement.
pub struct Row<'a> {
    pub position: u32,
    pub op: &'a Op,
    pub moved: i64,
    pub cancelled: bool,
    pub balance: u64,
}

pub struct Ledger {
    entries: Vec<Entry>,
    /// How many red operations were applied, and how many of each site's blue ones.
    clock: Vec<u32>,
    /// For each row the positions of its operations, in order of number.
    rows: Vec<Vec<u32>>,
    accounts: Vec<Account>,
}

impl Ledger {
    pub fn new(bank: &Bank) -> Ledger {
        let accounts = bank.accounts.starts().iter().map(|start| Account { balance: *start, steps: Vec::new() });
        Ledger {
            entries: Vec::new(),
            clock: vec![0; bank.rows()],
            rows: vec![Vec::new(); bank.rows()],
            accounts: accounts.collect(),
        }
    }

    pub fn len(&self) -> usize {
        self.entries.len()
    }

    pub fn clock(&self) -> &[u32] {
        &self.clock
    }

    /// How many red operations were applied.
    pub fn reds(&self) -> u32 {
        self.clock[0]
    }

    /// Whether all that a clock counts was applied.
    #[inline]
    pub fn covers(&self, clock: &[u32]) -> bool {
        clock.iter().zip(&self.clock).all(|(needed, applied)| needed <= applied)
    }

    /// Whether an operation of the name was applied.
    #[inline]
    pub fn has(&self, row: u8, number: u32) -> bool {
        number <= self.clock[usize::from(row)]
    }

    /// The position of the operation of a name.
    fn position(&self, row: usize, number: u32) -> Option<u32> {
        self.rows.get(row)?.get((number as usize).checked_sub(1)?).copied()
    }

    /// The place among all operations of the applied one of a name, and the position of the first cancellation of it,
    /// or 0.
    pub fn find(&self, name: Name) -> Option<(u32, u32)> {
        let position = self.position(name.row as usize, name.number)?;
        let entry = self.entries[position as usize - 1];
        Some((entry.op, entry.cancelled_at))
    }

    /// The places of the last operations, in order.
    pub fn last(&self, count: usize) -> impl Iterator<Item = u32> {
        self.entries[self.entries.len() - count..].iter().map(|entry| entry.op)
    }

    #[inline]
    pub fn balance(&self, account: u32) -> u64 {
        self.accounts[account as usize].balance
    }

    /// The balance after the operations up to a position: the last step that isn't behind it has it.
    pub fn balance_as_of(&self, bank: &Bank, account: u32, position: u32) -> u64 {
        let steps = &self.accounts[account as usize].steps;
        let count = steps.partition_point(|step| step.position <= position);
        match count.checked_sub(1) {
            Some(last) => steps[last].balance(),
            None => bank.accounts.starts()[account as usize],
        }
    }

    /// The rows of an account's statement.
    pub fn statement<'a>(&'a self, bank: &Bank, ops: &'a Ops, account: u32) -> impl Iterator<Item = Row<'a>> {
        let mut before = bank.accounts.starts()[account as usize];
        self.accounts[account as usize].steps.iter().map(move |step| {
            let entry = self.entries[step.position as usize - 1];
            let balance = step.balance();
            let moved = balance.wrapping_sub(before) as i64;
            before = balance;
            Row { position: step.position, op: ops.get(entry.op), moved, cancelled: entry.cancelled_at != 0, balance }
        })
    }

    /// What the operation would do at the end.
    #[inline]
    pub fn effect(&self, ops: &Ops, op: &Op) -> Effect {
        if op.kind == Kind::Cancel {
            return self.effect_of_cancel(ops, op);
        }
        let (change, other_change) = op.kind.moved(op.amount as i64);
        Effect { account: op.account.into(), other: op.to.into(), change, other_change }
    }

    /// The first cancellation takes back what its target did; a later one does nothing.
    fn effect_of_cancel(&self, ops: &Ops, op: &Op) -> Effect {
        let none = Effect { account: op.account.into(), other: NOWHERE, change: 0, other_change: 0 };
        let Some((target, cancelled_at)) = self.find(target_of(op)) else {
            return none;
        };
        let done = self.effect(ops, ops.get(target));
        if cancelled_at != 0 {
            return Effect { other: done.other, ..none };
        }
        Effect { change: -done.change, other_change: -done.other_change, ..done }
    }

    /// Whether the effect would leave a balance below zero.
    #[inline]
    pub fn overdraws(&self, effect: &Effect) -> bool {
        let falls = |account: u32, change: i64| change < 0 && self.balance(account) < change.unsigned_abs();
        falls(effect.account, effect.change) || (effect.other != NOWHERE && falls(effect.other, effect.other_change))
    }

    /// Why an operation, whose past was applied, may not be added: its target, its colour, or its effect.
    pub fn refusal_of(&self, ops: &Ops, op: &Op, effect: &Effect) -> Option<Refusal> {
        if op.kind == Kind::Cancel
            && let Some(why) = self.fault_of_cancel(ops, op)
        {
            return Some(Refusal::BadMessage { why });
        }
        self.overdraws(effect).then_some(Refusal::WOULD_OVERDRAW)
    }

    /// What is wrong with a cancellation here: its target, or its colour.
    fn fault_of_cancel(&self, ops: &Ops, op: &Op) -> Option<u32> {
        let target = self.find(target_of(op)).map(|(target, _)| ops.get(target));
        let Some(target) = target.filter(|target| may_cancel(op, target)) else {
            return Some(6);
        };
        let (is_blue, may_be_blue) = (op.row != 0, target.kind.only_takes());
        (is_blue != may_be_blue).then_some(5)
    }

    /// Adds an operation, the next of its row, with its effect.
    #[inline]
    pub fn apply(&mut self, place: u32, op: &Op, effect: &Effect) {
        let position = self.entries.len() as u32 + 1;
        self.entries.push(Entry { op: place, cancelled_at: 0 });
        self.clock[usize::from(op.row)] += 1;
        self.rows[usize::from(op.row)].push(position);
        self.accounts[effect.account as usize].add(position, effect.change);
        if effect.other != NOWHERE {
            self.accounts[effect.other as usize].add(position, effect.other_change);
        }
        if op.kind == Kind::Cancel {
            self.mark(op, 0, position);
        }
    }

    /// Changes the position of a target's first cancellation, where it is this one.
    fn mark(&mut self, cancel: &Op, from: u32, to: u32) {
        let Some(position) = self.position(usize::from(cancel.target_row), cancel.target_number) else {
            return;
        };
        let entry = &mut self.entries[position as usize - 1];
        if entry.cancelled_at == from {
            entry.cancelled_at = to;
        }
    }

    /// Takes off the last operation. Of the effect only its accounts count.
    pub fn undo(&mut self, bank: &Bank, ops: &Ops) {
        let Some(entry) = self.entries.last().copied() else {
            return;
        };
        let (op, position) = (ops.get(entry.op), self.entries.len() as u32);
        let effect = self.effect(ops, op);
        for account in [effect.account, effect.other] {
            if account != NOWHERE {
                self.accounts[account as usize].undo(bank.accounts.starts()[account as usize]);
            }
        }
        if op.kind == Kind::Cancel {
            self.mark(op, position, 0);
        }
        self.entries.pop();
        self.clock[usize::from(op.row)] -= 1;
        self.rows[usize::from(op.row)].pop();
    }
}

fn target_of(op: &Op) -> Name {
    Name { row: u32::from(op.target_row), number: op.target_number }
}

/// Whether the target is of a kind that may be cancelled, with the cancellation's account and amount.
fn may_cancel(cancel: &Op, target: &Op) -> bool {
    target.kind.may_be_cancelled() && target.account == cancel.account && target.amount == cancel.amount
}
