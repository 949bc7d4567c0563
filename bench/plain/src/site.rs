//! One site of the bank, one event at a time.

use crate::bank::{Bank, Cause, Name, Op, Refusal, TokenMessage};
use crate::inbox::{Held, Inbox};
use crate::kinds::{Kind, Plan, Request};
use crate::ledger::Ledger;
use crate::ops::Ops;

/// The most requests of a batch.
const MOST_REQUESTS: usize = 16;

/// What a site answers.
#[derive(Clone, Copy)]
pub enum Reply {
    /// The operation at this place among all was made.
    Made(u32),
    /// The last operations of the ledger were made, so many.
    Names(usize),
    Held(Name),
    Already(Name),
    Taken(u32),
    Stale(u32),
    Applied(Name),
    /// The token was sent.
    Passed(TokenMessage),
    Balance(u64),
    /// The statement of this account.
    Statement(u32),
    Refused(Refusal),
}

impl From<Result<Reply, Refusal>> for Reply {
    fn from(answer: Result<Reply, Refusal>) -> Reply {
        answer.unwrap_or_else(Reply::Refused)
    }
}

pub struct Site {
    me: u8,
    pub ledger: Ledger,
    inbox: Inbox,
    epoch: u32,
    has_token: bool,
    /// How many red operations it needs to have applied before it makes one.
    needed: u32,
    /// The entries of its history.
    recorded: u32,
}

impl Site {
    pub fn new(bank: &Bank, me: u8) -> Site {
        Site {
            me,
            ledger: Ledger::new(bank),
            inbox: Inbox::new(bank),
            epoch: 0,
            has_token: me == 0,
            needed: 0,
            recorded: 0,
        }
    }

    /// All sites of a bank.
    pub fn all(bank: &Bank) -> Vec<Site> {
        (0..bank.sites).map(|me| Site::new(bank, me)).collect()
    }

    /// Adds an entry to the history, or says that it is full.
    #[inline]
    pub fn record(&mut self, bank: &Bank) -> Result<(), Refusal> {
        if self.recorded >= bank.limits.history {
            return Err(Refusal::HISTORY_FULL);
        }
        self.recorded += 1;
        Ok(())
    }

    /// Makes the operation that is asked for.
    #[inline]
    pub fn submit(&mut self, bank: &Bank, ops: &mut Ops, request: &Request) -> Result<Reply, Refusal> {
        let planned = self.plan(bank, ops, request)?;
        Ok(Reply::Made(self.make(bank, ops, planned)?))
    }

    /// Makes the operations of all requests, or none.
    pub fn batch(&mut self, bank: &Bank, ops: &mut Ops, requests: &[Request]) -> Result<Reply, Refusal> {
        if !(1..=MOST_REQUESTS).contains(&requests.len()) {
            return Err(Refusal::BAD_BATCH);
        }
        let before = (self.ledger.len(), ops.len());
        for (index, request) in requests.iter().enumerate() {
            if let Err(cause) = self.make_in_batch(bank, ops, request) {
                while self.ledger.len() > before.0 {
                    self.ledger.undo(bank, ops);
                }
                ops.truncate(before.1);
                return Err(Refusal::BatchRefused { index: index as u32, cause });
            }
        }
        Ok(Reply::Names(requests.len()))
    }

    fn make_in_batch(&mut self, bank: &Bank, ops: &mut Ops, request: &Request) -> Result<(), Cause> {
        let refused = |why: Refusal| Cause::Refused(why.number());
        let planned = self.plan(bank, ops, request).map_err(refused)?;
        if planned.kind == Kind::Declined {
            return Err(Cause::Declined);
        }
        self.make(bank, ops, planned).map_err(refused)?;
        Ok(())
    }

    /// The operation that a request makes, still without its name.
    #[inline]
    fn plan(&self, bank: &Bank, ops: &Ops, request: &Request) -> Result<Op, Refusal> {
        Plan { bank, ops, ledger: &self.ledger, me: self.me }.of(request)
    }

    /// Makes a planned operation, which gets the next name of its colour, and applies it. Gives its place among all.
    #[inline]
    fn make(&mut self, bank: &Bank, ops: &mut Ops, mut op: Op) -> Result<u32, Refusal> {
        let is_red = self.is_red(ops, &op);
        op.row = if is_red { 0 } else { self.me + 1 };
        op.number = self.ledger.clock()[usize::from(op.row)] + 1;
        if op.number > bank.limits.most_in_row(op.row.into()) {
            return Err(Refusal::NUMBERS_EXHAUSTED);
        }
        let effect = self.ledger.effect(ops, &op);
        if is_red {
            self.may_make_red()?;
            if op.kind == Kind::Cancel && self.ledger.overdraws(&effect) {
                return Err(Refusal::WOULD_OVERDRAW);
            }
        }
        let place = ops.add(op, self.ledger.clock());
        self.ledger.apply(place, &op, &effect);
        Ok(place)
    }

    /// Whether an operation takes from an account.
    fn is_red(&self, ops: &Ops, op: &Op) -> bool {
        if op.kind != Kind::Cancel {
            return op.kind.takes();
        }
        let target = Name { row: u32::from(op.target_row), number: op.target_number };
        self.ledger.find(target).is_none_or(|(place, _)| !ops.get(place).kind.only_takes())
    }

    fn may_make_red(&self) -> Result<(), Refusal> {
        if !self.has_token {
            return Err(Refusal::NEED_TOKEN);
        }
        let seen = self.ledger.reds();
        if seen < self.needed {
            return Err(Refusal::RedBehind { seen, needed: self.needed });
        }
        Ok(())
    }

    /// Receives an operation that is sound by itself, by its place among all.
    #[inline]
    pub fn receive(&mut self, bank: &Bank, ops: &Ops, place: u32) -> Result<Reply, Refusal> {
        let op = ops.get(place);
        let name = op.name();
        let if_same = |known: u32| if known == place { Ok(Reply::Already(name)) } else { Err(Refusal::CONFLICT) };
        if self.ledger.has(op.row, op.number) {
            return self.ledger.find(name).map_or(Err(Refusal::CONFLICT), |(known, _)| if_same(known));
        }
        if op.home == self.me {
            return Err(Refusal::CONFLICT);
        }
        let row = usize::from(op.row);
        match self.inbox.find(row, op.number) {
            Ok(at) => if_same(self.inbox.get(row, at)),
            Err(at) => {
                let is_full = self.inbox.len() >= bank.limits.inbox as usize;
                if is_full && !self.ledger.covers(ops.clock(place)) {
                    return Err(Refusal::INBOX_FULL);
                }
                self.inbox.put(row, at, Held { number: op.number, op: place });
                Ok(Reply::Held(name))
            }
        }
    }

    /// Applies a held operation.
    #[inline]
    pub fn apply(&mut self, ops: &Ops, name: Name) -> Result<Reply, Refusal> {
        let row = name.row as usize;
        let Ok(at) = self.inbox.find(row, name.number) else {
            return Err(Refusal::NOT_HELD);
        };
        let place = self.inbox.get(row, at);
        if !self.ledger.covers(ops.clock(place)) {
            return Err(Refusal::NOT_READY);
        }
        let op = ops.get(place);
        let effect = self.ledger.effect(ops, op);
        let refusal = match self.ledger.find(name) {
            Some((known, _)) if known == place => return Err(Refusal::NOT_READY),
            Some(_) => Some(Refusal::CONFLICT),
            None => self.ledger.refusal_of(ops, op, &effect),
        };
        self.inbox.take(row, at);
        if let Some(refusal) = refusal {
            return Err(refusal);
        }
        self.ledger.apply(place, op, &effect);
        Ok(Reply::Applied(name))
    }

    /// A held operation whose past was applied, if there is one.
    pub fn ready(&self, ops: &Ops) -> Option<Name> {
        let place = self.inbox.fronts().find(|place| self.ledger.covers(ops.clock(*place)))?;
        Some(ops.get(place).name())
    }

    /// Receives a token.
    pub fn receive_token(&mut self, bank: &Bank, token: TokenMessage) -> Result<Reply, Refusal> {
        if token.to != self.me {
            return Err(Refusal::NOT_YOURS);
        }
        if token.epoch > bank.limits.epoch || token.red > bank.limits.red {
            return Err(Refusal::BadMessage { why: 2 });
        }
        if token.epoch <= self.epoch {
            return Ok(Reply::Stale(token.epoch));
        }
        (self.epoch, self.has_token, self.needed) = (token.epoch, true, token.red);
        Ok(Reply::Taken(token.epoch))
    }

    /// Sends the token to another site.
    pub fn pass(&mut self, bank: &Bank, to: u8) -> Result<Reply, Refusal> {
        if to >= bank.sites || to == self.me {
            return Err(Refusal::NO_SITE);
        }
        if self.epoch >= bank.limits.epoch {
            return Err(Refusal::NUMBERS_EXHAUSTED);
        }
        if !self.has_token {
            return Err(Refusal::NEED_TOKEN);
        }
        (self.epoch, self.has_token) = (self.epoch + 1, false);
        let red = self.needed.max(self.ledger.reds());
        Ok(Reply::Passed(TokenMessage { epoch: self.epoch, to, red }))
    }

    #[inline]
    pub fn balance(&self, bank: &Bank, account: u32) -> Result<Reply, Refusal> {
        bank.known(account)?;
        Ok(Reply::Balance(self.ledger.balance(account)))
    }

    pub fn balance_as_of(&self, bank: &Bank, account: u32, position: u32) -> Result<Reply, Refusal> {
        bank.known(account)?;
        if position as usize > self.ledger.len() {
            return Err(Refusal::POSITION_BEYOND);
        }
        Ok(Reply::Balance(self.ledger.balance_as_of(bank, account, position)))
    }

    pub fn statement(&self, bank: &Bank, account: u32) -> Result<Reply, Refusal> {
        bank.known(account)?;
        Ok(Reply::Statement(account))
    }
}
