//! The kinds of operations and their requests: what each moves, how it is spelled, what a site makes of it.

use crate::bank::{Bank, MOST_CENTS, NOWHERE, Name, Op, Refusal};
use crate::event::Parts;
use crate::ledger::Ledger;
use crate::ops::Ops;
use crate::scan::Scan;
use crate::write::Piece;

/// The most basis points of interest, which are also all.
const MOST_RATE: u32 = 10_000;

#[derive(Clone, Copy, PartialEq, Eq, Debug)]
pub enum Kind {
    Deposit,
    Withdraw,
    Declined,
    Interest,
    Cancel,
    Transfer,
}

impl Kind {
    /// What an operation of this amount moves on its account and on its second one. A cancellation's target tells.
    #[inline(always)]
    pub fn moved(self, amount: i64) -> (i64, i64) {
        match self {
            Kind::Deposit | Kind::Interest => (amount, 0),
            Kind::Withdraw => (-amount, 0),
            Kind::Transfer => (-amount, amount),
            Kind::Declined | Kind::Cancel => (0, 0),
        }
    }

    /// Whether an operation of the kind takes from an account.
    #[inline(always)]
    pub fn takes(self) -> bool {
        self.moved(1).0 < 0
    }

    /// Whether it has a second account.
    #[inline(always)]
    pub fn has_receiver(self) -> bool {
        self.moved(1).1 != 0
    }

    /// Whether its cancellation takes from no account.
    #[inline(always)]
    pub fn only_takes(self) -> bool {
        self.takes() && !self.has_receiver()
    }

    /// Whether it may be cancelled.
    pub fn may_be_cancelled(self) -> bool {
        !matches!(self, Kind::Declined | Kind::Cancel)
    }

    /// Whether it may be of no cents.
    pub fn may_be_nothing(self) -> bool {
        matches!(self, Kind::Interest | Kind::Cancel)
    }
}

/// What a client asks for.
#[derive(Clone, Copy, Debug)]
pub enum Request {
    Deposit { account: u32, amount: u64 },
    Withdraw { account: u32, amount: u64 },
    Interest { account: u32, rate: u32 },
    Cancel { target: Name },
    Transfer { from: u32, to: u32, amount: u64 },
}

impl Scan<'_> {
    /// A kind's word behind its first quote, with its last one.
    #[inline]
    pub fn kind(&mut self) -> Option<Kind> {
        match self.peek()? {
            b'd' if self.take(b"deposit\"") => Some(Kind::Deposit),
            b'd' => self.expect(b"declined\"").map(|()| Kind::Declined),
            b'w' => self.expect(b"withdraw\"").map(|()| Kind::Withdraw),
            b'i' => self.expect(b"interest\"").map(|()| Kind::Interest),
            b'c' => self.expect(b"cancel\"").map(|()| Kind::Cancel),
            _ => self.expect(b"transfer\"").map(|()| Kind::Transfer),
        }
    }

    /// A request, from its key on.
    #[inline(always)]
    pub fn request(&mut self, bank: &Bank, parts: &mut Parts) -> Option<Request> {
        match self.peek()? {
            b'd' => {
                self.expect(b"deposit\":[")?;
                Some(Request::Deposit { account: self.account(bank, parts)?, amount: self.amount()? })
            }
            b'w' => {
                self.expect(b"withdraw\":[")?;
                Some(Request::Withdraw { account: self.account(bank, parts)?, amount: self.amount()? })
            }
            b'i' => {
                self.expect(b"interest\":[")?;
                let account = self.account(bank, parts)?;
                Some(Request::Interest { account, rate: u32::try_from(self.amount()?).ok()? })
            }
            b'c' => {
                self.expect(b"cancel\":")?;
                Some(Request::Cancel { target: self.name()? })
            }
            b't' => self.transfer(bank, parts),
            _ => None,
        }
    }

    #[inline(always)]
    fn transfer(&mut self, bank: &Bank, parts: &mut Parts) -> Option<Request> {
        self.expect(b"transfer\":[")?;
        let from = self.account(bank, parts)?;
        self.expect(b",")?;
        let to = self.account(bank, parts)?;
        Some(Request::Transfer { from, to, amount: self.amount()? })
    }

    /// A number in a list that ends with it.
    #[inline(always)]
    fn amount(&mut self) -> Option<u64> {
        self.expect(b",")?;
        let amount = self.number()?;
        self.expect(b"]")?;
        Some(amount)
    }
}

impl Piece<'_> {
    /// A kind's word.
    pub fn kind(&mut self, kind: Kind) {
        match kind {
            Kind::Deposit => self.text(b"deposit"),
            Kind::Withdraw => self.text(b"withdraw"),
            Kind::Declined => self.text(b"declined"),
            Kind::Interest => self.text(b"interest"),
            Kind::Cancel => self.text(b"cancel"),
            Kind::Transfer => self.text(b"transfer"),
        }
    }

    pub fn request(&mut self, bank: &Bank, request: Request) {
        match request {
            Request::Deposit { account, amount } => self.pair(b"\"deposit\":[", bank, account, amount),
            Request::Withdraw { account, amount } => self.pair(b"\"withdraw\":[", bank, account, amount),
            Request::Interest { account, rate } => self.pair(b"\"interest\":[", bank, account, rate.into()),
            Request::Cancel { target } => {
                self.text(b"\"cancel\":");
                self.name(target);
            }
            Request::Transfer { from, to, amount } => {
                self.text(b"\"transfer\":[");
                self.account(bank, from);
                self.text(b",");
                self.pair(b"", bank, to, amount);
            }
        }
    }

    /// A member whose value is an account and a number.
    fn pair<const N: usize>(&mut self, key: &[u8; N], bank: &Bank, account: u32, number: u64) {
        self.text(key);
        self.account(bank, account);
        self.text(b",");
        self.number(number);
        self.text(b"]");
    }
}

/// What a request is planned by: the bank, the operations, and what its site applied.
pub struct Plan<'a> {
    pub bank: &'a Bank,
    pub ops: &'a Ops,
    pub ledger: &'a Ledger,
    pub me: u8,
}

impl Plan<'_> {
    /// The operation that a request makes, still without its name.
    #[inline]
    pub fn of(&self, request: &Request) -> Result<Op, Refusal> {
        match *request {
            Request::Deposit { account, amount } => {
                self.bank.known(account)?;
                is_amount(amount)?;
                Ok(self.planned(account, amount, Kind::Deposit))
            }
            Request::Withdraw { account, amount } => {
                self.bank.known(account)?;
                is_amount(amount)?;
                Ok(self.planned(account, amount, self.if_covered(account, amount, Kind::Withdraw)))
            }
            Request::Interest { account, rate } => {
                self.bank.known(account)?;
                let amount = self.interest(account, rate)?;
                Ok(self.planned(account, amount, Kind::Interest))
            }
            Request::Cancel { target } => self.cancel(target),
            Request::Transfer { from, to, amount } => {
                self.bank.known(from)?;
                self.bank.known(to)?;
                is_amount(amount)?;
                self.transfer(from, to, amount)
            }
        }
    }

    fn planned(&self, account: u32, amount: u64, kind: Kind) -> Op {
        let (account, to) = (account as u16, NOWHERE as u16);
        Op { amount, number: 0, target_number: 0, account, to, row: 0, target_row: 0, home: self.me, kind }
    }

    /// The kind that was asked for, where the balance covers the amount.
    fn if_covered(&self, account: u32, amount: u64, kind: Kind) -> Kind {
        if self.ledger.balance(account) < amount { Kind::Declined } else { kind }
    }

    /// The balance's share, rounded down. The product is taken in two parts, as the whole of it can be over 64 bits.
    fn interest(&self, account: u32, rate: u32) -> Result<u64, Refusal> {
        if rate > MOST_RATE {
            return Err(Refusal::BAD_RATE);
        }
        let (balance, all, rate) = (self.ledger.balance(account), u64::from(MOST_RATE), u64::from(rate));
        let share = balance / all * rate + balance % all * rate / all;
        if share > MOST_CENTS {
            return Err(Refusal::DELTA_TOO_LARGE);
        }
        Ok(share)
    }

    fn transfer(&self, from: u32, to: u32, amount: u64) -> Result<Op, Refusal> {
        if from == to {
            return Err(Refusal::SAME_ACCOUNT);
        }
        let kind = self.if_covered(from, amount, Kind::Transfer);
        let to = if kind == Kind::Transfer { to } else { NOWHERE };
        Ok(Op { to: to as u16, ..self.planned(from, amount, kind) })
    }

    fn cancel(&self, target: Name) -> Result<Op, Refusal> {
        let Some((place, cancelled_at)) = self.ledger.find(target) else {
            return Err(Refusal::UNKNOWN_OPERATION);
        };
        let op = self.ops.get(place);
        if !op.kind.may_be_cancelled() {
            return Err(Refusal::NOT_CANCELLABLE);
        }
        if cancelled_at != 0 {
            return Err(Refusal::AlreadyCancelled { position: cancelled_at });
        }
        let planned = self.planned(op.account.into(), op.amount, Kind::Cancel);
        Ok(Op { target_row: op.row, target_number: op.number, ..planned })
    }
}

fn is_amount(amount: u64) -> Result<(), Refusal> {
    if (1..=MOST_CENTS).contains(&amount) { Ok(()) } else { Err(Refusal::BAD_AMOUNT) }
}
