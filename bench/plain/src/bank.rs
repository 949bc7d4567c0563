//! What a configuration fixes, and the words that all parts share: names, operations, refusals.

use crate::kinds::Kind;

/// The place of an account that the configuration doesn't have.
pub const NOWHERE: u32 = 0xffff;

/// The most cents of an amount, of interest and of a starting balance.
pub const MOST_CENTS: u64 = 100_000_000_000;

/// The most sites of a bank.
pub const MOST_SITES: usize = 16;

/// The entries of the longest clock: the red operations, and then each site's blue ones.
pub const MOST_ROWS: usize = MOST_SITES + 1;

/// The name of an operation: its row, 0 for red ones and else the site's number and 1, and its number in the row.
#[derive(Clone, Copy, PartialEq, Eq, Debug)]
pub struct Name {
    pub row: u32,
    pub number: u32,
}

/// An operation without its clock. A transfer has the account that it goes to, a cancellation its target's name.
#[derive(Clone, Copy, PartialEq, Eq, Debug)]
pub struct Op {
    pub amount: u64,
    pub number: u32,
    pub target_number: u32,
    pub account: u16,
    pub to: u16,
    pub row: u8,
    pub target_row: u8,
    pub home: u8,
    pub kind: Kind,
}

impl Op {
    pub fn name(&self) -> Name {
        Name { row: u32::from(self.row), number: self.number }
    }
}

/// The token on its way.
#[derive(Clone, Copy, PartialEq, Eq, Hash, Debug)]
pub struct TokenMessage {
    pub epoch: u32,
    pub to: u8,
    pub red: u32,
}

/// What stopped a batch.
#[derive(Clone, Copy, PartialEq, Eq, Debug)]
pub enum Cause {
    Declined,
    Refused(u32),
}

/// Why a site refuses. Most are their numbers alone.
#[derive(Clone, Copy, PartialEq, Eq, Debug)]
pub enum Refusal {
    Plain(u32),
    AlreadyCancelled { position: u32 },
    RedBehind { seen: u32, needed: u32 },
    BatchRefused { index: u32, cause: Cause },
    BadMessage { why: u32 },
}

impl Refusal {
    pub const UNKNOWN_ACCOUNT: Refusal = Refusal::Plain(1);
    pub const BAD_AMOUNT: Refusal = Refusal::Plain(2);
    pub const BAD_RATE: Refusal = Refusal::Plain(3);
    pub const UNKNOWN_OPERATION: Refusal = Refusal::Plain(4);
    pub const NOT_CANCELLABLE: Refusal = Refusal::Plain(5);
    pub const NUMBERS_EXHAUSTED: Refusal = Refusal::Plain(7);
    pub const NEED_TOKEN: Refusal = Refusal::Plain(8);
    pub const WOULD_OVERDRAW: Refusal = Refusal::Plain(10);
    pub const DELTA_TOO_LARGE: Refusal = Refusal::Plain(11);
    pub const BAD_BATCH: Refusal = Refusal::Plain(12);
    pub const NOT_HELD: Refusal = Refusal::Plain(14);
    pub const NOT_READY: Refusal = Refusal::Plain(15);
    pub const INBOX_FULL: Refusal = Refusal::Plain(16);
    pub const CONFLICT: Refusal = Refusal::Plain(18);
    pub const NO_MESSAGE: Refusal = Refusal::Plain(19);
    pub const NO_SITE: Refusal = Refusal::Plain(20);
    pub const NOT_YOURS: Refusal = Refusal::Plain(21);
    pub const POSITION_BEYOND: Refusal = Refusal::Plain(22);
    pub const HISTORY_FULL: Refusal = Refusal::Plain(23);
    pub const SAME_ACCOUNT: Refusal = Refusal::Plain(24);

    pub fn number(self) -> u32 {
        match self {
            Refusal::Plain(number) => number,
            Refusal::AlreadyCancelled { .. } => 6,
            Refusal::RedBehind { .. } => 9,
            Refusal::BatchRefused { .. } => 13,
            Refusal::BadMessage { .. } => 17,
        }
    }
}

/// Whether a refusal of this number is written as the number alone.
pub fn is_plain_refusal(number: u32) -> bool {
    (1..=24).contains(&number) && !matches!(number, 6 | 9 | 13 | 17)
}

/// The numbers that a configuration may lower.
#[derive(Clone, Copy, Debug)]
pub struct Limits {
    pub blue: u32,
    pub red: u32,
    pub inbox: u32,
    pub history: u32,
    pub epoch: u32,
}

impl Limits {
    pub const LARGEST: Limits =
        Limits { blue: 1_000_000, red: 1_000_000, inbox: 4_096, history: 100_000_000, epoch: 4_000_000_000 };

    /// Whether each is at least 1 and at most the largest.
    fn are_fine(&self) -> bool {
        let most = Limits::LARGEST;
        let within = |limit: u32, most: u32| (1..=most).contains(&limit);
        within(self.blue, most.blue)
            && within(self.red, most.red)
            && within(self.inbox, most.inbox)
            && within(self.history, most.history)
            && within(self.epoch, most.epoch)
    }

    /// The greatest number of a name in a row.
    pub fn most_in_row(&self, row: u32) -> u32 {
        if row == 0 { self.red } else { self.blue }
    }
}

/// What a name is looked up by: its last eight bytes, which are all of most names.
#[derive(Clone, Copy, PartialEq, Eq)]
pub struct Key(u64);

impl Key {
    pub const EMPTY: Key = Key(0);

    #[inline(always)]
    pub fn with(self, byte: u8) -> Key {
        Key(self.0 << 8 | u64::from(byte))
    }

    fn of(name: &[u8]) -> Key {
        name.iter().fold(Key::EMPTY, |key, byte| key.with(*byte))
    }

    /// Where a table of 2^bits slots has the key first.
    #[inline(always)]
    fn slot(self, shift: u32) -> usize {
        (self.0.wrapping_mul(0x9e37_79b9_7f4a_7c15) >> shift) as usize
    }
}

/// A slot of the table: a name's key and its length, and its account's place, or `NOWHERE`.
#[derive(Clone, Copy)]
struct Slot {
    key: Key,
    length: u32,
    place: u32,
}

/// The accounts in order of place, with a table by their names' keys. At most half of the table is used.
pub struct Accounts {
    names: Vec<Box<[u8]>>,
    starts: Vec<u64>,
    table: Vec<Slot>,
    shift: u32,
}

impl Accounts {
    /// The accounts of these names and starting balances, where the names are fine and each is there once.
    fn new(given: Vec<(&[u8], u64)>) -> Option<Accounts> {
        let bits = (2 * given.len()).next_power_of_two().trailing_zeros().max(4);
        let table = vec![Slot { key: Key::EMPTY, length: 0, place: NOWHERE }; 1 << bits];
        let mut made = Accounts { names: Vec::new(), starts: Vec::new(), table, shift: 64 - bits };
        for (name, start) in given {
            if !is_account_name(name) || start > MOST_CENTS {
                return None;
            }
            let key = Key::of(name);
            let slot = made.slot(name, key);
            if made.table[slot].place != NOWHERE {
                return None;
            }
            made.table[slot] = Slot { key, length: name.len() as u32, place: made.names.len() as u32 };
            made.names.push(name.into());
            made.starts.push(start);
        }
        Some(made)
    }

    /// Where the table has the name, or a free slot where it isn't there.
    fn slot(&self, name: &[u8], key: Key) -> usize {
        let mut at = key.slot(self.shift);
        loop {
            let slot = &self.table[at];
            let is_same = || slot.key == key && *self.names[slot.place as usize] == *name;
            if slot.place == NOWHERE || is_same() {
                return at;
            }
            at = (at + 1) & (self.table.len() - 1);
        }
    }

    /// The place of the account of the name, or `NOWHERE`. Most names are short and in their first slots.
    #[inline(always)]
    pub fn place(&self, name: &[u8], key: Key) -> u32 {
        let first = &self.table[key.slot(self.shift)];
        if first.key == key && first.length as usize == name.len() && name.len() <= 8 {
            return first.place;
        }
        self.table[self.slot(name, key)].place
    }

    pub fn len(&self) -> usize {
        self.names.len()
    }

    pub fn names(&self) -> &[Box<[u8]>] {
        &self.names
    }

    pub fn starts(&self) -> &[u64] {
        &self.starts
    }
}

fn is_account_name(name: &[u8]) -> bool {
    (1..=32).contains(&name.len())
        && name.iter().all(|byte| matches!(byte, b'a'..=b'z' | b'0'..=b'9' | b'.' | b'_' | b'-'))
}

/// A configuration.
pub struct Bank {
    pub accounts: Accounts,
    pub sites: u8,
    pub version: u8,
    pub limits: Limits,
}

impl Bank {
    /// The configuration of these parts, where they are within their ranges.
    pub fn new(accounts: Vec<(&[u8], u64)>, sites: u8, version: u8, limits: Limits) -> Option<Bank> {
        let most_sites = match version {
            1 => 8,
            2 => MOST_SITES as u8,
            _ => return None,
        };
        if !(2..=most_sites).contains(&sites) || !(1..=1000).contains(&accounts.len()) || !limits.are_fine() {
            return None;
        }
        Some(Bank { accounts: Accounts::new(accounts)?, sites, version, limits })
    }

    pub fn has(&self, account: u32) -> bool {
        (account as usize) < self.accounts.len()
    }

    /// Refuses an account that it doesn't have.
    pub fn known(&self, account: u32) -> Result<(), Refusal> {
        if self.has(account) { Ok(()) } else { Err(Refusal::UNKNOWN_ACCOUNT) }
    }

    /// The entries of a clock: the red operations, and then each site's blue ones.
    pub fn rows(&self) -> usize {
        usize::from(self.sites) + 1
    }
}
