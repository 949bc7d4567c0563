//! Lines of commands, and the events of histories.

use crate::bank::{Bank, MOST_CENTS, MOST_ROWS, MOST_SITES, NOWHERE, Name, Op, TokenMessage};
use crate::kinds::{Kind, Request};
use crate::scan::Scan;
use std::ops::Range;

/// What happens at a site.
#[derive(Clone, Copy)]
pub enum Event {
    Submit(Request),
    /// The requests are beside the event.
    Batch,
    Apply(Name),
    Pass(u8),
    Balance(u32),
    AsOf(u32, u32),
    Statement(u32),
    /// A message comes, by its number.
    Deliver(u32),
    /// An operation comes, which is beside the event.
    Shadow,
    Token(TokenMessage),
}

/// An operation that comes from elsewhere, as its line has it.
pub struct Shadow {
    pub name: Name,
    pub home: u8,
    pub account: u32,
    pub amount: u64,
    pub kind: Kind,
    pub to: u32,
    pub target: Name,
    /// The red operations, and then the blue ones of each site that there may be.
    pub clock: [u32; MOST_ROWS],
    /// Where the clock is in the line, by how many bytes come behind its end and its start.
    pub clock_at: Range<usize>,
}

const NO_NAME: Name = Name { row: 0, number: 0 };

impl Shadow {
    fn new() -> Shadow {
        Shadow {
            name: NO_NAME,
            home: 0,
            account: NOWHERE,
            amount: 0,
            kind: Kind::Deposit,
            to: NOWHERE,
            target: NO_NAME,
            clock: [0; MOST_ROWS],
            clock_at: 0..0,
        }
    }

    /// The entry of the clock for a name.
    fn entry(&self, name: Name) -> u32 {
        self.clock.get(name.row as usize).copied().unwrap_or(0)
    }

    /// The first thing that is wrong with the operation by itself.
    pub fn fault(&self, bank: &Bank) -> Option<u32> {
        let is_red = self.name.row == 0;
        let number = self.name.number;
        if self.home >= bank.sites || (!is_red && self.name.row != u32::from(self.home) + 1) {
            return Some(1);
        }
        if number == 0 || number > bank.limits.most_in_row(self.name.row) {
            return Some(2);
        }
        if !bank.has(self.account) || self.is_misdirected(bank) {
            return Some(3);
        }
        if self.amount > MOST_CENTS || (self.amount == 0 && !self.kind.may_be_nothing()) {
            return Some(4);
        }
        if self.kind != Kind::Cancel && is_red != self.kind.takes() {
            return Some(5);
        }
        if self.kind == Kind::Cancel && self.cancels_unseen(bank) {
            return Some(6);
        }
        (!self.is_clock(bank) || self.entry(self.name) + 1 != number).then_some(7)
    }

    fn is_misdirected(&self, bank: &Bank) -> bool {
        self.kind.has_receiver() && (!bank.has(self.to) || self.to == self.account)
    }

    fn cancels_unseen(&self, bank: &Bank) -> bool {
        let Name { row, number } = self.target;
        row as usize >= bank.rows() || number == 0 || number > self.entry(self.target)
    }

    /// Whether each entry is within its limit, and those past the sites are 0.
    fn is_clock(&self, bank: &Bank) -> bool {
        let (reds, blues) = (self.clock[0], &self.clock[1..bank.rows()]);
        reds <= bank.limits.red
            && blues.iter().all(|count| *count <= bank.limits.blue)
            && self.clock[bank.rows()..].iter().all(|count| *count == 0)
    }

    /// The operation, where nothing is wrong with it by itself.
    pub fn op(&self) -> Op {
        Op {
            amount: self.amount,
            number: self.name.number,
            target_number: self.target.number,
            account: self.account as u16,
            to: self.to as u16,
            row: self.name.row as u8,
            target_row: self.target.row as u8,
            home: self.home,
            kind: self.kind,
        }
    }
}

/// What is beside an event.
pub struct Parts {
    pub requests: Vec<Request>,
    pub shadow: Shadow,
    /// Where names of accounts are that the bank doesn't have, by how many bytes come behind their ends and starts.
    pub unknown: Vec<Range<usize>>,
}

impl Parts {
    pub fn new() -> Parts {
        Parts { requests: Vec::new(), shadow: Shadow::new(), unknown: Vec::new() }
    }
}

impl Scan<'_> {
    /// A command and its site, from a whole line with its line feed. The site comes first or last.
    #[inline(always)]
    pub fn command(&mut self, bank: &Bank, parts: &mut Parts) -> Option<(u8, Event)> {
        parts.unknown.clear();
        self.expect(b"{\"")?;
        if self.take(b"site\":") {
            let mut object = *self;
            let command = object.site_first(bank, parts)?;
            *self = object;
            return Some(command);
        }
        let event = self.event_at(bank, parts)?;
        self.expect(b",\"site\":")?;
        let site = self.byte()?;
        self.expect(b"}\n")?;
        Some((site, event))
    }

    /// A command whose site comes first, from its number on.
    fn site_first(&mut self, bank: &Bank, parts: &mut Parts) -> Option<(u8, Event)> {
        let site = self.byte()?;
        self.expect(b",\"")?;
        let event = self.event_at(bank, parts)?;
        self.expect(b"}\n")?;
        Some((site, event))
    }

    /// What a command has beside its site, from its key on.
    #[inline(always)]
    fn event_at(&mut self, bank: &Bank, parts: &mut Parts) -> Option<Event> {
        if self.take(b"deliver\":") {
            return Some(Event::Deliver(self.word()?));
        }
        self.made(bank, parts)
    }

    /// An event of a history, from its key on.
    #[inline(always)]
    pub fn recorded(&mut self, bank: &Bank, parts: &mut Parts) -> Option<Event> {
        if self.take(b"shadow\":") {
            let mut object = *self;
            object.shadow(bank, parts)?;
            *self = object;
            return Some(Event::Shadow);
        }
        if self.take(b"token\":[") {
            return self.token();
        }
        self.made(bank, parts)
    }

    /// An event that needs no message.
    #[inline(always)]
    fn made(&mut self, bank: &Bank, parts: &mut Parts) -> Option<Event> {
        match (self.peek()?, self.rest.get(1)?) {
            (b'a', b'p') => {
                self.expect(b"apply\":")?;
                Some(Event::Apply(self.name()?))
            }
            (b'a', _) => self.as_of(bank, parts),
            (b'b', b'a') if self.take(b"balance\":") => Some(Event::Balance(self.account(bank, parts)?)),
            (b'b', _) => {
                self.expect(b"batch\":")?;
                let mut list = *self;
                list.requests(bank, parts)?;
                *self = list;
                Some(Event::Batch)
            }
            (b'p', _) => {
                self.expect(b"pass\":")?;
                Some(Event::Pass(self.byte()?))
            }
            (b's', _) => {
                self.expect(b"statement\":")?;
                Some(Event::Statement(self.account(bank, parts)?))
            }
            _ => Some(Event::Submit(self.request(bank, parts)?)),
        }
    }

    #[inline(always)]
    fn as_of(&mut self, bank: &Bank, parts: &mut Parts) -> Option<Event> {
        self.expect(b"asof\":[")?;
        let account = self.account(bank, parts)?;
        self.expect(b",")?;
        let position = self.word()?;
        self.expect(b"]")?;
        Some(Event::AsOf(account, position))
    }

    /// The token on its way, behind its bracket.
    fn token(&mut self) -> Option<Event> {
        let epoch = self.word()?;
        self.expect(b",")?;
        let to = self.byte()?;
        self.expect(b",")?;
        let red = self.word()?;
        self.expect(b"]")?;
        Some(Event::Token(TokenMessage { epoch, to, red }))
    }

    /// An operation from elsewhere.
    fn shadow(&mut self, bank: &Bank, parts: &mut Parts) -> Option<()> {
        self.expect(b"{\"account\":")?;
        parts.shadow.account = self.account(bank, parts)?;
        let shadow = &mut parts.shadow;
        self.expect(b",\"amount\":")?;
        shadow.amount = self.number()?;
        self.expect(b",\"deps\":")?;
        let start = self.rest.len();
        self.clock(bank.version, &mut shadow.clock)?;
        shadow.clock_at = self.rest.len()..start;
        self.expect(b",\"home\":")?;
        shadow.home = self.byte()?;
        self.expect(b",\"kind\":\"")?;
        shadow.kind = self.kind()?;
        self.expect(b",\"name\":")?;
        shadow.name = self.name()?;
        (shadow.to, shadow.target) = (NOWHERE, NO_NAME);
        if shadow.kind == Kind::Cancel {
            self.expect(b",\"target\":")?;
            shadow.target = self.name()?;
        }
        if shadow.kind.has_receiver() {
            self.expect(b",\"to\":")?;
            parts.shadow.to = self.account(bank, parts)?;
        }
        self.expect(b"}")
    }

    /// A clock, in a version of the lines.
    fn clock(&mut self, version: u8, clock: &mut [u32; MOST_ROWS]) -> Option<()> {
        self.expect(b"[[")?;
        *clock = [0; MOST_ROWS];
        if version == 1 {
            self.counts(clock)?;
        } else {
            self.pairs(clock)?;
        }
        self.expect(b",")?;
        clock[0] = self.word()?;
        self.expect(b"]")
    }

    /// Eight counts, and the bracket behind them.
    fn counts(&mut self, clock: &mut [u32; MOST_ROWS]) -> Option<()> {
        clock[1] = self.word()?;
        for count in &mut clock[2..9] {
            self.expect(b",")?;
            *count = self.word()?;
        }
        self.expect(b"]")
    }

    /// Pairs of rising sites and counts above 0, and the bracket behind them.
    fn pairs(&mut self, clock: &mut [u32; MOST_ROWS]) -> Option<()> {
        if self.take(b"]") {
            return Some(());
        }
        let mut least = 0;
        loop {
            self.expect(b"[")?;
            let site = usize::from(self.byte()?);
            self.expect(b",")?;
            let count = self.word()?;
            self.expect(b"]")?;
            if site < least || site >= MOST_SITES || count == 0 {
                return None;
            }
            (clock[site + 1], least) = (count, site + 1);
            if self.take(b"]") {
                return Some(());
            }
            self.expect(b",")?;
        }
    }
}
