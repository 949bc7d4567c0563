//! Replies in lines of histories: whether a text is one.

use crate::bank::is_plain_refusal;
use crate::scan::Scan;

impl Scan<'_> {
    /// A reply, from its first brace to its last.
    pub fn reply(&mut self) -> Option<()> {
        self.expect(b"{\"")?;
        match self.peek()? {
            b'a' if self.take(b"applied\":") => self.name().map(drop)?,
            b'a' => {
                self.expect(b"already\":")?;
                self.name()?;
            }
            b'b' => self.balance()?,
            b'c' => self.batch_refused()?,
            b'h' => {
                self.expect(b"held\":")?;
                self.name()?;
            }
            b'k' => {
                self.expect(b"kind\":\"")?;
                self.kind()?;
                self.expect(b",\"name\":")?;
                self.name()?;
            }
            b'n' if self.take(b"needed\":") => self.red_behind()?,
            b'n' => self.names()?,
            b'p' => self.passed_or_cancelled()?,
            b'r' => self.refused()?,
            b's' => {
                self.expect(b"stale\":")?;
                self.word()?;
            }
            _ => {
                self.expect(b"taken\":")?;
                self.word()?;
            }
        }
        self.expect(b"}")
    }

    fn names(&mut self) -> Option<()> {
        self.expect(b"names\":[")?;
        if self.take(b"]") {
            return Some(());
        }
        loop {
            self.name()?;
            if self.take(b"]") {
                return Some(());
            }
            self.expect(b",")?;
        }
    }

    /// A balance, or a statement.
    fn balance(&mut self) -> Option<()> {
        self.expect(b"balance\":")?;
        self.number()?;
        if !self.take(b",\"rows\":[") {
            return Some(());
        }
        if !self.take(b"]") {
            self.rows()?;
        }
        self.expect(b",\"start\":")?;
        self.number().map(drop)
    }

    /// The rows of a statement, and the bracket behind them.
    fn rows(&mut self) -> Option<()> {
        loop {
            self.row()?;
            if self.take(b"]") {
                return Some(());
            }
            self.expect(b",")?;
        }
    }

    fn row(&mut self) -> Option<()> {
        self.expect(b"[")?;
        self.word()?;
        self.expect(b",")?;
        self.name()?;
        self.expect(b",\"")?;
        self.kind()?;
        self.expect(b",")?;
        self.integer()?;
        if !self.take(b",true,") {
            self.expect(b",false,")?;
        }
        self.number()?;
        self.expect(b"]")
    }

    fn passed_or_cancelled(&mut self) -> Option<()> {
        if self.take(b"passed\":") {
            return self.word().map(drop);
        }
        self.expect(b"position\":")?;
        self.word()?;
        self.expect(b",\"refused\":6")
    }

    fn red_behind(&mut self) -> Option<()> {
        self.word()?;
        self.expect(b",\"refused\":9,\"seen\":")?;
        self.word().map(drop)
    }

    fn batch_refused(&mut self) -> Option<()> {
        self.expect(b"cause\":")?;
        if !self.take(b"\"declined\"") {
            self.byte()?;
        }
        self.expect(b",\"index\":")?;
        self.byte()?;
        self.expect(b",\"refused\":13")
    }

    fn refused(&mut self) -> Option<()> {
        self.expect(b"refused\":")?;
        match self.word()? {
            17 => {
                self.expect(b",\"why\":")?;
                self.byte().map(drop)
            }
            number => is_plain_refusal(number).then_some(()),
        }
    }
}
