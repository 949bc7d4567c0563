//! Lines of configurations, with their keys in order and no space.

use crate::bank::{Bank, Limits};
use crate::scan::Scan;
use crate::write::Out;

impl Scan<'_> {
    /// The configuration of a whole line with its line feed.
    pub fn config(&mut self) -> Option<Bank> {
        self.expect(b"{\"accounts\":[")?;
        let accounts = self.accounts()?;
        let most = Limits::LARGEST;
        let limits = Limits {
            blue: self.limit(b"blue\":", most.blue)?,
            epoch: self.limit(b"epoch\":", most.epoch)?,
            history: self.limit(b"history\":", most.history)?,
            inbox: self.limit(b"inbox\":", most.inbox)?,
            red: self.limit(b"red\":", most.red)?,
        };
        self.expect(b",\"sites\":")?;
        let sites = self.byte()?;
        self.expect(b",\"version\":")?;
        let version = self.byte()?;
        self.expect(b"}\n")?;
        Bank::new(accounts, sites, version, limits)
    }

    /// A limit, which is the largest where its key isn't there.
    fn limit<const N: usize>(&mut self, key: &[u8; N], most: u32) -> Option<u32> {
        let before = *self;
        if self.take(b",\"") && self.take(key) {
            return self.word();
        }
        *self = before;
        Some(most)
    }
}

impl<'a> Scan<'a> {
    /// The names and the starting balances, and the bracket behind them.
    fn accounts(&mut self) -> Option<Vec<(&'a [u8], u64)>> {
        let mut accounts = Vec::new();
        if self.take(b"]") {
            return Some(accounts);
        }
        loop {
            self.expect(b"[")?;
            let name = self.text()?;
            self.expect(b",")?;
            let start = self.number()?;
            self.expect(b"]")?;
            accounts.push((name, start));
            if self.take(b"]") {
                return Some(accounts);
            }
            self.expect(b",")?;
        }
    }
}

/// Writes a configuration with all its keys, in a version of the lines.
pub fn write_config(out: &mut Out, bank: &Bank, version: u8) {
    out.bytes(b"{\"accounts\":[");
    let starts = bank.accounts.names().iter().zip(bank.accounts.starts());
    for (at, (name, start)) in starts.enumerate() {
        out.bytes(if at > 0 { b",[\"" } else { b"[\"" });
        out.bytes(name);
        out.piece(|piece| {
            piece.text(b"\",");
            piece.number(*start);
            piece.text(b"]");
        });
    }
    let limits = bank.limits;
    out.piece(|piece| {
        piece.text(b"],\"blue\":");
        piece.number(limits.blue.into());
        piece.text(b",\"epoch\":");
        piece.number(limits.epoch.into());
        piece.text(b",\"history\":");
        piece.number(limits.history.into());
        piece.text(b",\"inbox\":");
        piece.number(limits.inbox.into());
        piece.text(b",\"red\":");
        piece.number(limits.red.into());
        piece.text(b",\"sites\":");
        piece.number(bank.sites.into());
        piece.text(b",\"version\":");
        piece.number(version.into());
        piece.text(b"}\n");
    });
}
