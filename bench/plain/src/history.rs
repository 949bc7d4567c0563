//! A site's history as text: a line for each entry, as an audit reads it.

use crate::bank::{Bank, MOST_ROWS, NOWHERE, Name, Op, Refusal, TokenMessage};
use crate::kinds::Kind;
use crate::ledger::Ledger;
use crate::ops::Ops;
use crate::site::Reply;
use crate::threads::{Call, Message};
use crate::write::{Out, Piece};

/// The lines of a site.
pub struct History {
    me: u8,
    out: Out,
}

impl History {
    pub fn new(me: u8) -> History {
        History { me, out: Out::new(None) }
    }

    pub fn text(&self) -> &[u8] {
        self.out.kept()
    }

    pub fn call(&mut self, bank: &Bank, ops: &Ops, ledger: &Ledger, call: Call, reply: Result<Reply, Refusal>) {
        self.out.piece(|piece| {
            piece.text(b"{\"event\":{");
            match call {
                Call::Submit(request) => piece.request(bank, request),
                Call::Pass(to) => piece.member(b"\"pass\":", u64::from(to)),
            }
        });
        self.end(bank, ops, ledger, reply);
    }

    pub fn receive(
        &mut self,
        bank: &Bank,
        ops: &Ops,
        ledger: &Ledger,
        message: &Message,
        reply: Result<Reply, Refusal>,
    ) {
        self.out.piece(|piece| {
            piece.text(b"{\"event\":{");
            match message {
                Message::Operation(op, clock) => piece.shadow(bank, op, clock),
                Message::Token(token) => piece.token(token),
            }
        });
        self.end(bank, ops, ledger, reply);
    }

    pub fn apply(&mut self, bank: &Bank, ops: &Ops, ledger: &Ledger, name: Name, reply: Result<Reply, Refusal>) {
        self.out.piece(|piece| {
            piece.text(b"{\"event\":{\"apply\":");
            piece.name(name);
        });
        self.end(bank, ops, ledger, reply);
    }

    /// The reply, and the site.
    fn end(&mut self, bank: &Bank, ops: &Ops, ledger: &Ledger, reply: Result<Reply, Refusal>) {
        self.out.piece(|piece| piece.text(b"},\"reply\":"));
        match reply {
            Ok(reply) => self.out.reply(bank, ops, ledger, reply),
            Err(refusal) => self.out.piece(|piece| piece.refusal(refusal)),
        }
        let me = u64::from(self.me);
        self.out.piece(|piece| {
            piece.member(b",\"site\":", me);
            piece.text(b"}\n");
        });
    }
}

impl Piece<'_> {
    /// A member whose value is a number.
    fn member<const N: usize>(&mut self, key: &[u8; N], number: u64) {
        self.text(key);
        self.number(number);
    }

    /// An account's name, with its quotes.
    pub fn account(&mut self, bank: &Bank, account: u32) {
        self.text(b"\"");
        self.slice(&bank.accounts.names()[account as usize]);
        self.text(b"\"");
    }

    fn token(&mut self, token: &TokenMessage) {
        self.member(b"\"token\":[", token.epoch.into());
        self.member(b",", token.to.into());
        self.member(b",", token.red.into());
        self.text(b"]");
    }

    fn shadow(&mut self, bank: &Bank, op: &Op, clock: &[u32; MOST_ROWS]) {
        self.text(b"\"shadow\":{\"account\":");
        self.account(bank, op.account.into());
        self.member(b",\"amount\":", op.amount);
        self.text(b",\"deps\":");
        if bank.version == 1 {
            self.counts(clock);
        } else {
            self.clock(clock[0], &clock[1..]);
        }
        self.member(b",\"home\":", op.home.into());
        self.text(b",\"kind\":\"");
        self.kind(op.kind);
        self.text(b"\",\"name\":");
        self.name(op.name());
        if op.kind == Kind::Cancel {
            self.text(b",\"target\":");
            self.name(Name { row: op.target_row.into(), number: op.target_number });
        }
        if u32::from(op.to) != NOWHERE {
            self.text(b",\"to\":");
            self.account(bank, op.to.into());
        }
        self.text(b"}");
    }

    /// The counts of version 1: the blue operations of eight sites, and the red ones.
    fn counts(&mut self, clock: &[u32; MOST_ROWS]) {
        self.text(b"[[");
        self.number(clock[1].into());
        for count in &clock[2..9] {
            self.member(b",", (*count).into());
        }
        self.member(b"],", clock[0].into());
        self.text(b"]");
    }
}
