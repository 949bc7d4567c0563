//! What is written: bytes that wait for the output, and replies.

use crate::bank::{Bank, Cause, Name, Op, Refusal};
use crate::ledger::{Ledger, Row};
use crate::ops::Ops;
use crate::site::Reply;
use std::fs::File;
use std::io::Write;

/// The last four digits of a number.
#[inline(always)]
fn four_digits(number: u64) -> [u8; 4] {
    let (high, low) = (number as usize / 100 % 100, number as usize % 100);
    [PAIRS[high][0], PAIRS[high][1], PAIRS[low][0], PAIRS[low][1]]
}

/// What is written goes out once it has so many bytes, and before each read.
const MOST_WAITING: usize = 65_536;

/// The two digits of each number below 100.
const PAIRS: [[u8; 2]; 100] = pairs();

const fn pairs() -> [[u8; 2]; 100] {
    let mut pairs = [[0; 2]; 100];
    let mut n = 0;
    while n < 100 {
        pairs[n] = [b'0' + (n / 10) as u8, b'0' + (n % 10) as u8];
        n += 1;
    }
    pairs
}

/// The most bytes of a piece: of a reply without rows, or of a row. Sixteen names are the longest.
const MOST_OF_PIECE: usize = 512;

/// Bytes that wait for the output, if there is one; else they are kept.
pub struct Out {
    bytes: Vec<u8>,
    len: usize,
    file: Option<File>,
    pub failed: bool,
}

impl Out {
    pub fn new(file: Option<File>) -> Out {
        let size = if file.is_some() { MOST_WAITING } else { MOST_OF_PIECE };
        Out { bytes: vec![0; size], len: 0, file, failed: false }
    }

    /// What was written since it was cleared.
    pub fn kept(&self) -> &[u8] {
        &self.bytes[..self.len]
    }

    pub fn clear(&mut self) {
        self.len = 0;
    }

    /// Writes what waits.
    pub fn flush(&mut self) {
        if let Some(file) = &mut self.file
            && self.len > 0
        {
            self.failed |= file.write_all(&self.bytes[..self.len]).is_err();
            self.len = 0;
        }
    }

    /// Makes room for so many bytes more.
    #[cold]
    fn make_room(&mut self, count: usize) {
        self.flush();
        let wanted = self.len + count;
        if self.bytes.len() < wanted {
            self.bytes.resize(wanted.max(2 * self.bytes.len()), 0);
        }
    }

    /// Writes a piece.
    #[inline(always)]
    pub fn piece(&mut self, write: impl FnOnce(&mut Piece)) {
        if self.bytes.len() - self.len < MOST_OF_PIECE {
            self.make_room(MOST_OF_PIECE);
        }
        let mut piece = Piece { spare: &mut self.bytes[self.len..] };
        write(&mut piece);
        let spare = piece.spare.len();
        self.len = self.bytes.len() - spare;
    }

    /// Bytes of any number.
    pub fn bytes(&mut self, bytes: &[u8]) {
        if self.bytes.len() - self.len < bytes.len() {
            self.make_room(bytes.len());
        }
        self.bytes[self.len..][..bytes.len()].copy_from_slice(bytes);
        self.len += bytes.len();
    }

    /// A reply of a site with this ledger.
    #[inline(always)]
    pub fn reply(&mut self, bank: &Bank, ops: &Ops, ledger: &Ledger, reply: Reply) {
        if let Reply::Statement(account) = reply {
            return self.statement(bank, ops, ledger, account);
        }
        self.piece(|piece| match reply {
            Reply::Made(place) => piece.made(ops.get(place)),
            Reply::Names(count) => piece.names(ops, ledger, count),
            Reply::Held(name) => piece.named(b"{\"held\":", name),
            Reply::Already(name) => piece.named(b"{\"already\":", name),
            Reply::Taken(epoch) => piece.numbered(b"{\"taken\":", u64::from(epoch)),
            Reply::Stale(epoch) => piece.numbered(b"{\"stale\":", u64::from(epoch)),
            Reply::Applied(name) => piece.named(b"{\"applied\":", name),
            Reply::Passed(token) => piece.numbered(b"{\"passed\":", u64::from(token.epoch)),
            Reply::Balance(balance) => piece.numbered(b"{\"balance\":", balance),
            Reply::Statement(_) => {}
            Reply::Refused(refusal) => piece.refusal(refusal),
        });
    }

    fn statement(&mut self, bank: &Bank, ops: &Ops, ledger: &Ledger, account: u32) {
        self.piece(|piece| {
            piece.text(b"{\"balance\":");
            piece.number(ledger.balance(account));
            piece.text(b",\"rows\":[");
        });
        for (at, row) in ledger.statement(bank, ops, account).enumerate() {
            self.piece(|piece| {
                if at > 0 {
                    piece.text(b",");
                }
                piece.row(&row);
            });
        }
        self.piece(|piece| {
            piece.text(b"],\"start\":");
            piece.number(bank.accounts.starts()[account as usize]);
            piece.text(b"}");
        });
    }
}

/// The bytes behind what was written, of which there are enough for a piece.
pub struct Piece<'a> {
    spare: &'a mut [u8],
}

impl Piece<'_> {
    /// A text whose length is known.
    #[inline(always)]
    pub fn text<const N: usize>(&mut self, text: &[u8; N]) {
        if let Some((next, spare)) = std::mem::take(&mut self.spare).split_first_chunk_mut() {
            *next = *text;
            self.spare = spare;
        }
    }

    /// Bytes of any number that a piece may have.
    pub fn slice(&mut self, bytes: &[u8]) {
        let (next, spare) = std::mem::take(&mut self.spare).split_at_mut(bytes.len());
        next.copy_from_slice(bytes);
        self.spare = spare;
    }

    #[inline(always)]
    pub fn number(&mut self, number: u64) {
        if number < 10 {
            self.text(&[b'0' + number as u8]);
        } else {
            self.long_number(number);
        }
    }

    /// A number, four digits at a time.
    fn long_number(&mut self, number: u64) {
        if number >= 10_000 {
            self.number(number / 10_000);
            return self.text(&four_digits(number % 10_000));
        }
        let [a, b, c, d] = four_digits(number);
        match number {
            0..100 => self.text(&[c, d]),
            100..1000 => self.text(&[b, c, d]),
            _ => self.text(&[a, b, c, d]),
        }
    }

    /// A clock in version 2: the counts above 0 of blue operations, each behind its site's number, and the count of red
    /// ones.
    #[inline(always)]
    pub fn clock(&mut self, red: u32, blues: &[u32]) {
        self.text(b"[[");
        let mut is_first = true;
        for (site, count) in blues.iter().enumerate().filter(|(_, count)| **count > 0) {
            if !is_first {
                self.text(b",");
            }
            is_first = false;
            self.text(b"[");
            self.number(site as u64);
            self.text(b",");
            self.number(u64::from(*count));
            self.text(b"]");
        }
        self.text(b"],");
        self.number(u64::from(red));
        self.text(b"]");
    }

    fn integer(&mut self, number: i64) {
        if number < 0 {
            self.text(b"-");
        }
        self.number(number.unsigned_abs());
    }

    /// An operation's name with its quotes.
    #[inline(always)]
    pub fn name(&mut self, name: Name) {
        if name.row == 0 {
            self.text(b"\"R");
        } else {
            self.text(b"\"B");
            self.number(u64::from(name.row - 1));
            self.text(b".");
        }
        self.number(u64::from(name.number));
        self.text(b"\"");
    }

    #[inline(always)]
    fn named<const N: usize>(&mut self, front: &[u8; N], name: Name) {
        self.text(front);
        self.name(name);
        self.text(b"}");
    }

    #[inline(always)]
    fn numbered<const N: usize>(&mut self, front: &[u8; N], number: u64) {
        self.text(front);
        self.number(number);
        self.text(b"}");
    }

    fn made(&mut self, op: &Op) {
        self.text(b"{\"kind\":\"");
        self.kind(op.kind);
        self.named(b"\",\"name\":", op.name());
    }

    fn names(&mut self, ops: &Ops, ledger: &Ledger, count: usize) {
        self.text(b"{\"names\":[");
        for (at, place) in ledger.last(count).enumerate() {
            if at > 0 {
                self.text(b",");
            }
            self.name(ops.get(place).name());
        }
        self.text(b"]}");
    }

    fn row(&mut self, row: &Row) {
        self.text(b"[");
        self.number(u64::from(row.position));
        self.text(b",");
        self.name(row.op.name());
        self.text(b",\"");
        self.kind(row.op.kind);
        self.text(b"\",");
        self.integer(row.moved);
        if row.cancelled {
            self.text(b",true,");
        } else {
            self.text(b",false,");
        }
        self.number(row.balance);
        self.text(b"]");
    }

    pub fn refusal(&mut self, refusal: Refusal) {
        match refusal {
            Refusal::Plain(number) => self.numbered(b"{\"refused\":", u64::from(number)),
            Refusal::AlreadyCancelled { position } => {
                self.text(b"{\"position\":");
                self.number(u64::from(position));
                self.text(b",\"refused\":6}");
            }
            Refusal::RedBehind { seen, needed } => {
                self.text(b"{\"needed\":");
                self.number(u64::from(needed));
                self.numbered(b",\"refused\":9,\"seen\":", u64::from(seen));
            }
            Refusal::BatchRefused { index, cause } => self.batch_refused(index, cause),
            Refusal::BadMessage { why } => self.numbered(b"{\"refused\":17,\"why\":", u64::from(why)),
        }
    }

    fn batch_refused(&mut self, index: u32, cause: Cause) {
        self.text(b"{\"cause\":");
        match cause {
            Cause::Declined => self.text(b"\"declined\""),
            Cause::Refused(number) => self.number(u64::from(number)),
        }
        self.text(b",\"index\":");
        self.number(u64::from(index));
        self.text(b",\"refused\":13}");
    }
}
