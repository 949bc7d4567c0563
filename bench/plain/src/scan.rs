//! What a text begins with as programs spell it: no space, no escape. `None` says that it begins otherwise.

use crate::bank::{Bank, Key, NOWHERE, Name};
use crate::event::Parts;

/// What is left of a text that is read from its start.
#[derive(Clone, Copy)]
pub struct Scan<'a> {
    pub rest: &'a [u8],
}

impl<'a> Scan<'a> {
    pub fn new(text: &'a [u8]) -> Scan<'a> {
        Scan { rest: text }
    }

    /// Whether the word comes next; it is read then.
    #[inline(always)]
    pub fn take<const N: usize>(&mut self, word: &[u8; N]) -> bool {
        match self.rest.split_first_chunk() {
            Some((next, rest)) if next == word => {
                self.rest = rest;
                true
            }
            _ => false,
        }
    }

    /// Reads the word, which comes next.
    #[inline(always)]
    pub fn expect<const N: usize>(&mut self, word: &[u8; N]) -> Option<()> {
        self.take(word).then_some(())
    }

    /// The next byte.
    #[inline(always)]
    pub fn peek(&self) -> Option<u8> {
        self.rest.first().copied()
    }

    /// A digit, which comes next.
    #[inline(always)]
    fn digit(&mut self) -> Option<u64> {
        let (next, rest) = self.rest.split_first()?;
        let digit = next.wrapping_sub(b'0');
        if digit > 9 {
            return None;
        }
        self.rest = rest;
        Some(u64::from(digit))
    }

    /// A number below 2^64. A zero is a number by itself.
    #[inline(always)]
    pub fn number(&mut self) -> Option<u64> {
        let mut number = self.digit()?;
        if number == 0 {
            return Some(0);
        }
        while let Some(digit) = self.digit() {
            if number >= u64::MAX / 10 {
                number = number.checked_mul(10)?.checked_add(digit)?;
            } else {
                number = number * 10 + digit;
            }
        }
        Some(number)
    }

    /// A number below 2^32.
    #[inline(always)]
    pub fn word(&mut self) -> Option<u32> {
        u32::try_from(self.number()?).ok()
    }

    /// A number below 2^8.
    #[inline(always)]
    pub fn byte(&mut self) -> Option<u8> {
        u8::try_from(self.number()?).ok()
    }

    /// A number that may be negative, of 64 bits with its sign.
    pub fn integer(&mut self) -> Option<i64> {
        if !self.take(b"-") {
            return i64::try_from(self.number()?).ok();
        }
        match self.number()? {
            0 => None,
            number => 0i64.checked_sub_unsigned(number),
        }
    }

    /// An operation's name with its quotes.
    #[inline(always)]
    pub fn name(&mut self) -> Option<Name> {
        if self.take(b"\"R") {
            let number = self.word()?;
            self.expect(b"\"")?;
            return Some(Name { row: 0, number });
        }
        self.expect(b"\"B")?;
        let site = self.byte()?;
        self.expect(b".")?;
        let number = self.word()?;
        self.expect(b"\"")?;
        Some(Name { row: u32::from(site) + 1, number })
    }

    /// The place of the account whose name with its quotes comes next.
    #[inline(always)]
    pub fn account(&mut self, bank: &Bank, parts: &mut Parts) -> Option<u32> {
        self.expect(b"\"")?;
        let mut key = Key::EMPTY;
        let mut length = 0;
        loop {
            let byte = *self.rest.get(length)?;
            if byte == b'"' {
                break;
            }
            if !is_plain(byte) {
                return None;
            }
            key = key.with(byte);
            length += 1;
        }
        let (name, behind) = self.rest.split_at(length);
        let place = bank.accounts.place(name, key);
        if place == NOWHERE {
            parts.unknown.push(behind.len()..self.rest.len());
        }
        self.rest = &behind[1..];
        Some(place)
    }

    /// The text that comes next, without its quotes.
    pub fn text(&mut self) -> Option<&'a [u8]> {
        self.expect(b"\"")?;
        let length = self.rest.iter().position(|byte| !is_plain(*byte))?;
        let (text, behind) = self.rest.split_at(length);
        self.rest = behind;
        self.expect(b"\"")?;
        Some(text)
    }

    /// The requests of a batch, from the first bracket to the last.
    pub fn requests(&mut self, bank: &Bank, parts: &mut Parts) -> Option<()> {
        parts.requests.clear();
        self.expect(b"[")?;
        if self.take(b"]") {
            return Some(());
        }
        loop {
            self.expect(b"{\"")?;
            let request = self.request(bank, parts)?;
            parts.requests.push(request);
            self.expect(b"}")?;
            if self.take(b"]") {
                return Some(());
            }
            self.expect(b",")?;
        }
    }
}

/// Whether a byte of a text is written as itself, and is ASCII.
#[inline(always)]
pub fn is_plain(byte: u8) -> bool {
    (b' '..0x80).contains(&byte) && byte != b'"' && byte != b'\\'
}
