//! A migration: each line of histories is written again, in version 2 of the lines.

use crate::bank::Bank;
use crate::config::write_config;
use crate::event::{Event, Parts};
use crate::lines::Session;
use crate::scan::Scan;
use crate::write::Out;
use std::ops::Range;

/// The version of the lines that histories are rewritten in.
const NEWEST_VERSION: u8 = 2;

pub struct Migration {
    bank: Bank,
    parts: Parts,
}

impl Session for Migration {
    fn open(bank: Bank, out: &mut Out) -> Migration {
        write_config(out, &bank, NEWEST_VERSION);
        Migration { bank, parts: Parts::new() }
    }

    /// A line that is spelled as programs spell it is copied, but for its clock and accounts that aren't there.
    fn answer(&mut self, text: &[u8], out: &mut Out) -> Option<usize> {
        let entry = Scan::new(text).entry(&self.bank, &mut self.parts)?;
        let mut copy = Copy { text, from: 0 };
        let clock_at = match entry.event {
            Event::Shadow => self.parts.shadow.clock_at.end,
            _ => 0,
        };
        for unknown in self.parts.unknown.iter().filter(|unknown| unknown.end > clock_at) {
            copy.until(unknown, out);
            out.bytes(b"?");
        }
        if clock_at > 0 {
            copy.until(&self.parts.shadow.clock_at, out);
            let clock = &self.parts.shadow.clock;
            out.piece(|piece| piece.clock(clock[0], &clock[1..]));
        }
        for unknown in self.parts.unknown.iter().filter(|unknown| unknown.end < clock_at) {
            copy.until(unknown, out);
            out.bytes(b"?");
        }
        out.bytes(&text[copy.from..entry.length]);
        Some(entry.length)
    }
}

/// A text that is copied from a place on.
struct Copy<'a> {
    text: &'a [u8],
    from: usize,
}

impl Copy<'_> {
    /// Copies what comes before a part, and goes on behind it. The part is given by how many bytes come behind it.
    fn until(&mut self, part: &Range<usize>, out: &mut Out) {
        let all = self.text.len();
        out.bytes(&self.text[self.from..all - part.end]);
        self.from = all - part.start;
    }
}
