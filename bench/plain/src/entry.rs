//! Lines of histories.

use crate::bank::Bank;
use crate::event::{Event, Parts};
use crate::lines::LINE_LIMIT;
use crate::scan::Scan;
use std::ops::Range;

/// An entry of a site's history.
pub struct Entry {
    pub event: Event,
    /// Where the reply is in the line.
    pub reply: Range<usize>,
    pub site: usize,
    /// The length of the line with its line feed.
    pub length: usize,
}

impl Scan<'_> {
    /// An entry, from a whole line with its line feed that isn't too long.
    #[inline]
    pub fn entry(&mut self, bank: &Bank, parts: &mut Parts) -> Option<Entry> {
        let whole = self.rest.len();
        parts.unknown.clear();
        self.expect(b"{\"event\":{\"")?;
        let event = self.recorded(bank, parts)?;
        self.expect(b"},\"reply\":")?;
        let start = whole - self.rest.len();
        let mut object = *self;
        object.reply()?;
        *self = object;
        let reply = start..whole - self.rest.len();
        self.expect(b",\"site\":")?;
        let site = self.byte()?;
        self.expect(b"}\n")?;
        let length = whole - self.rest.len();
        if site >= bank.sites || length > LINE_LIMIT + 1 {
            return None;
        }
        Some(Entry { event, reply, site: usize::from(site), length })
    }
}
