//! A script: commands, each answered by a line.

use crate::bank::{Bank, Refusal, TokenMessage};
use crate::event::{Event, Parts};
use crate::lines::{LINE_LIMIT, Session};
use crate::ops::Ops;
use crate::scan::Scan;
use crate::site::{Reply, Site};
use crate::write::Out;

/// What is on a message's number where it is a token: the other bits are its place among the tokens.
const TOKEN: u32 = 1 << 31;

/// The sites of a bank and the messages that they sent.
pub struct Script {
    bank: Bank,
    ops: Ops,
    sites: Vec<Site>,
    /// Each message: the place of an operation, or that of a token.
    messages: Vec<u32>,
    tokens: Vec<TokenMessage>,
    parts: Parts,
}

impl Session for Script {
    fn open(bank: Bank, _out: &mut Out) -> Script {
        let (ops, sites) = (Ops::new(&bank), Site::all(&bank));
        Script { bank, ops, sites, messages: Vec::new(), tokens: Vec::new(), parts: Parts::new() }
    }

    #[inline]
    fn answer(&mut self, text: &[u8], out: &mut Out) -> Option<usize> {
        let mut scan = Scan::new(text);
        let (me, event) = scan.command(&self.bank, &mut self.parts)?;
        let length = text.len() - scan.rest.len();
        if length > LINE_LIMIT + 1 {
            return None;
        }
        match self.reply(usize::from(me), event) {
            Ok(reply) => out.reply(&self.bank, &self.ops, &self.sites[usize::from(me)].ledger, reply),
            Err(refusal) => out.piece(|piece| piece.refusal(refusal)),
        }
        out.piece(|piece| piece.text(b"\n"));
        Some(length)
    }
}

impl Script {
    #[inline]
    fn reply(&mut self, me: usize, event: Event) -> Result<Reply, Refusal> {
        let Some(site) = self.sites.get_mut(me) else {
            return Err(Refusal::NO_SITE);
        };
        if let Event::Deliver(number) = event {
            return self.deliver(me, number);
        }
        let (bank, ops) = (&self.bank, &mut self.ops);
        site.record(bank)?;
        let reply = match event {
            Event::Submit(request) => site.submit(bank, ops, &request)?,
            Event::Batch => site.batch(bank, ops, &self.parts.requests)?,
            Event::Apply(name) => site.apply(ops, name)?,
            Event::Pass(to) => site.pass(bank, to)?,
            Event::Balance(account) => site.balance(bank, account)?,
            Event::AsOf(account, position) => site.balance_as_of(bank, account, position)?,
            Event::Statement(account) => site.statement(bank, account)?,
            Event::Deliver(_) | Event::Shadow | Event::Token(_) => return Err(Refusal::NO_MESSAGE),
        };
        self.send(me, reply);
        Ok(reply)
    }

    /// Keeps what a reply's event sent.
    #[inline]
    fn send(&mut self, me: usize, reply: Reply) {
        match reply {
            Reply::Made(place) => self.messages.push(place),
            Reply::Names(count) => self.messages.extend(self.sites[me].ledger.last(count)),
            Reply::Passed(token) => {
                self.messages.push(TOKEN | self.tokens.len() as u32);
                self.tokens.push(token);
            }
            _ => {}
        }
    }

    /// Brings a message to a site.
    fn deliver(&mut self, me: usize, number: u32) -> Result<Reply, Refusal> {
        let at = (number as usize).wrapping_sub(1);
        let message = *self.messages.get(at).ok_or(Refusal::NO_MESSAGE)?;
        let site = &mut self.sites[me];
        site.record(&self.bank)?;
        if message & TOKEN == 0 {
            site.receive(&self.bank, &self.ops, message)
        } else {
            site.receive_token(&self.bank, self.tokens[(message ^ TOKEN) as usize])
        }
    }
}
