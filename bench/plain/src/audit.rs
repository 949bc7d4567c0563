//! An audit: whether sites that share nothing but messages could have recorded histories.
//!
//! Each entry is replayed as soon as its line is read. What is kept of it is only what counts for an order of all
//! entries: which messages it sent, or which one it received.

use crate::bank::{Bank, Refusal, TokenMessage};
use crate::event::{Event, Parts, Shadow};
use crate::lines::Session;
use crate::ops::Ops;
use crate::scan::Scan;
use crate::site::{Reply, Site};
use crate::write::Out;
use std::collections::HashMap;

/// What entries of a history are to those of others.
#[derive(Clone, Copy)]
enum Step {
    /// So many entries that receive nothing.
    Entries(u32),
    /// The last entry sent this operation.
    SentOp(u32),
    SentToken(u32),
    /// An entry that received this operation.
    GotOp(u32),
    GotToken(u32),
    /// An entry that received what no site sends.
    GotOther,
}

/// A site's history so far.
struct History {
    site: Site,
    steps: Vec<Step>,
    entries: u32,
    /// The number of the first wrong reply. What comes after it isn't replayed.
    wrong: Option<u32>,
}

/// The messages of all histories, each once, sent or received.
struct Messages {
    ops: Ops,
    tokens: HashMap<TokenMessage, u32>,
}

pub struct Audit {
    bank: Bank,
    messages: Messages,
    histories: Vec<History>,
    parts: Parts,
    /// The reply that is wanted.
    wanted: Out,
}

impl Session for Audit {
    fn open(bank: Bank, _out: &mut Out) -> Audit {
        let sites = Site::all(&bank).into_iter();
        let histories = sites.map(|site| History { site, steps: Vec::new(), entries: 0, wrong: None }).collect();
        let messages = Messages { ops: Ops::with_index(&bank), tokens: HashMap::new() };
        Audit { bank, messages, histories, parts: Parts::new(), wanted: Out::new(None) }
    }

    fn answer(&mut self, text: &[u8], _out: &mut Out) -> Option<usize> {
        let entry = Scan::new(text).entry(&self.bank, &mut self.parts)?;
        let history = &mut self.histories[entry.site];
        if history.wrong.is_none() {
            history.entries += 1;
            let wanted = &mut self.wanted;
            wanted.clear();
            history.replay(&self.bank, &mut self.messages, &self.parts, entry.event, wanted);
            if *wanted.kept() != text[entry.reply] {
                history.wrong = Some(history.entries);
            }
        }
        Some(entry.length)
    }
}

impl History {
    /// Replays an entry, and writes its reply, or nothing where the history is full.
    fn replay(&mut self, bank: &Bank, messages: &mut Messages, parts: &Parts, event: Event, wanted: &mut Out) {
        if self.site.record(bank).is_err() {
            return;
        }
        match self.step(bank, messages, parts, event) {
            Ok(made) => {
                wanted.reply(bank, &messages.ops, &self.site.ledger, made);
                self.note_sent(messages, made);
            }
            Err(refusal) => wanted.piece(|piece| piece.refusal(refusal)),
        }
    }

    /// One event.
    fn step(&mut self, bank: &Bank, messages: &mut Messages, parts: &Parts, event: Event) -> Result<Reply, Refusal> {
        if !matches!(event, Event::Shadow | Event::Token(_)) {
            self.count_entry();
        }
        let (site, ops) = (&mut self.site, &mut messages.ops);
        match event {
            Event::Shadow => self.receive(bank, ops, &parts.shadow),
            Event::Token(token) => {
                self.steps.push(Step::GotToken(messages.number_of(token)));
                site.receive_token(bank, token)
            }
            Event::Submit(request) => site.submit(bank, ops, &request),
            Event::Batch => site.batch(bank, ops, &parts.requests),
            Event::Apply(name) => site.apply(ops, name),
            Event::Pass(to) => site.pass(bank, to),
            Event::Balance(account) => site.balance(bank, account),
            Event::AsOf(account, position) => site.balance_as_of(bank, account, position),
            Event::Statement(account) => site.statement(bank, account),
            Event::Deliver(_) => Err(Refusal::NO_MESSAGE),
        }
    }

    /// An operation comes. One that isn't sound by itself is none that a site sends.
    fn receive(&mut self, bank: &Bank, ops: &mut Ops, shadow: &Shadow) -> Result<Reply, Refusal> {
        if let Some(why) = shadow.fault(bank) {
            self.steps.push(Step::GotOther);
            return Err(Refusal::BadMessage { why });
        }
        let place = ops.add(shadow.op(), &shadow.clock[..bank.rows()]);
        self.steps.push(Step::GotOp(place));
        self.site.receive(bank, ops, place)
    }

    /// Counts an entry that receives nothing.
    fn count_entry(&mut self) {
        match self.steps.last_mut() {
            Some(Step::Entries(count)) => *count += 1,
            _ => self.steps.push(Step::Entries(1)),
        }
    }

    /// Notes what a reply's event sent.
    fn note_sent(&mut self, messages: &mut Messages, reply: Reply) {
        match reply {
            Reply::Made(place) => self.steps.push(Step::SentOp(place)),
            Reply::Names(count) => self.steps.extend(self.site.ledger.last(count).map(Step::SentOp)),
            Reply::Passed(token) => self.steps.push(Step::SentToken(messages.number_of(token))),
            _ => {}
        }
    }
}

impl Messages {
    /// The number of a token, which is the next one where it isn't known yet.
    fn number_of(&mut self, token: TokenMessage) -> u32 {
        let next = self.tokens.len() as u32;
        *self.tokens.entry(token).or_insert(next)
    }
}

impl Audit {
    /// Writes the answer, and says whether the histories have an order.
    pub fn finish(&self, out: &mut Out) -> bool {
        let wrong = self.histories.iter().enumerate().find_map(|(site, history)| Some((site, history.wrong?)));
        if let Some((site, event)) = wrong {
            out.piece(|piece| {
                piece.text(b"{\"event\":");
                piece.number(u64::from(event));
                piece.text(b",\"fault\":\"reply\",\"site\":");
                piece.number(site as u64);
                piece.text(b"}\n");
            });
            return false;
        }
        let mut taking = Taking::new(self);
        while taking.round() {}
        let next: Vec<u32> = taking.next.iter().map(|next| next.taken + 1).collect();
        if taking.is_done() {
            write_list(out, b"{\"order\":[", &taking.order);
        } else {
            write_list(out, b"{\"fault\":\"stuck\",\"next\":[", &next);
        }
        taking.is_done()
    }
}

fn write_list<const N: usize, T: Copy + Into<u64>>(out: &mut Out, front: &[u8; N], numbers: &[T]) {
    out.piece(|piece| piece.text(front));
    for (at, number) in numbers.iter().enumerate() {
        out.piece(|piece| {
            if at > 0 {
                piece.text(b",");
            }
            piece.number((*number).into());
        });
    }
    out.piece(|piece| piece.text(b"]}\n"));
}

/// The next step of a history, and how many entries were taken.
#[derive(Clone, Copy)]
struct Next {
    step: usize,
    taken: u32,
}

/// Entries that are taken one after another, each receipt after its message was sent.
struct Taking<'a> {
    audit: &'a Audit,
    next: Vec<Next>,
    sent_ops: Vec<bool>,
    sent_tokens: Vec<bool>,
    order: Vec<u8>,
}

impl<'a> Taking<'a> {
    fn new(audit: &'a Audit) -> Taking<'a> {
        Taking {
            audit,
            next: vec![Next { step: 0, taken: 0 }; audit.histories.len()],
            sent_ops: vec![false; audit.messages.ops.len()],
            sent_tokens: vec![false; audit.messages.tokens.len()],
            order: Vec::new(),
        }
    }

    /// Takes from each site as many entries as possible, and says whether any was taken.
    fn round(&mut self) -> bool {
        let before = self.order.len();
        for site in 0..self.next.len() {
            self.take(site);
        }
        self.order.len() > before
    }

    /// Takes as many entries of a site as possible.
    fn take(&mut self, site: usize) {
        let Next { mut step, .. } = self.next[site];
        let before = self.order.len();
        for next in &self.audit.histories[site].steps[step..] {
            let count = match *next {
                Step::Entries(count) => count,
                Step::GotOp(op) if self.sent_ops[op as usize] => 1,
                Step::GotToken(token) if self.sent_tokens[token as usize] => 1,
                Step::GotOp(_) | Step::GotToken(_) | Step::GotOther => break,
                Step::SentOp(op) => {
                    self.sent_ops[op as usize] = true;
                    0
                }
                Step::SentToken(token) => {
                    self.sent_tokens[token as usize] = true;
                    0
                }
            };
            self.order.resize(self.order.len() + count as usize, site as u8);
            step += 1;
        }
        self.next[site].step = step;
        self.next[site].taken += (self.order.len() - before) as u32;
    }

    fn is_done(&self) -> bool {
        let histories = self.audit.histories.iter();
        histories.zip(&self.next).all(|(history, next)| next.step == history.steps.len())
    }
}
