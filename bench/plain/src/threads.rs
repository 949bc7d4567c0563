//! Runs of tellers: each in a thread of its own, and one more thread at each site that receives and applies.

use crate::bank::{Bank, Limits, MOST_ROWS, Name, Op, Refusal, TokenMessage};
use crate::config::write_config;
use crate::history::History;
use crate::kinds::Request;
use crate::lines::Fault;
use crate::ops::Ops;
use crate::site::{Reply, Site};
use crate::write::Out;
use std::sync::mpsc::{Receiver, Sender, channel};
use std::sync::{Mutex, MutexGuard, PoisonError};
use std::thread;

/// How many calls a teller makes.
const CALLS: usize = 100;

/// What a teller's number is multiplied by, modulo 2^64, and what is added, for the next one.
const MULTIPLIER: u64 = 6_364_136_223_846_793_005;
const INCREMENT: u64 = 1_442_695_040_888_963_407;

/// What a teller asks for.
#[derive(Clone, Copy)]
pub enum Call {
    Submit(Request),
    Pass(u8),
}

/// What a site sends another.
#[derive(Clone, Copy)]
pub enum Message {
    Operation(Op, [u32; MOST_ROWS]),
    Token(TokenMessage),
}

/// What lies behind a site's lock: the site, the operations that it knows, and its history as text.
struct Desk {
    site: Site,
    ops: Ops,
    history: History,
}

/// A bank whose sites are behind locks.
struct Branch {
    bank: Bank,
    desks: Vec<Mutex<Desk>>,
}

impl Desk {
    fn new(bank: &Bank, me: u8) -> Desk {
        Desk { site: Site::new(bank, me), ops: Ops::new(bank), history: History::new(me) }
    }

    /// One call: what was answered, and what is to be sent.
    fn call(&mut self, bank: &Bank, call: Call) -> (Result<Reply, Refusal>, Option<Message>) {
        let reply = match call {
            Call::Submit(request) => self.site.submit(bank, &mut self.ops, &request),
            Call::Pass(to) => self.site.pass(bank, to),
        };
        self.history.call(bank, &self.ops, &self.site.ledger, call, reply);
        let message = match reply {
            Ok(Reply::Made(place)) => Some(self.operation(place)),
            Ok(Reply::Passed(token)) => Some(Message::Token(token)),
            _ => None,
        };
        (reply, message)
    }

    /// The message of an operation.
    fn operation(&self, place: u32) -> Message {
        let (kept, mut clock) = (self.ops.clock(place), [0; MOST_ROWS]);
        clock[..kept.len()].copy_from_slice(kept);
        Message::Operation(*self.ops.get(place), clock)
    }

    /// Receives a message, and applies what is ready then.
    fn receive(&mut self, bank: &Bank, message: &Message) {
        let reply = match message {
            Message::Operation(op, clock) => {
                let place = self.ops.add(*op, &clock[..bank.rows()]);
                self.site.receive(bank, &self.ops, place)
            }
            Message::Token(token) => self.site.receive_token(bank, *token),
        };
        self.history.receive(bank, &self.ops, &self.site.ledger, message, reply);
        while let Some(name) = self.site.ready(&self.ops) {
            let reply = self.site.apply(&self.ops, name);
            self.history.apply(bank, &self.ops, &self.site.ledger, name, reply);
        }
    }
}

impl Branch {
    fn new(bank: Bank) -> Branch {
        let desks = (0..bank.sites).map(|me| Mutex::new(Desk::new(&bank, me))).collect();
        Branch { bank, desks }
    }

    fn desk(&self, me: u8) -> MutexGuard<'_, Desk> {
        self.desks[usize::from(me)].lock().unwrap_or_else(PoisonError::into_inner)
    }

    /// All calls of a teller at a site, one after another.
    fn make_calls(&self, me: u8, first: u64, links: &[Sender<Message>]) {
        let (mut x, mut last) = (first, None);
        for _ in 0..CALLS {
            x = x.wrapping_mul(MULTIPLIER).wrapping_add(INCREMENT);
            let (_, message) = self.desk(me).call(&self.bank, call_at(x, last, me, self.bank.sites));
            match message {
                Some(Message::Token(token)) => send(&links[usize::from(token.to)], Message::Token(token)),
                Some(Message::Operation(op, clock)) => {
                    last = Some(op.name());
                    let others = links.iter().enumerate().filter(|(site, _)| *site != usize::from(me));
                    others.for_each(|(_, link)| send(link, Message::Operation(op, clock)));
                }
                None => {}
            }
        }
    }

    /// Receives what comes until all tellers have ended.
    fn serve(&self, me: u8, inlet: Receiver<Message>) {
        for message in inlet {
            self.desk(me).receive(&self.bank, &message);
        }
    }

    /// Runs all threads.
    fn run(&self, tellers: u8, seed: u32) {
        let (links, inlets): (Vec<_>, Vec<_>) = (0..self.bank.sites).map(|_| channel()).unzip();
        thread::scope(|scope| {
            for (me, inlet) in (0..self.bank.sites).zip(inlets) {
                scope.spawn(move || self.serve(me, inlet));
            }
            for teller in 0..tellers {
                let (links, me) = (links.clone(), teller % self.bank.sites);
                scope.spawn(move || self.make_calls(me, u64::from(seed) + u64::from(teller), &links));
            }
            drop(links);
        });
    }
}

/// A link whose site has ended takes nothing.
fn send(link: &Sender<Message>, message: Message) {
    let _ended = link.send(message).is_err();
}

/// The call at a number, by a teller of this site who last made the operation of this name.
fn call_at(x: u64, last: Option<Name>, me: u8, sites: u8) -> Call {
    let r = x >> 33;
    let (q, account) = (r / 8, (r / 8192 % 4) as u32);
    Call::Submit(match r % 8 {
        0..=3 => Request::Deposit { account, amount: 1 + q % 1000 },
        4 => Request::Withdraw { account, amount: 1 + q % 500 },
        5 => Request::Interest { account, rate: (q % 200) as u32 },
        6 => last.map_or(Request::Deposit { account, amount: 1 }, |target| Request::Cancel { target }),
        _ => return Call::Pass((me + 1) % sites),
    })
}

/// Runs tellers at the sites of a bank, and writes its configuration and the sites' histories.
pub fn run_threads(sites: u8, tellers: u8, seed: u32, out: &mut Out) -> Result<u8, Fault> {
    let accounts = [&b"a0"[..], b"a1", b"a2", b"a3"].map(|name| (name, 1000)).to_vec();
    let version = if sites <= 8 { 1 } else { 2 };
    let bank = Bank::new(accounts, sites, version, Limits::LARGEST).ok_or(Fault::NoConfig)?;
    let branch = Branch::new(bank);
    branch.run(tellers, seed);
    write_config(out, &branch.bank, version);
    for me in 0..sites {
        out.bytes(branch.desk(me).history.text());
    }
    out.flush();
    if out.failed { Err(Fault::Write) } else { Ok(0) }
}
