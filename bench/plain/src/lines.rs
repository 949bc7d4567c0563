//! A run over lines: each is answered, in order.

use crate::bank::Bank;
use crate::json;
use crate::scan::Scan;
use crate::write::Out;
use std::fs::File;
use std::io::{ErrorKind, Read};

/// The most bytes of a line, without its line feed.
pub const LINE_LIMIT: usize = 1_048_576;

/// The bytes that one read asks for.
const READ_SIZE: usize = 65_536;

/// The most reads of one input.
const MOST_READS: u64 = 4_000_000_000;

/// Why a run stops.
pub enum Fault {
    NoConfig,
    BadConfig(u64),
    BadLine(u64),
    LongLine(u64),
    Read,
    Write,
}

impl Fault {
    pub fn message(&self) -> String {
        match self {
            Fault::NoConfig => "no configuration".to_string(),
            Fault::BadConfig(line) => format!("line {line}: bad configuration"),
            Fault::BadLine(line) => format!("line {line}: bad line"),
            Fault::LongLine(line) => format!("line {line}: line too long"),
            Fault::Read => "read failed".to_string(),
            Fault::Write => "write failed".to_string(),
        }
    }

    pub fn status(&self) -> u8 {
        match self {
            Fault::Read | Fault::Write => 3,
            _ => 2,
        }
    }
}

/// What answers the lines behind the configuration.
pub trait Session: Sized {
    fn open(bank: Bank, out: &mut Out) -> Self;

    /// Answers the line that a text begins with, and says how long it is with its line feed. `None` means that nothing
    /// is done, as there is no such line, or it isn't spelled as programs spell it, or it is too long.
    fn answer(&mut self, text: &[u8], out: &mut Out) -> Option<usize>;
}

/// The bytes that were read and not answered yet.
struct Input {
    file: File,
    bytes: Vec<u8>,
    start: usize,
    end: usize,
    /// How many of them are known to be no line feeds.
    searched: usize,
    reads: u64,
    ended: bool,
}

impl Input {
    fn new(file: File) -> Input {
        Input { file, bytes: Vec::new(), start: 0, end: 0, searched: 0, reads: 0, ended: false }
    }

    #[inline(always)]
    fn rest(&self) -> &[u8] {
        &self.bytes[self.start..self.end]
    }

    #[inline(always)]
    fn skip(&mut self, count: usize) {
        self.start += count;
        self.searched = 0;
    }

    /// The length of the first line without its line feed, where it is whole.
    fn line(&mut self) -> Option<usize> {
        let found = self.rest()[self.searched..].iter().position(|byte| *byte == b'\n');
        match found {
            Some(at) => Some(self.searched + at),
            None => {
                self.searched = self.rest().len();
                None
            }
        }
    }

    /// Reads once more. At the end a line feed is put behind a last line that has none.
    fn read(&mut self) -> Result<(), Fault> {
        self.bytes.copy_within(self.start..self.end, 0);
        (self.start, self.end) = (0, self.end - self.start);
        if self.bytes.len() < self.end + READ_SIZE {
            self.bytes.resize(self.end + READ_SIZE, 0);
        }
        let count = self.read_some()?;
        self.end += count;
        self.ended = count == 0;
        if self.ended && self.end > 0 {
            self.bytes[self.end] = b'\n';
            self.end += 1;
        }
        Ok(())
    }

    fn read_some(&mut self) -> Result<usize, Fault> {
        loop {
            if self.reads == MOST_READS {
                return Err(Fault::Read);
            }
            self.reads += 1;
            match self.file.read(&mut self.bytes[self.end..self.end + READ_SIZE]) {
                Err(error) if error.kind() == ErrorKind::Interrupted => {}
                read => return read.map_err(|_| Fault::Read),
            }
        }
    }
}

/// A run: what was read, what answers it, and the number of the next line.
struct Run<'a, S> {
    input: Input,
    out: &'a mut Out,
    session: Option<S>,
    number: u64,
}

/// Answers each line of the input, and gives what answered them.
pub fn run<S: Session>(file: File, out: &mut Out) -> Result<S, Fault> {
    let mut run = Run { input: Input::new(file), out, session: None, number: 1 };
    let ended = run.lines();
    run.out.flush();
    if run.out.failed {
        return Err(Fault::Write);
    }
    ended?;
    run.session.ok_or(Fault::NoConfig)
}

impl<S: Session> Run<'_, S> {
    fn lines(&mut self) -> Result<(), Fault> {
        loop {
            self.usual_lines()?;
            match self.input.line() {
                Some(length) => self.other_line(length)?,
                None if self.input.rest().len() > LINE_LIMIT => return Err(Fault::LongLine(self.number)),
                None if self.input.ended => return Ok(()),
                None => {
                    self.out.flush();
                    self.input.read()?;
                }
            }
            self.check_written()?;
        }
    }

    fn check_written(&self) -> Result<(), Fault> {
        if self.out.failed { Err(Fault::Write) } else { Ok(()) }
    }

    /// Answers lines while they are whole and spelled as programs spell them.
    fn usual_lines(&mut self) -> Result<(), Fault> {
        let Some(session) = &mut self.session else {
            return Ok(());
        };
        while let Some(length) = session.answer(self.input.rest(), self.out) {
            self.input.skip(length);
            self.number += 1;
            if self.out.failed {
                return Err(Fault::Write);
            }
        }
        Ok(())
    }

    /// Answers a line that is spelled otherwise.
    fn other_line(&mut self, length: usize) -> Result<(), Fault> {
        if length > LINE_LIMIT {
            return Err(Fault::LongLine(self.number));
        }
        let line = &self.input.rest()[..length];
        if !is_blank(line) {
            let text = json::respelled(line);
            match &mut self.session {
                Some(session) => {
                    let answered = text.and_then(|text| session.answer(&text, self.out));
                    answered.ok_or(Fault::BadLine(self.number))?;
                }
                None => {
                    let bank = text.and_then(|text| Scan::new(&text).config());
                    let bank = bank.ok_or(Fault::BadConfig(self.number))?;
                    self.session = Some(S::open(bank, self.out));
                }
            }
        }
        self.input.skip(length + 1);
        self.number += 1;
        Ok(())
    }
}

/// Whether a line is to be skipped.
fn is_blank(line: &[u8]) -> bool {
    line.iter().all(|byte| matches!(byte, b' ' | b'\t' | b'\r'))
}
