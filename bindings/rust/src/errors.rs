//! Why a call gave nothing.
use crate::texts::fault_in;
#[cfg(unix)]
use crate::{fault_of, LineKind::Configuration};
use crate::{LineFault, LineKind::Entry};
use std::error::Error;
use std::fmt;
#[cfg(unix)]
use std::io;

/// The system's error of a file that was replaced, or whose length somebody else changed.
#[cfg(unix)]
pub(crate) const ESTALE: i32 = 116;

/// Why a bank or a site wasn't opened.
#[derive(Clone, Debug, PartialEq, Eq)]
pub enum OpenError {
    /// The line is no configuration.
    BadConfiguration(LineFault),
    /// The configuration has no site of the number.
    NoSuchSite,
    /// There was no memory.
    OutOfMemory,
}

/// Why a line wasn't answered.
#[derive(Clone, Debug, PartialEq, Eq)]
pub enum AnswerError {
    /// The line is no command or no event. Nothing has changed.
    BadLine(LineFault),
    /// There was no memory: the answer is lost, and nothing more can be asked.
    OutOfMemory,
    /// It ended before, for want of memory or with a wrong reply.
    Ended,
}

/// Why a line of a journal wasn't replayed.
#[derive(Clone, Debug, PartialEq, Eq)]
pub enum ReplayError {
    /// The line is no entry of this site, or has the id of an entry before. Nothing has changed.
    BadLine(LineFault),
    /// The site gives another reply than the entry has, or its history is full: nothing more can be asked of it.
    WrongReply,
    /// There was no memory: nothing more can be asked of the site.
    OutOfMemory,
    /// It ended before, for want of memory or with a wrong reply.
    Ended,
}

/// Why a site with its journal in a file wasn't opened, or didn't answer a line. The journal's lines count from 1.
#[cfg(unix)]
#[derive(Debug)]
pub enum JournalError {
    /// The line is no configuration.
    BadConfiguration(LineFault),
    /// The configuration has no site of the number.
    NoSuchSite,
    /// The file is another bank's journal, or isn't a journal.
    AnotherJournal,
    /// A line of the journal is no entry of this site, not as a site writes it, or has the id of an entry before.
    BadEntry {
        /// Its number.
        line: u64,
        /// Why it isn't.
        why: LineFault,
    },
    /// The site gives another reply than a line has, or its history is full.
    WrongReply {
        /// Its number.
        line: u64,
    },
    /// A byte that no crash leaves is where a line, or the gate before it, should begin.
    Damaged {
        /// Its number.
        line: u64,
    },
    /// The journal is sealed.
    Sealed,
    /// The journal isn't there, and no new one was asked for.
    NoJournal,
    /// A new journal was asked for, and it is there with bytes in it.
    JournalThere,
    /// Another process has the journal, or this one has it open already.
    InUse,
    /// The line that was given is no event and no question. Nothing has changed.
    BadLine(LineFault),
    /// A call on the file failed. An open site has ended: it is opened again. The system's error 116, `ESTALE`, says
    /// that the file was replaced, or that somebody else changed its length: one that was replaced or made shorter is
    /// an older copy, which must not go on (docs/RUNNING.md, Faults and crashes).
    File(io::Error),
    /// There was no memory. An open site has ended.
    OutOfMemory,
    /// The site ended before.
    Ended,
}

#[cfg(unix)]
impl JournalError {
    /// The error of an opening's status with its number, if it is one, over these bytes.
    pub(crate) fn of_open(
        status: i32,
        line: u64,
        configuration: &str,
        file: &[u8],
    ) -> Result<(), JournalError> {
        Err(match status {
            0 => return Ok(()),
            2 => JournalError::BadConfiguration(fault_of(Configuration, "", configuration)),
            3 => JournalError::NoSuchSite,
            5 => JournalError::AnotherJournal,
            6 => JournalError::BadEntry {
                line,
                why: fault_in(Entry, file, line),
            },
            7 => JournalError::WrongReply { line },
            8 => JournalError::Damaged { line },
            9 => JournalError::Sealed,
            _ => JournalError::OutOfMemory,
        })
    }
}

#[cfg(unix)]
impl From<io::Error> for JournalError {
    fn from(error: io::Error) -> JournalError {
        JournalError::File(error)
    }
}

#[cfg(unix)]
impl From<AnswerError> for JournalError {
    fn from(error: AnswerError) -> JournalError {
        match error {
            AnswerError::OutOfMemory => JournalError::OutOfMemory,
            _ => JournalError::Ended,
        }
    }
}

#[cfg(unix)]
impl fmt::Display for JournalError {
    fn fmt(&self, f: &mut fmt::Formatter<'_>) -> fmt::Result {
        match self {
            JournalError::BadConfiguration(why) => write!(f, "bad configuration: {why}"),
            JournalError::NoSuchSite => f.write_str("no such site"),
            JournalError::AnotherJournal => f.write_str("another bank's journal"),
            JournalError::BadEntry { line, why } => {
                write!(f, "journal line {line}: bad line: {why}")
            }
            JournalError::WrongReply { line } => write!(f, "journal line {line}: wrong reply"),
            JournalError::Damaged { line } => write!(f, "journal line {line}: damaged"),
            JournalError::Sealed => f.write_str("journal is sealed"),
            JournalError::NoJournal => f.write_str("no journal"),
            JournalError::JournalThere => f.write_str("there is a journal"),
            JournalError::InUse => f.write_str("journal is in use"),
            JournalError::BadLine(why) => write!(f, "bad line: {why}"),
            JournalError::File(why) if why.raw_os_error() == Some(ESTALE) => {
                f.write_str("journal failed: it was replaced, or somebody else changed its length")
            }
            JournalError::File(why) => write!(f, "journal failed: {why}"),
            JournalError::OutOfMemory => f.write_str("out of memory"),
            JournalError::Ended => f.write_str("ended before"),
        }
    }
}

#[cfg(unix)]
impl Error for JournalError {
    fn source(&self) -> Option<&(dyn Error + 'static)> {
        match self {
            JournalError::File(why) => Some(why),
            _ => None,
        }
    }
}

/// Why a whole run ended before the end of its input.
#[derive(Clone, Debug, PartialEq, Eq)]
pub enum RunError {
    /// The input has no configuration.
    NoConfiguration,
    /// A line is not what it has to be there, or longer than 1,048,576 bytes.
    BadLine {
        /// Its number, from 1. Blank lines count.
        line: u64,
        /// What was written before.
        written: String,
        /// Why it isn't.
        why: LineFault,
    },
    /// There was no memory.
    OutOfMemory,
}

/// Why a bank's books weren't closed. Journals and added accounts are counted from 0, lines from 1.
#[derive(Clone, Debug, PartialEq, Eq)]
pub enum CloseError {
    /// A line is no entry, or longer than 1,048,576 bytes.
    BadLine {
        /// Which journal it is in.
        journal: usize,
        /// Its number there.
        line: u64,
        /// Why it isn't.
        why: LineFault,
    },
    /// A journal isn't sealed: it doesn't end in a line feed and a TAB.
    NotSealed {
        /// Which it is.
        journal: usize,
    },
    /// A journal's first line is no configuration as a site writes it, or not that of the first journal.
    AnotherBank {
        /// Which it is.
        journal: usize,
    },
    /// An entry is another site's.
    AnotherSite {
        /// Which journal it is in.
        journal: usize,
        /// Its line there.
        line: u64,
    },
    /// There are more journals than sites, or fewer.
    NumberOfJournals {
        /// How many journals there are.
        journals: usize,
        /// How many sites the configuration has.
        sites: u64,
    },
    /// There is no journal.
    NoJournal,
    /// The next bank can't have so many sites.
    NumberOfSites,
    /// An account has the name already, in the bank or before it among the added ones.
    AccountThere {
        /// The name.
        name: String,
    },
    /// An added account has a name that none may have.
    NoName {
        /// What was given as name.
        name: String,
    },
    /// There would be more than 1,000 accounts.
    TooManyAccounts,
    /// There was no memory.
    OutOfMemory,
}

impl CloseError {
    /// The error of a status above 1 with its number and its journal, of these journals and added accounts.
    pub(crate) fn of(
        status: i32,
        number: u64,
        journal: usize,
        journals: &[&[u8]],
        accounts: &[&str],
    ) -> CloseError {
        let line = number;
        let name = || {
            accounts
                .get(number as usize)
                .copied()
                .unwrap_or("")
                .to_owned()
        };
        match status {
            2 => CloseError::BadLine {
                journal,
                line,
                why: fault_in(Entry, journals[journal], line),
            },
            5 => CloseError::NotSealed { journal },
            6 => CloseError::AnotherBank { journal },
            7 => CloseError::AnotherSite { journal, line },
            8 => CloseError::NumberOfJournals {
                journals: journals.len(),
                sites: number,
            },
            9 => CloseError::NumberOfSites,
            10 => CloseError::AccountThere { name: name() },
            11 => CloseError::NoName { name: name() },
            12 => CloseError::TooManyAccounts,
            13 => CloseError::NoJournal,
            _ => CloseError::OutOfMemory,
        }
    }
}

impl fmt::Display for OpenError {
    fn fmt(&self, f: &mut fmt::Formatter<'_>) -> fmt::Result {
        match self {
            OpenError::BadConfiguration(why) => write!(f, "bad configuration: {why}"),
            OpenError::NoSuchSite => f.write_str("no such site"),
            OpenError::OutOfMemory => f.write_str("out of memory"),
        }
    }
}

impl fmt::Display for AnswerError {
    fn fmt(&self, f: &mut fmt::Formatter<'_>) -> fmt::Result {
        match self {
            AnswerError::BadLine(why) => write!(f, "bad line: {why}"),
            AnswerError::OutOfMemory => f.write_str("out of memory"),
            AnswerError::Ended => f.write_str("ended before"),
        }
    }
}

impl fmt::Display for ReplayError {
    fn fmt(&self, f: &mut fmt::Formatter<'_>) -> fmt::Result {
        match self {
            ReplayError::BadLine(why) => write!(f, "bad line: {why}"),
            ReplayError::WrongReply => f.write_str("wrong reply"),
            ReplayError::OutOfMemory => f.write_str("out of memory"),
            ReplayError::Ended => f.write_str("ended before"),
        }
    }
}

impl fmt::Display for RunError {
    fn fmt(&self, f: &mut fmt::Formatter<'_>) -> fmt::Result {
        match self {
            RunError::NoConfiguration => f.write_str("no configuration"),
            RunError::BadLine { line, why, .. } => {
                write!(f, "line {line}: bad line: {why}")
            }
            RunError::OutOfMemory => f.write_str("out of memory"),
        }
    }
}

impl fmt::Display for CloseError {
    fn fmt(&self, f: &mut fmt::Formatter<'_>) -> fmt::Result {
        match self {
            CloseError::BadLine { journal, line, why } => {
                write!(f, "journal {journal}: line {line}: bad line: {why}")
            }
            CloseError::NotSealed { journal } => write!(f, "journal {journal}: not sealed"),
            CloseError::AnotherBank { journal } => {
                write!(f, "journal {journal}: another bank's journal")
            }
            CloseError::AnotherSite { journal, line } => {
                write!(f, "journal {journal}: line {line}: another site's entry")
            }
            CloseError::NumberOfJournals { journals, sites } => {
                write!(f, "{journals} journals for {sites} sites")
            }
            CloseError::NoJournal => f.write_str("no journal"),
            CloseError::NumberOfSites => f.write_str("not 2 to 16 sites"),
            CloseError::AccountThere { name } => write!(f, "account {name}: there is one already"),
            CloseError::NoName { name } => write!(f, "account {name}: no name"),
            CloseError::TooManyAccounts => f.write_str("too many accounts"),
            CloseError::OutOfMemory => f.write_str("out of memory"),
        }
    }
}

impl Error for OpenError {}
impl Error for AnswerError {}
impl Error for ReplayError {}
impl Error for RunError {}
impl Error for CloseError {}
