//! Values in place of lines: what a bank or a site is asked, and what it answers, are structs by serde's derive.
//!
//! ```
//! use rbbank::{Bank, Refusal};
//! use rbbank_serde::{Ask, AskError};
//! use serde::{Deserialize, Serialize};
//!
//! #[derive(Serialize)]
//! struct Deposit<'a> {
//!     deposit: (&'a str, u64),
//!     site: u8,
//! }
//!
//! #[derive(Deserialize)]
//! struct Made {
//!     name: String,
//! }
//!
//! let mut bank = Bank::open(r#"{"accounts":[["ann",0]],"sites":2,"version":1}"#)?;
//! let made: Made = bank.ask(&Deposit { deposit: ("ann", 500), site: 0 })?;
//! assert_eq!(made.name, "B0.1");
//! let refused = bank.ask::<Made>(&Deposit { deposit: ("eve", 500), site: 0 });
//! assert!(matches!(refused, Err(AskError::Refused(Refusal::UnknownAccount))));
//! # Ok::<(), Box<dyn std::error::Error>>(())
//! ```
//!
//! It is a crate of its own, since cargo finds no dependency without a registry, not even one that isn't asked for: so
//! `rbbank` alone is built anywhere.
#![deny(missing_docs)]

use rbbank::{AnswerError, Bank, Refusal, Site};
#[cfg(unix)]
use rbbank::{Journal, JournalError};
use serde::de::DeserializeOwned;
use serde::Serialize;
use std::error::Error;
use std::fmt;

/// Why a value wasn't answered by a value, where lines are refused with `E`.
#[derive(Debug)]
pub enum AskError<E> {
    /// What was asked has no form in JSON, and wasn't asked.
    NoLine(serde_json::Error),
    /// The line wasn't answered.
    NotAnswered(E),
    /// It was refused, and the answer's type has no refusal.
    Refused(Refusal),
    /// It was answered, and the answer isn't of the type.
    AnotherAnswer(serde_json::Error),
}

impl<E: fmt::Display> fmt::Display for AskError<E> {
    fn fmt(&self, f: &mut fmt::Formatter<'_>) -> fmt::Result {
        match self {
            AskError::NoLine(why) => write!(f, "no line: {why}"),
            AskError::NotAnswered(why) => why.fmt(f),
            AskError::Refused(refusal) => refusal.fmt(f),
            AskError::AnotherAnswer(why) => write!(f, "another answer: {why}"),
        }
    }
}

impl<E: Error> Error for AskError<E> {}

/// What answers lines.
pub trait Ask {
    /// Why a line isn't answered.
    type Error;

    /// Answers a line by a line, or by several lines.
    ///
    /// # Errors
    ///
    /// Those of the type's own `answer`.
    fn answer_line(&mut self, line: &str) -> Result<&str, Self::Error>;

    /// Answers a value by a value: of several lines by the last. A type that has a refusal, as an enum of several forms
    /// may, gets it as a value.
    ///
    /// # Errors
    ///
    /// Each of [`AskError`].
    fn ask<A: DeserializeOwned>(
        &mut self,
        asked: &impl Serialize,
    ) -> Result<A, AskError<Self::Error>> {
        let line = serde_json::to_string(asked).map_err(AskError::NoLine)?;
        let answer = self.answer_line(&line).map_err(AskError::NotAnswered)?;
        let last = answer.lines().last().unwrap_or("");
        serde_json::from_str(last).map_err(|why| match Refusal::of(last) {
            Some(refusal) => AskError::Refused(refusal),
            None => AskError::AnotherAnswer(why),
        })
    }
}

impl Ask for Bank {
    type Error = AnswerError;

    fn answer_line(&mut self, line: &str) -> Result<&str, AnswerError> {
        self.answer(line)
    }
}

impl Ask for Site {
    type Error = AnswerError;

    fn answer_line(&mut self, line: &str) -> Result<&str, AnswerError> {
        self.answer(line)
    }
}

#[cfg(unix)]
impl Ask for Journal {
    type Error = JournalError;

    fn answer_line(&mut self, line: &str) -> Result<&str, JournalError> {
        self.answer(line)
    }
}
