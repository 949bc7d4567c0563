//! The core of the bank: sites that answer lines, by the proved library.
//!
//! A [`Bank`] has all sites of a configuration, with the messages between them:
//!
//! ```
//! use rbbank::Bank;
//!
//! let mut bank = Bank::open(r#"{"accounts":[["ann",0]],"sites":2,"version":1}"#)?;
//! assert_eq!(bank.answer(r#"{"deposit":["ann",500],"site":0}"#)?, r#"{"kind":"deposit","name":"B0.1"}"#);
//! assert_eq!(bank.answer(r#"{"balance":"ann","site":0}"#)?, r#"{"balance":500}"#);
//! # Ok::<(), Box<dyn std::error::Error>>(())
//! ```
//!
//! A [`Site`] is one of them, whose messages and journal are the caller's to carry and to keep. A [`Journal`] is one
//! that keeps its own journal in a file. [`script`], [`audit`], [`migrate`] and [`close`] are whole runs. Lines, limits
//! and refusals are those of docs/FORMAT.md; a refusal is a reply, and no error. A [`Refusal`] is its number with a
//! name.
//!
//! Either may go to another thread, and is used by one at a time: they are `Send`, and not `Sync`. They are ended when
//! they are dropped.
#![deny(missing_docs)]

mod c;
mod errors;
mod handles;
#[cfg(unix)]
mod journal;
mod refusal;
mod runs;
mod texts;

#[cfg(unix)]
pub use errors::JournalError;
pub use errors::{AnswerError, CloseError, OpenError, ReplayError, RunError};
pub use handles::{Bank, Message, Site};
#[cfg(unix)]
pub use journal::Journal;
pub use refusal::Refusal;
pub use runs::{audit, close, migrate, script, Audit, Books};
pub use texts::{fault_of, version, LineFault, LineKind};
