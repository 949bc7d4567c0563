//! A site whose journal is in a file, on a Unix system: the calls on the file that the library asks for.
use crate::c::{self, Handle};
use crate::errors::ESTALE;
use crate::handles::{copy, messages, without_line_feed};
use crate::{fault_of, JournalError, LineKind::Event, Message};
use std::ffi::OsString;
use std::fmt;
use std::fs::{self, File, OpenOptions};
use std::io::{self, Read, Write};
use std::os::unix::fs::{FileExt, MetadataExt, OpenOptionsExt};
use std::os::unix::io::AsRawFd;
use std::path::{Path, PathBuf};

/// Of `flock`: alone, and without waiting.
const LOCK_EX_NB: i32 = 2 | 4;
const LOCK_UN: i32 = 8;

extern "C" {
    fn flock(descriptor: i32, how: i32) -> i32;
}

/// One site of a configuration, whose journal is in a file: what was answered is on the disk before its reply can be
/// seen. The file is the one that `rbbank site` has, and either goes on from it; an empty one is begun, as a new one or
/// not. Dropping it ends it. It is for one process: a fork shares handle and lock, so open it after the fork.
///
/// ```
/// use rbbank::Journal;
///
/// let path = std::env::temp_dir().join(format!("rbbank-doc-{}", std::process::id()));
/// let configuration = r#"{"accounts":[["ann",0]],"sites":2,"version":1}"#;
/// let mut site = Journal::open(&path, 0, configuration, 0, true)?; // the first start alone
/// assert!(site.answer(r#"{"deposit":["ann",500]}"#)?.starts_with(r#"{"reply":{"kind":"deposit","name":"B0.1"}"#));
/// drop(site); // or a crash
/// let mut site = Journal::open(&path, 0, configuration, 100_000_000, false)?; // each start after the first
/// assert_eq!(site.answer(r#"{"balance":"ann"}"#)?, r#"{"reply":{"balance":500},"sends":[],"then":[]}"#);
/// # std::fs::remove_file(path)?;
/// # Ok::<(), Box<dyn std::error::Error>>(())
/// ```
pub struct Journal {
    handle: Handle,
    configuration: String,
    file: File,
    path: PathBuf,
    text: Vec<u8>,
    bytes: Vec<u8>,
    number: usize,
}

// SAFETY: as for a bank.
unsafe impl Send for Journal {}

impl fmt::Debug for Journal {
    fn fmt(&self, f: &mut fmt::Formatter<'_>) -> fmt::Result {
        f.debug_struct("Journal")
            .field("path", &self.path)
            .finish_non_exhaustive()
    }
}

/// A file that is opened, or made if it is a new one, and locked against other processes.
fn open_locked(path: &Path, new: bool) -> Result<File, JournalError> {
    let opened = OpenOptions::new()
        .read(true)
        .write(true)
        .create(new)
        .truncate(false)
        .open(path);
    let file = match opened {
        Err(why) if why.kind() == io::ErrorKind::NotFound && !new => {
            return Err(JournalError::NoJournal)
        }
        other => other?,
    };
    // SAFETY: the descriptor is open for the time of the call.
    if unsafe { flock(file.as_raw_fd(), LOCK_EX_NB) } != 0 {
        return match io::Error::last_os_error() {
            why if why.kind() == io::ErrorKind::WouldBlock => Err(JournalError::InUse),
            why => Err(JournalError::File(why)),
        };
    }
    if new && file.metadata()?.len() > 0 {
        return Err(JournalError::JournalThere);
    }
    Ok(file)
}

/// Waits until the names in a file's folder are on the disk.
fn sync_folder(path: &Path) -> io::Result<()> {
    let folder = path.parent().unwrap_or_else(|| Path::new("/"));
    File::open(folder)?.sync_all()
}

/// All bytes of the file, written again: after a wait for the disk that failed, the system may have what an earlier
/// process wrote in its memory alone.
fn read_whole(file: &mut File, path: &Path) -> io::Result<Vec<u8>> {
    let mut bytes = Vec::new();
    file.sync_all()?;
    file.read_to_end(&mut bytes)?;
    file.write_all_at(&bytes, 0)?;
    file.sync_all()?;
    sync_folder(path)?;
    Ok(bytes)
}

impl Journal {
    /// Site `me`, 0 to 15, of a configuration's line, over the journal at this path, which with `new` is a new one.
    /// Only then the file is made: a mistyped name, or a disk that isn't mounted, is never a new site, which would make
    /// other operations under names that are taken. The reply is then what the last `resend` entries sent, a line for
    /// each that sent any: with 0 what a crash kept from the other sites isn't sent.
    ///
    /// # Errors
    ///
    /// Each of `JournalError` but `BadLine` and `Ended`. The file is as it was then, unless it failed; with `new` an
    /// empty one may have been made.
    pub fn open(
        path: impl AsRef<Path>,
        me: u8,
        configuration: &str,
        resend: usize,
        new: bool,
    ) -> Result<Journal, JournalError> {
        let mut file = open_locked(path.as_ref(), new)?;
        let path = fs::canonicalize(path)?;
        let read = read_whole(&mut file, &path)?;
        let mut journal = Journal {
            handle: Handle::NONE,
            configuration: configuration.to_owned(),
            file,
            path,
            text: Vec::new(),
            bytes: Vec::new(),
            number: 1,
        };
        let mut number = 0;
        // SAFETY: the handle is zeroed, and the texts are that long.
        let status = unsafe {
            c::rbbank_journal_open(
                &mut journal.handle,
                me,
                resend,
                configuration.as_ptr(),
                configuration.len(),
                read.as_ptr(),
                read.len(),
                &mut number,
            )
        };
        JournalError::of_open(status, number, configuration, &read)?;
        journal.make_calls()?;
        Ok(journal)
    }

    /// Answers a line, an event or a question, as a [`Site`](crate::Site) does. A blank line is answered by nothing.
    /// At `Ok` all that was recorded is on the disk.
    ///
    /// # Errors
    ///
    /// `BadLine`, after which all is as it was, and [`reply`](Journal::reply) is the line `{"bad":..}` of `rbbank
    /// site`, with its number, where the configuration's line is the first; `File` and `OutOfMemory`, each of which
    /// ends the site; `Ended`.
    pub fn answer(&mut self, line: &str) -> Result<&str, JournalError> {
        self.number += 1;
        // SAFETY: the handle was opened, and the line is that long.
        let status = unsafe {
            c::rbbank_journal_answer(&mut self.handle, self.number, line.as_ptr(), line.len())
        };
        match status {
            0 => self.make_calls().map_err(|why| self.ended(why))?,
            1 => return Err(JournalError::Ended),
            _ => return Err(self.ended(JournalError::OutOfMemory)),
        }
        if self.reply().starts_with(r#"{"bad":"#) {
            let why = fault_of(Event, &self.configuration, line);
            return Err(JournalError::BadLine(why));
        }
        Ok(self.reply())
    }

    /// Gives the lock of a site that this ended back, so that it can be opened again.
    fn ended(&self, why: JournalError) -> JournalError {
        // SAFETY: the descriptor is open for the time of the call.
        unsafe { flock(self.file.as_raw_fd(), LOCK_UN) };
        why
    }

    /// Answers a line as [`answer`](Journal::answer) does, and gives a text of the caller's own.
    ///
    /// # Errors
    ///
    /// As those of [`answer`](Journal::answer).
    pub fn answer_owned(&mut self, line: &str) -> Result<String, JournalError> {
        self.answer(line).map(str::to_owned)
    }

    /// The last answer once more; empty if there was none, or the site ended.
    pub fn reply(&mut self) -> &str {
        without_line_feed(copy(
            &mut self.handle,
            c::rbbank_journal_reply,
            &mut self.text,
        ))
    }

    /// The messages of the last answer, on all its lines.
    ///
    /// # Errors
    ///
    /// `OutOfMemory`, after which the site is as it was; `Ended`.
    pub fn sends(&mut self) -> Result<Vec<Message>, JournalError> {
        Ok(messages(
            &mut self.handle,
            c::rbbank_journal_send,
            c::rbbank_journal_reply,
            &mut self.text,
        )?)
    }

    /// Makes the calls that are left, one after another, and none after one that failed.
    fn make_calls(&mut self) -> Result<(), JournalError> {
        loop {
            let (mut length, mut at) = (0, 0);
            // SAFETY: the handle was opened, and the bytes are that long.
            let kind = unsafe {
                c::rbbank_journal_call(
                    &mut self.handle,
                    self.bytes.as_mut_ptr(),
                    self.bytes.len(),
                    &mut length,
                    &mut at,
                )
            };
            if kind == 0 {
                return Ok(());
            }
            if length > self.bytes.len() {
                self.bytes.resize(length, 0);
                continue;
            }
            let made = self.make(kind, at, length);
            // SAFETY: the handle was opened.
            unsafe { c::rbbank_journal_done(&mut self.handle, u8::from(made.is_ok())) };
            made?;
        }
    }

    /// Makes a call that was asked for.
    fn make(&self, kind: i32, at: u64, length: usize) -> io::Result<()> {
        let bytes = &self.bytes[..length];
        match kind {
            c::CALL_WRITE => {
                // The byte that makes a batch count is written alone, and the batch at the end.
                if length == 1 {
                    self.is_at_its_name()?;
                } else if at != self.file.metadata()?.len() {
                    return Err(io::Error::from_raw_os_error(ESTALE));
                }
                self.file.write_all_at(bytes, at)
            }
            c::CALL_CUT => {
                self.file.set_len(at)?;
                self.file.sync_all()
            }
            c::CALL_SYNC => self.file.sync_data(),
            c::CALL_KEEP => self.keep(bytes),
            _ => Err(io::Error::from(io::ErrorKind::Unsupported)),
        }
    }

    /// An error if the name no longer leads to the open file: a start would open another one.
    fn is_at_its_name(&self) -> io::Result<()> {
        let (named, open) = (fs::metadata(&self.path)?, self.file.metadata()?);
        if named.dev() == open.dev() && named.ino() == open.ino() {
            return Ok(());
        }
        Err(io::Error::from_raw_os_error(ESTALE))
    }

    /// Adds what is about to be cut off to the end of the file of the same name and `.cut`.
    fn keep(&self, bytes: &[u8]) -> io::Result<()> {
        let mut beside = OsString::from(&self.path);
        beside.push(".cut");
        let mut kept = OpenOptions::new()
            .append(true)
            .create(true)
            .mode(self.file.metadata()?.mode() & 0o777)
            .open(&beside)?;
        kept.write_all(bytes)?;
        kept.sync_all()?;
        sync_folder(Path::new(&beside))
    }
}

impl Drop for Journal {
    fn drop(&mut self) {
        // SAFETY: the handle was opened or is zeroed, and is used no more.
        unsafe { c::rbbank_journal_close(&mut self.handle) }
    }
}
