//! Banks and sites.
use crate::c::{self, Handle};
use crate::LineKind::{Command, Configuration, Entry, Event};
use crate::{fault_of, AnswerError, LineKind, OpenError, ReplayError};
use std::fmt;

/// A call that copies what is kept, and gives its length.
type Copying = unsafe extern "C" fn(*mut Handle, *mut u8, usize) -> usize;

/// All that a copying call has, in `text`, which only grows.
pub(crate) fn copy<'a>(handle: &mut Handle, call: Copying, text: &'a mut Vec<u8>) -> &'a str {
    loop {
        // SAFETY: the handle is a zeroed or an opened one, as only calls of the library write it; `text` is that long.
        let length = unsafe { call(handle, text.as_mut_ptr(), text.len()) };
        if length <= text.len() {
            return std::str::from_utf8(&text[..length]).expect("the library writes ASCII");
        }
        text.resize(length.next_power_of_two(), 0);
    }
}

/// A call that copies a message of the last answer, and gives its length and the site that it is for.
type Sending = unsafe extern "C" fn(*mut Handle, usize, *mut u8, usize, *mut usize, &mut u8) -> i32;

/// The messages of the last answer. They are taken from its text: by its index each is looked for from the first.
pub(crate) fn messages(
    handle: &mut Handle,
    call: Sending,
    reply: Copying,
    text: &mut Vec<u8>,
) -> Result<Vec<Message>, AnswerError> {
    let (mut length, mut to) = (0, 0);
    // SAFETY: the handle was opened, and nothing is copied.
    match unsafe { call(handle, 0, std::ptr::null_mut(), 0, &mut length, &mut to) } {
        0 => {}
        1 => return Err(AnswerError::Ended),
        3 => return Ok(Vec::new()),
        _ => return Err(AnswerError::OutOfMemory),
    }
    Ok(copy(handle, reply, text)
        .lines()
        .filter_map(|line| line.split_once("\"sends\":["))
        .flat_map(|(_, list)| objects_of(list))
        .collect())
}

/// The messages at the beginning of a text, up to the bracket that closes their list. No string of a message has a
/// bracket in it.
fn objects_of(list: &str) -> Vec<Message> {
    let (mut found, mut depth, mut start) = (Vec::new(), 0, 0);
    for (at, byte) in list.bytes().enumerate() {
        match byte {
            b'{' | b'[' => {
                start = if depth == 0 { at } else { start };
                depth += 1;
            }
            b'}' | b']' if depth == 0 => break,
            b'}' | b']' => {
                depth -= 1;
                if depth == 0 {
                    found.push(message_of(&list[start..=at]));
                }
            }
            _ => {}
        }
    }
    found
}

/// A message of its line. The second number of a token is the site that it is for.
fn message_of(line: &str) -> Message {
    let token = line.split_once("\"token\":[").map(|(_, numbers)| numbers);
    Message {
        line: line.to_owned(),
        to: token.and_then(|numbers| numbers.split(',').nth(1)?.parse().ok()),
    }
}

pub(crate) fn without_line_feed(line: &str) -> &str {
    line.strip_suffix('\n').unwrap_or(line)
}

fn opened(status: i32, configuration: &str) -> Result<(), OpenError> {
    match status {
        0 => Ok(()),
        2 => Err(OpenError::BadConfiguration(fault_of(
            Configuration,
            "",
            configuration,
        ))),
        3 => Err(OpenError::NoSuchSite),
        _ => Err(OpenError::OutOfMemory),
    }
}

fn answered(
    status: i32,
    kind: LineKind,
    configuration: &str,
    line: &str,
) -> Result<(), AnswerError> {
    match status {
        0 => Ok(()),
        1 => Err(AnswerError::Ended),
        2 => Err(AnswerError::BadLine(fault_of(kind, configuration, line))),
        _ => Err(AnswerError::OutOfMemory),
    }
}

fn replayed(status: i32, configuration: &str, entry: &str) -> Result<(), ReplayError> {
    match status {
        0 => Ok(()),
        1 => Err(ReplayError::Ended),
        2 => Err(ReplayError::BadLine(fault_of(Entry, configuration, entry))),
        3 => Err(ReplayError::WrongReply),
        _ => Err(ReplayError::OutOfMemory),
    }
}

/// All sites of a configuration, with the messages between them. Dropping it ends it.
///
/// It may go to another thread, and is used by one at a time: it is `Send`, and not `Sync`.
///
/// ```
/// let mut bank = rbbank::Bank::open(r#"{"accounts":[["ann",0]],"sites":2,"version":1}"#)?;
/// let bank = std::thread::spawn(move || {
///     bank.answer(r#"{"deposit":["ann",500],"site":0}"#).map(str::to_owned).map(|_| bank)
/// });
/// let mut bank = bank.join().expect("it doesn't panic")?;
/// assert_eq!(bank.answer(r#"{"balance":"ann","site":0}"#)?, r#"{"balance":500}"#);
/// # Ok::<(), Box<dyn std::error::Error>>(())
/// ```
///
/// ```compile_fail
/// fn shared<T: Sync>() {}
/// shared::<rbbank::Bank>();
/// ```
pub struct Bank {
    handle: Handle,
    configuration: String,
    text: Vec<u8>,
}

// SAFETY: the library keeps nothing of a thread's: its memory is the C library's, which any thread may give back, and
// two handles share nothing. Each call on a handle takes `&mut self`, so one thread at a time uses it.
unsafe impl Send for Bank {}

impl fmt::Debug for Bank {
    fn fmt(&self, f: &mut fmt::Formatter<'_>) -> fmt::Result {
        f.debug_struct("Bank").finish_non_exhaustive()
    }
}

impl Bank {
    /// The bank of a configuration's line, before any command.
    ///
    /// # Errors
    ///
    /// `BadConfiguration` and `OutOfMemory`.
    pub fn open(configuration: &str) -> Result<Bank, OpenError> {
        let mut bank = Bank {
            handle: Handle::NONE,
            configuration: configuration.to_owned(),
            text: Vec::new(),
        };
        // SAFETY: the handle is zeroed, and the line is that long.
        let status = unsafe {
            c::rbbank_open(
                &mut bank.handle,
                configuration.as_ptr(),
                configuration.len(),
            )
        };
        opened(status, configuration)?;
        Ok(bank)
    }

    /// Answers a command's line by a line, without its line feed. A refusal is an answer.
    ///
    /// # Errors
    ///
    /// `BadLine`, after which all is as it was; `OutOfMemory`, which ends the bank; `Ended`.
    pub fn answer(&mut self, command: &str) -> Result<&str, AnswerError> {
        // SAFETY: the handle was opened, and the line is that long.
        let status = unsafe { c::rbbank_answer(&mut self.handle, command.as_ptr(), command.len()) };
        answered(status, Command, &self.configuration, command)?;
        Ok(self.reply())
    }

    /// Answers a command's line as [`answer`](Bank::answer) does, and gives a text of the caller's own.
    ///
    /// # Errors
    ///
    /// As those of [`answer`](Bank::answer).
    pub fn answer_owned(&mut self, command: &str) -> Result<String, AnswerError> {
        self.answer(command).map(str::to_owned)
    }

    /// The last answer once more; empty if there was none, or the bank ended.
    pub fn reply(&mut self) -> &str {
        without_line_feed(copy(&mut self.handle, c::rbbank_reply, &mut self.text))
    }
}

impl Drop for Bank {
    fn drop(&mut self) {
        // SAFETY: the handle was opened or is zeroed, and is used no more.
        unsafe { c::rbbank_close(&mut self.handle) }
    }
}

/// One site of a configuration. Its journal is the caller's: the [`entries`](Site::entries) after the opening, and
/// then those after each answer, which are written where they last before anyone sees the answer. Dropping it ends it.
///
/// To go on after a crash, open the site again and see that the journal begins with its entries: else it is another
/// bank's, and might be replayed all the same. Then give it each whole line of the journal after the first, up to one
/// that doesn't begin with `{`. A journal that ends in a line feed and a TAB is sealed: no site goes on from it.
///
/// ```
/// use rbbank::Site;
///
/// let configuration = r#"{"accounts":[["ann",0]],"sites":2,"version":1}"#;
/// let mut site = Site::open(0, configuration)?;
/// let mut journal = site.entries().to_owned();
/// site.answer(r#"{"deposit":["ann",500]}"#)?;
/// journal += site.entries(); // and only now is the answer sent
/// assert!(site.reply().starts_with(r#"{"reply":{"kind":"deposit","name":"B0.1"},"sends":[{"shadow":{"#));
/// let message = site.sends()?.remove(0);
/// assert_eq!(message.to, None); // each other site
/// Site::open(1, configuration)?.answer(&message.line)?;
///
/// let mut again = Site::open(0, configuration)?; // after a crash
/// assert!(journal.starts_with(again.entries()), "another bank's journal");
/// for entry in journal.lines().skip(1) {
///     again.replay(entry)?;
/// }
/// assert_eq!(again.answer(r#"{"balance":"ann"}"#)?, r#"{"reply":{"balance":500},"sends":[],"then":[]}"#);
/// # Ok::<(), Box<dyn std::error::Error>>(())
/// ```
///
/// It may go to another thread, and is used by one at a time: it is `Send`, and not `Sync`.
///
/// ```compile_fail
/// fn shared<T: Sync>() {}
/// shared::<rbbank::Site>();
/// ```
pub struct Site {
    handle: Handle,
    configuration: String,
    text: Vec<u8>,
}

// SAFETY: as for a bank.
unsafe impl Send for Site {}

impl fmt::Debug for Site {
    fn fmt(&self, f: &mut fmt::Formatter<'_>) -> fmt::Result {
        f.debug_struct("Site").finish_non_exhaustive()
    }
}

/// A message of a site's answer.
#[derive(Clone, Debug, PartialEq, Eq)]
pub struct Message {
    /// Its line, word for word that of the event that a receiver is given.
    pub line: String,
    /// The site that it is for, or each other one.
    pub to: Option<u8>,
}

impl Site {
    /// Site `me`, 0 to 15, of a configuration's line, before any event.
    ///
    /// # Errors
    ///
    /// `BadConfiguration`, `NoSuchSite` and `OutOfMemory`.
    pub fn open(me: u8, configuration: &str) -> Result<Site, OpenError> {
        let mut site = Site {
            handle: Handle::NONE,
            configuration: configuration.to_owned(),
            text: Vec::new(),
        };
        // SAFETY: the handle is zeroed, and the line is that long.
        let status = unsafe {
            c::rbbank_site_open(
                &mut site.handle,
                me,
                configuration.as_ptr(),
                configuration.len(),
            )
        };
        opened(status, configuration)?;
        Ok(site)
    }

    /// Answers an event's line: any command but `deliver`, without its site, or a message of another site. The answer
    /// is the line `{"reply":..,"sends":[..],"then":[..]}`, without its line feed.
    ///
    /// A request or a batch may have a further key `"id"`, 1 to 64 characters of `A-Z a-z 0-9 . _ : -`, which the
    /// answer and the entry have too. Once it is made, the same line is answered by `{"again":true,"id":..}` with the
    /// same reply and messages, and another request of the id by `{"refused":25}`. Neither changes anything or has
    /// entries.
    ///
    /// A question changes nothing and has no entries: `{"about":"site"}`, or `{"resend":N}`, N 0 to 100,000,000, whose
    /// answer has a line `{"sends":[..]}` before its last for each of the last N entries that sent any message.
    ///
    /// # Errors
    ///
    /// `BadLine`, after which all is as it was; `OutOfMemory`, which ends the site; `Ended`.
    pub fn answer(&mut self, event: &str) -> Result<&str, AnswerError> {
        // SAFETY: the handle was opened, and the line is that long.
        let status =
            unsafe { c::rbbank_site_answer(&mut self.handle, event.as_ptr(), event.len()) };
        answered(status, Event, &self.configuration, event)?;
        Ok(self.reply())
    }

    /// Answers an event's line as [`answer`](Site::answer) does, and gives a text of the caller's own.
    ///
    /// # Errors
    ///
    /// As those of [`answer`](Site::answer).
    pub fn answer_owned(&mut self, event: &str) -> Result<String, AnswerError> {
        self.answer(event).map(str::to_owned)
    }

    /// What the last answer or replay gave once more; empty if there was none, or the site ended.
    pub fn reply(&mut self) -> &str {
        without_line_feed(copy(&mut self.handle, c::rbbank_site_reply, &mut self.text))
    }

    /// The messages of the last answer or replay, on all its lines.
    ///
    /// # Errors
    ///
    /// `OutOfMemory`, after which the site is as it was; `Ended`.
    pub fn sends(&mut self) -> Result<Vec<Message>, AnswerError> {
        messages(
            &mut self.handle,
            c::rbbank_site_send,
            c::rbbank_site_reply,
            &mut self.text,
        )
    }

    /// The lines that the last answer adds to the journal, each with its line feed, none if it recorded nothing;
    /// after the opening the configuration's line, which is the journal's first.
    pub fn entries(&mut self) -> &str {
        copy(&mut self.handle, c::rbbank_site_entries, &mut self.text)
    }

    /// Takes the next line of the site's journal, after the first and in any spelling, and gives the line
    /// `{"sends":[..]}` of what the entry sent, or nothing if it sent nothing.
    ///
    /// # Errors
    ///
    /// `BadLine`, after which all is as it was; `WrongReply` and `OutOfMemory`, which end the site; `Ended`.
    pub fn replay(&mut self, entry: &str) -> Result<&str, ReplayError> {
        // SAFETY: the handle was opened, and the line is that long.
        let status =
            unsafe { c::rbbank_site_replay(&mut self.handle, entry.as_ptr(), entry.len()) };
        replayed(status, &self.configuration, entry)?;
        Ok(self.reply())
    }
}

impl Drop for Site {
    fn drop(&mut self) {
        // SAFETY: the handle was opened or is zeroed, and is used no more.
        unsafe { c::rbbank_site_close(&mut self.handle) }
    }
}
