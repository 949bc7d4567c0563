//! Whole runs, from all lines of an input to all lines of the output.
use crate::texts::fault_in;
use crate::LineKind::{self, Command, Entry};
use crate::{c, CloseError, RunError};

/// A call from bytes to bytes.
type Running = unsafe extern "C" fn(*const u8, usize, *mut u8, usize, *mut usize, *mut u64) -> i32;

/// Calls, again if the output is longer than `thought`: the status, the number and the output.
fn grown(
    thought: usize,
    mut call: impl FnMut(&mut [u8], &mut usize, &mut u64) -> i32,
) -> (i32, u64, String) {
    let mut out = vec![0; thought];
    let (mut written, mut number) = (0, 0);
    loop {
        let status = call(&mut out, &mut written, &mut number);
        if status == 3 {
            out.resize(number as usize, 0);
            continue;
        }
        out.truncate(written);
        let text = String::from_utf8(out).expect("the library writes ASCII");
        return (status, number, text);
    }
}

/// Runs a call on lines of this kind: its status, 0 or 1, and the output.
fn run(call: Running, kind: LineKind, input: &str) -> Result<(i32, String), RunError> {
    let (status, number, text) = grown(4096 + input.len(), |out, written, number| {
        // SAFETY: the input and the output are that long, and nothing overlaps.
        unsafe {
            call(
                input.as_ptr(),
                input.len(),
                out.as_mut_ptr(),
                out.len(),
                written,
                number,
            )
        }
    });
    match status {
        0 | 1 => Ok((status, text)),
        2 if number == 0 => Err(RunError::NoConfiguration),
        2 => Err(RunError::BadLine {
            line: number,
            written: text,
            why: fault_in(kind, input.as_bytes(), number),
        }),
        _ => Err(RunError::OutOfMemory),
    }
}

/// The replies to a script: a configuration and commands in, a line out for each command.
///
/// # Errors
///
/// `NoConfiguration`; `BadLine`, with what was written before; `OutOfMemory`.
pub fn script(lines: &str) -> Result<String, RunError> {
    run(c::rbbank_script, Command, lines).map(|(_, text)| text)
}

/// Histories of either version, written in version 2.
///
/// # Errors
///
/// As those of [`script`].
pub fn migrate(lines: &str) -> Result<String, RunError> {
    run(c::rbbank_migrate, Entry, lines).map(|(_, text)| text)
}

/// What an audit found.
#[derive(Clone, Debug, PartialEq, Eq)]
pub enum Audit {
    /// One world has the histories: the line says in which order.
    Order(String),
    /// No world has them: the line says where.
    Fault(String),
}

/// Whether one world can have recorded some histories: a configuration and then entries, a line each.
///
/// ```
/// let history = r#"{"accounts":[["ann",0]],"sites":2,"version":1}
/// {"event":{"balance":"ann"},"reply":{"balance":7},"site":0}
/// "#;
/// let fault = r#"{"event":1,"fault":"reply","site":0}"#.to_owned();
/// assert_eq!(rbbank::audit(history), Ok(rbbank::Audit::Fault(fault)));
/// ```
///
/// # Errors
///
/// As those of [`script`].
pub fn audit(histories: &str) -> Result<Audit, RunError> {
    let (status, text) = run(c::rbbank_audit, Entry, histories)?;
    let line = text.trim_end_matches('\n').to_owned();
    Ok(if status == 0 {
        Audit::Order(line)
    } else {
        Audit::Fault(line)
    })
}

/// What closing a bank's books found.
#[derive(Clone, Debug, PartialEq, Eq)]
pub enum Books {
    /// They are closed: the line is the configuration of the next bank.
    Closed(String),
    /// They can't be closed yet: the line says what each site lacks, or which account has more than one may start
    /// with, or what an audit finds.
    NotClosed(String),
}

/// The lines of these names. A name with a line feed in it is no name, and so is an empty one.
fn lines_of(names: &[&str]) -> String {
    names
        .iter()
        .map(|name| if name.contains('\n') { "" } else { name })
        .map(|name| name.to_owned() + "\n")
        .collect()
}

/// Closes a bank's books by the sealed journals of all its sites, in the order of their numbers. The next bank has
/// `sites` sites, 2 to 16, or as many as before, and these accounts after the others.
///
/// ```
/// use rbbank::{close, Books, CloseError, Site};
///
/// let configuration = r#"{"accounts":[["ann",0]],"sites":2,"version":1}"#;
/// let mut journals = Vec::new();
/// for me in 0..2 {
///     let mut site = Site::open(me, configuration)?;
///     journals.push(site.entries().to_owned() + "\t"); // nothing happened, and it is sealed
/// }
/// let journals: Vec<&[u8]> = journals.iter().map(|journal| journal.as_bytes()).collect();
/// let Books::Closed(next) = close(&journals, Some(3), &["zed"])? else { panic!() };
/// assert!(next.starts_with(r#"{"accounts":[["ann",0],["zed",0]],"#) && next.ends_with(r#""sites":3,"version":1}"#));
/// assert_eq!(close(&journals[..1], None, &[]), Err(CloseError::NumberOfJournals { journals: 1, sites: 2 }));
/// # Ok::<(), Box<dyn std::error::Error>>(())
/// ```
///
/// # Errors
///
/// Any of [`CloseError`]: the first thing that is wrong with the number of sites, with the names, or with a journal and
/// then those after it.
pub fn close(
    journals: &[&[u8]],
    sites: Option<u8>,
    accounts: &[&str],
) -> Result<Books, CloseError> {
    let bytes = journals.concat();
    let lengths: Vec<usize> = journals.iter().map(|journal| journal.len()).collect();
    let names = lines_of(accounts);
    // 0 asks for as many as before, and no bank has 1.
    let sites = sites.map_or(0, |sites| sites.max(1));
    let mut journal = 0;
    let (status, number, text) = grown(4096 + names.len(), |out, written, number| {
        // SAFETY: all is as long as is said, and nothing overlaps.
        unsafe {
            c::rbbank_close_books(
                sites,
                names.as_ptr(),
                names.len(),
                bytes.as_ptr(),
                bytes.len(),
                lengths.as_ptr(),
                lengths.len(),
                out.as_mut_ptr(),
                out.len(),
                written,
                number,
                &mut journal,
            )
        }
    });
    let line = text.trim_end_matches('\n').to_owned();
    match status {
        0 => Ok(Books::Closed(line)),
        1 => Ok(Books::NotClosed(line)),
        _ => Err(CloseError::of(
            status,
            number,
            journal as usize,
            journals,
            accounts,
        )),
    }
}
