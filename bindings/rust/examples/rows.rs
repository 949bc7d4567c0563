//! The commands of the program over the crate, for bindings/check.py: what each writes has to be what the program
//! writes.
//!
//! usage: rows script|audit|migrate|bank < LINES
//!        rows site|journal --me S --journal FILE [--new] [--resend N] [--record all] < LINES
//!        rows close [--sites N] [--account NAME].. JOURNAL..
//!        rows calls COUNT < TWO LINES
//!
//! `bank` answers a script line by line. `site` keeps the journal itself, `journal` by `Journal`. `calls` gives the
//! second line COUNT times to the bank of the first, and writes nothing, for bench/bindings.py. A fault is
//! `rbbank: line N` without its kind.
use rbbank::{Audit, Bank, Books, Journal, JournalError, OpenError, ReplayError, RunError, Site};
use std::io::{Read, Write};
use std::process::ExitCode;
use std::{env, fs, io};

/// A fault of the input, in words.
struct Stop(String);

fn stop<T>(why: impl Into<String>) -> Result<T, Stop> {
    Err(Stop(why.into()))
}

fn write(text: &str) {
    let mut out = io::stdout().lock();
    out.write_all(text.as_bytes())
        .and_then(|()| out.flush())
        .expect("standard output takes it");
}

/// The lines that aren't blank, each with its number.
fn lines_of(input: &str) -> impl Iterator<Item = (usize, &str)> {
    let numbered = input
        .split('\n')
        .enumerate()
        .map(|(at, line)| (at + 1, line));
    numbered.filter(|(_, line)| !line.trim_matches([' ', '\t', '\r']).is_empty())
}

/// What a whole run wrote, or its fault after what it wrote before.
fn whole(run: Result<String, RunError>) -> Result<(), Stop> {
    match run {
        Ok(text) => write(&text),
        Err(RunError::BadLine { line, written, .. }) => {
            write(&written);
            return stop(format!("line {line}"));
        }
        Err(why) => return stop(why.to_string()),
    }
    Ok(())
}

fn audit(input: &str) -> Result<ExitCode, Stop> {
    match rbbank::audit(input) {
        Ok(Audit::Order(line)) => whole(Ok(line + "\n")).map(|()| ExitCode::SUCCESS),
        Ok(Audit::Fault(line)) => whole(Ok(line + "\n")).map(|()| ExitCode::from(1)),
        Err(why) => whole(Err(why)).map(|()| ExitCode::SUCCESS),
    }
}

/// A script, a line at a time.
fn bank(input: &str) -> Result<(), Stop> {
    let mut lines = lines_of(input);
    let Some((number, config)) = lines.next() else {
        return stop("no configuration");
    };
    let mut bank = Bank::open(config).or_else(|_| stop(format!("line {number}")))?;
    for (number, line) in lines {
        let reply = bank
            .answer(line)
            .or_else(|_| stop(format!("line {number}")))?;
        write(&format!("{reply}\n"));
    }
    Ok(())
}

/// One command over and over.
fn calls(input: &str, count: &str) -> Result<(), Stop> {
    let mut lines = input.lines();
    let (config, line) = (lines.next().unwrap_or(""), lines.next().unwrap_or(""));
    let mut bank = Bank::open(config).or_else(|_| stop("line 1"))?;
    for _ in 0..count.parse().unwrap_or(0u64) {
        if bank.answer(line).is_err() {
            return stop("line 2");
        }
    }
    Ok(())
}

/// The lines of a journal up to what a crash left: each begins with a brace, and has its line feed.
fn whole_lines(journal: &[u8]) -> &str {
    let mut end = 0;
    while journal.get(end) == Some(&b'{') {
        match journal[end..].iter().position(|byte| *byte == b'\n') {
            Some(at) => end += at + 1,
            None => break,
        }
    }
    std::str::from_utf8(&journal[..end]).unwrap_or("")
}

/// Gives a site what its journal has, then writes again what the last entries sent, and returns the journal's lines.
fn replay(site: &mut Site, journal: &[u8], resend: Option<usize>) -> Result<String, Stop> {
    let config = site.entries().to_owned();
    let before = whole_lines(journal);
    let is_new = before.is_empty() && matches!(journal.first(), None | Some(b' '));
    if !is_new && !before.starts_with(&config) {
        return stop("another bank's journal");
    }
    let entries: Vec<&str> = before.lines().skip(1).collect();
    let mut again = String::new();
    for (at, entry) in entries.iter().enumerate() {
        let sends = match site.replay(entry) {
            Ok(sends) => sends,
            Err(ReplayError::BadLine(_)) => {
                return stop(format!("journal line {}: bad line", at + 2))
            }
            Err(why) => return stop(format!("journal line {}: {why}", at + 2)),
        };
        if !sends.is_empty()
            && at >= entries.len() - resend.unwrap_or(entries.len()).min(entries.len())
        {
            again += &format!("{sends}\n");
        }
    }
    write(&again);
    Ok(if is_new { config } else { before.to_owned() })
}

/// What the words say of a site.
struct Asked<'a> {
    me: u8,
    path: &'a str,
    is_new: bool,
    resend: Option<usize>,
}

impl Asked<'_> {
    fn of(words: &[String]) -> Asked<'_> {
        let word = |name: &str| {
            let at = words.iter().position(|word| word == name)?;
            words.get(at + 1).map(String::as_str)
        };
        Asked {
            me: word("--me").expect("--me").parse().expect("a number"),
            path: word("--journal").expect("--journal"),
            is_new: words.iter().any(|word| word == "--new"),
            resend: word("--resend").map(|word| word.parse().expect("a number")),
        }
    }

    /// What the journal's file has, which is there unless it is new.
    fn stored(&self) -> Result<Vec<u8>, Stop> {
        match fs::read(self.path) {
            Ok(before) if self.is_new && !before.is_empty() => stop("there is a journal"),
            Ok(before) => Ok(before),
            Err(_) if self.is_new => Ok(Vec::new()),
            Err(_) => stop("no journal"),
        }
    }
}

/// A site with its journal, which is written before the answer is.
fn site(asked: &Asked, input: &str) -> Result<(), Stop> {
    let mut lines = lines_of(input);
    let Some((number, config)) = lines.next() else {
        return stop("no configuration");
    };
    let mut site = match Site::open(asked.me, config) {
        Ok(site) => site,
        Err(OpenError::NoSuchSite) => return stop("no such site"),
        Err(_) => return stop(format!("line {number}")),
    };
    let kept = replay(&mut site, &asked.stored()?, asked.resend)?;
    let mut journal = fs::File::create(asked.path).expect("a file");
    let mut keep = |text: &str| {
        journal
            .write_all(text.as_bytes())
            .expect("the journal takes it")
    };
    keep(&kept);
    for (number, line) in lines {
        if site.answer(line).is_ok() {
            keep(site.entries());
            write(&format!("{}\n", site.reply()));
        } else {
            write(&format!("{{\"bad\":\"line\",\"line\":{number}}}\n"));
        }
    }
    keep(" ");
    Ok(())
}

/// A fault without the reason of a bad line.
fn without_why(fault: &impl ToString) -> String {
    let text = fault.to_string();
    let end = text
        .find(": column ")
        .or_else(|| text.find(": it is an entry"));
    text[..end.unwrap_or(text.len())].to_owned()
}

/// A site whose journal the library keeps. It counts its lines itself, so that the blank ones are given as well.
fn journal(asked: &Asked, input: &str) -> Result<(), Stop> {
    let Some((number, config)) = lines_of(input).next() else {
        return stop("no configuration");
    };
    let resend = asked.resend.unwrap_or(usize::MAX);
    let mut site = match Journal::open(asked.path, asked.me, config, resend, asked.is_new) {
        Ok(site) => site,
        Err(JournalError::BadConfiguration(_)) => return stop(format!("line {number}")),
        Err(why) => return stop(without_why(&why)),
    };
    let put = |reply: &str| {
        if !reply.is_empty() {
            write(&format!("{reply}\n"));
        }
    };
    put(site.reply());
    for (at, line) in input.split('\n').enumerate() {
        if at + 1 != number {
            put(match site.answer(line) {
                Err(JournalError::BadLine(_)) => site.reply(),
                other => other.or_else(|why| stop(why.to_string()))?,
            });
        }
    }
    Ok(())
}

/// A fault with the journal's file in place of its number.
fn with_file(why: &str, files: &[&str]) -> String {
    match why
        .strip_prefix("journal ")
        .and_then(|rest| rest.split_once(": "))
    {
        Some((journal, rest)) => {
            let file = files[journal.parse::<usize>().expect("a number")];
            format!("{file}: {rest}")
        }
        None => why.to_owned(),
    }
}

/// Closes the books by the journals in these files.
fn close(words: &[String]) -> Result<ExitCode, Stop> {
    let (mut sites, mut accounts, mut files) = (None, Vec::new(), Vec::new());
    let mut words = words.iter().map(String::as_str);
    while let Some(word) = words.next() {
        match word {
            "--sites" => sites = words.next().map(|word| word.parse().expect("a number")),
            "--account" => accounts.extend(words.next()),
            file => files.push(file),
        }
    }
    let read = |file: &&str| fs::read(file).expect("a journal");
    let journals: Vec<Vec<u8>> = files.iter().map(read).collect();
    let journals: Vec<&[u8]> = journals.iter().map(Vec::as_slice).collect();
    match rbbank::close(&journals, sites, &accounts) {
        Ok(Books::Closed(line)) => whole(Ok(line + "\n")).map(|()| ExitCode::SUCCESS),
        Ok(Books::NotClosed(line)) => whole(Ok(line + "\n")).map(|()| ExitCode::from(1)),
        Err(why) => stop(with_file(&without_why(&why), &files)),
    }
}

fn run(words: &[String]) -> Result<ExitCode, Stop> {
    let mut input = String::new();
    io::stdin()
        .read_to_string(&mut input)
        .expect("standard input is UTF-8");
    match words.first().map_or("", String::as_str) {
        "script" => whole(rbbank::script(&input)),
        "migrate" => whole(rbbank::migrate(&input)),
        "audit" => return audit(&input),
        "close" => return close(&words[1..]),
        "bank" => bank(&input),
        "site" => site(&Asked::of(words), &input),
        "journal" => journal(&Asked::of(words), &input),
        "calls" => calls(&input, words.get(1).map_or("", String::as_str)),
        _ => stop("rows script|audit|migrate|bank|site|journal|close|calls"),
    }
    .map(|()| ExitCode::SUCCESS)
}

fn main() -> ExitCode {
    let words: Vec<String> = env::args().skip(1).collect();
    run(&words).unwrap_or_else(|Stop(why)| {
        eprintln!("rbbank: {why}");
        ExitCode::from(2)
    })
}
