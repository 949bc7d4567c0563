//! A site whose journal is in a file, as a filter: `journal SITE JOURNAL [--new] < EVENTS`. It begins a new journal
//! with `--new`, else it goes on from the one that is there, and answers each line of its input by a line, a bad one by
//! `{"bad":..}`. Kill it at any moment and start it again, without `--new`. In bindings/rust, with `RBBANK_LIB` if the
//! library is elsewhere: `cargo run --example journal -- 0 site.journal --new`.
use rbbank::{Journal, JournalError};
use std::error::Error;
use std::io::{self, BufRead, Write};
use std::process::ExitCode;

const CONFIG: &str = r#"{"accounts":[["ann",0],["bob",1000]],"sites":2,"version":1}"#;

fn run() -> Result<(), Box<dyn Error>> {
    let words: Vec<String> = std::env::args().skip(1).collect();
    let (me, path, new) = match words.as_slice() {
        [me, path] => (me, path, false),
        [me, path, word] if word == "--new" => (me, path, true),
        _ => return Err("usage: journal SITE JOURNAL [--new] < EVENTS".into()),
    };
    let mut site = Journal::open(path, me.parse()?, CONFIG, 0, new)?;
    for line in io::stdin().lock().lines() {
        let reply = match site.answer(&line?) {
            Err(JournalError::BadLine(_)) => site.reply(),
            other => other?,
        };
        if !reply.is_empty() {
            writeln!(io::stdout(), "{reply}")?;
        }
    }
    Ok(())
}

fn main() -> ExitCode {
    match run() {
        Ok(()) => ExitCode::SUCCESS,
        Err(error) => {
            eprintln!("journal: {error}");
            ExitCode::FAILURE
        }
    }
}
