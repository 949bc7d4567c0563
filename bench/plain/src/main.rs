//! A replicated bank in plain Rust: it answers the words `script`, `audit`, `migrate` and `threads` as rbbank does.

mod audit;
mod bank;
mod config;
mod entry;
mod event;
mod history;
mod inbox;
mod json;
mod kinds;
mod ledger;
mod lines;
mod migrate;
mod ops;
mod reply;
mod scan;
mod script;
mod site;
mod threads;
mod write;

use audit::Audit;
use lines::{Fault, run};
use migrate::Migration;
use script::Script;
use std::fs::File;
use std::os::fd::AsFd;
use std::process::ExitCode;
use threads::run_threads;
use write::Out;

/// The status where histories are no world's.
const FAULT_FOUND: u8 = 1;

/// The status where the words are wrong.
const WRONG_WORDS: u8 = 2;

/// Standard input or output without a buffer of its own.
fn file(of: impl AsFd) -> std::io::Result<File> {
    of.as_fd().try_clone_to_owned().map(File::from)
}

/// The numbers of sites and tellers, and the seed, of the options of a run of tellers.
fn threads_options(words: &[&str]) -> Option<(u8, u8, u32)> {
    let number = |name: &str| {
        let at = words.iter().position(|word| *word == name)?;
        words.get(at + 1)?.parse::<u32>().ok()
    };
    let (sites, tellers) = (number("--sites")?, number("--tellers")?);
    let is_within = words.len() == 6 && (2..=16).contains(&sites) && (1..=64).contains(&tellers);
    is_within.then_some((sites as u8, tellers as u8, number("--seed")?))
}

/// Does what the words ask for, and gives the status. `None` means that they are wrong.
fn answer(words: &[&str]) -> Option<Result<u8, Fault>> {
    let Ok(input) = file(std::io::stdin()) else {
        return Some(Err(Fault::Read));
    };
    let Ok(output) = file(std::io::stdout()) else {
        return Some(Err(Fault::Write));
    };
    let mut out = Out::new(Some(output));
    Some(match words {
        ["script"] => run::<Script>(input, &mut out).map(|_| 0),
        ["migrate"] => run::<Migration>(input, &mut out).map(|_| 0),
        ["audit"] => run::<Audit>(input, &mut out).and_then(|audit| finish(&audit, &mut out)),
        ["threads", options @ ..] => {
            let (sites, tellers, seed) = threads_options(options)?;
            run_threads(sites, tellers, seed, &mut out)
        }
        _ => return None,
    })
}

/// Writes what an audit found.
fn finish(audit: &Audit, out: &mut Out) -> Result<u8, Fault> {
    let has_order = audit.finish(out);
    out.flush();
    if out.failed {
        return Err(Fault::Write);
    }
    Ok(if has_order { 0 } else { FAULT_FOUND })
}

fn main() -> ExitCode {
    let words: Vec<_> = std::env::args_os().skip(1).collect();
    let words: Vec<_> = words.iter().map(|word| word.to_str().unwrap_or("")).collect();
    match answer(&words) {
        Some(Ok(status)) => ExitCode::from(status),
        Some(Err(fault)) => {
            eprintln!("rbbank: {}", fault.message());
            ExitCode::from(fault.status())
        }
        None => {
            eprintln!(
                "usage: plain-bank script|audit|migrate < FILE, or plain-bank threads --sites K --tellers T --seed S"
            );
            ExitCode::from(WRONG_WORDS)
        }
    }
}
