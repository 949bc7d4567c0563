//! `idle THREADS BYTES` makes threads that do nothing, and writes this number of bytes once they have ended: what no
//! run of as many threads, with histories of this length, can do without.

use std::io::{Write, stdout};
use std::{env, thread};

const PIECE: [u8; 65_536] = [b'x'; 65_536];

fn main() -> std::io::Result<()> {
    let mut numbers = env::args().skip(1).map(|word| word.parse().unwrap_or(0));
    let (threads, mut left) = (numbers.next().unwrap_or(0), numbers.next().unwrap_or(0));
    thread::scope(|scope| {
        for _ in 0..threads {
            scope.spawn(|| {});
        }
    });
    let mut out = stdout().lock();
    while left > 0 {
        let count = left.min(PIECE.len());
        out.write_all(&PIECE[..count])?;
        left -= count;
    }
    Ok(())
}
