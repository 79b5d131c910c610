//! Answers the probe's line protocol on standard input, one ask a line, flushing each answer.

use std::io::{self, BufRead, Write};

fn main() -> io::Result<()> {
    let mut out = io::stdout().lock();
    for line in io::stdin().lock().lines() {
        writeln!(out, "{}", chorvugdan_tests::probe::answer(&line?))?;
        out.flush()?;
    }
    Ok(())
}
