//! One ask of the probe's line protocol, answered.

use crate::calls;
use crate::text::{bytes, hex, join};

const BAD: &str = "? bad request";

/// The answer to one line.
pub fn answer(line: &str) -> String {
    match told(line) {
        Some(Ok(text)) => text,
        Some(Err(broken)) => broken,
        None => BAD.to_string(),
    }
}

type Told = Option<Result<String, String>>;

/// `None` where the line is no ask.
fn told(line: &str) -> Told {
    let words: Vec<&str> = line.split(' ').collect();
    match words.as_slice() {
        ["count", net, index] => count(net, index),
        ["load", table] => Some(Ok(calls::load(&bytes(table)?).to_string())),
        ["run", table, line] => run(table, line),
        ["field", len, from, to] => field(len, from, to),
        ["pattern", text, len] => pattern(text, len),
        ["build", net, work, out] => build(net, work, out),
        ["tagline", input] => Some(Ok(hex(&calls::tagline(&bytes(input)?)))),
        _ => None,
    }
}

fn count(net: &str, index: &str) -> Told {
    let (code, count) = calls::count(&bytes(net)?, index.parse().ok()?);
    Some(Ok(format!("{code} {count}")))
}

/// The line's bytes tell its places apart, so that a part that starts elsewhere is another part.
fn field(len: &str, from: &str, to: &str) -> Told {
    let len: usize = len.parse().ok()?;
    let (from, to): (i16, i16) = (from.parse().ok()?, to.parse().ok()?);
    let line: Vec<u8> = (0..len).map(|i| (i.wrapping_mul(0x9e3779b1) >> 13) as u8).collect();
    Some(calls::field(&line, from, to).and_then(|(code, part)| {
        let (start, end) = if code == 0 { (from as usize, to as usize) } else { (0, 0) };
        if part != line[start..end] {
            return Err(format!("! OTHER PART {}", hex(&part)));
        }
        Ok(format!("{code} {start} {end}"))
    }))
}

fn run(table: &str, line: &str) -> Told {
    let (code, answer, places) = calls::run(&bytes(table)?, &bytes(line)?);
    Some(Ok(format!("{code} {answer} {}", join(&places))))
}

fn pattern(text: &str, len: &str) -> Told {
    let made = calls::pattern(&bytes(text)?, len.parse().ok()?);
    Some(made.map(|m| format!("{} {} {}", m.code, m.place, hex(&m.net))))
}

fn build(net: &str, work: &str, out: &str) -> Told {
    let built = calls::build(&bytes(net)?, work.parse().ok()?, out.parse().ok()?);
    Some(built.map(|b| format!("{} {} {} {}", b.code, hex(&b.table), b.situations, b.registers)))
}
