//! The vector files: each case replayed through the calls.

use crate::calls;
use crate::text::{bytes, hex, is};
use std::fs;
use std::path::{Path, PathBuf};

/// The folder with the large set if it is there, else the small set that is kept beside the tests.
pub fn folder() -> PathBuf {
    let here = Path::new(env!("CARGO_MANIFEST_DIR"));
    let large = here.join("../../shared/vectors");
    if large.is_dir() { large } else { here.join("vectors") }
}

/// Every line of the files whose first word is `kind`.
pub fn cases(kind: &str) -> Vec<String> {
    let mut files: Vec<PathBuf> =
        fs::read_dir(folder()).expect("vectors").map(|e| e.expect("entry").path()).collect();
    files.sort();
    let mut cases = Vec::new();
    for file in files.iter().filter(|f| f.extension().is_some_and(|e| e == "txt")) {
        let text = fs::read_to_string(file).expect("vectors are text");
        let head = format!("{kind} ");
        cases.extend(text.lines().filter(|l| l.starts_with(&head)).map(str::to_string));
    }
    cases
}

/// What is wrong with a case, or `None` where the calls agree with it.
pub fn fault(case: &str) -> Option<String> {
    let w: Vec<&str> = case.split(' ').filter(|x| !x.is_empty()).collect();
    let told = match w[0] {
        "C" => count(&w),
        "F" => field(&w),
        "G" => reading(&w),
        "L" => same(calls::load(&raw(w[1])), number(w[2])),
        "R" => run(&w),
        "P" => pattern(&w),
        "B" => build(&w),
        "T" => program(&w),
        _ => Err("no such kind".to_string()),
    };
    match told {
        Ok(()) => None,
        Err(why) => Some(format!("{case}\n  {why}")),
    }
}

type Fits = Result<(), String>;

fn number<T: std::str::FromStr>(word: &str) -> T {
    word.parse().unwrap_or_else(|_| panic!("no number: {word}"))
}

fn raw(word: &str) -> Vec<u8> {
    bytes(word).unwrap_or_else(|| panic!("no bytes: {word}"))
}

fn same<T: PartialEq + std::fmt::Debug>(got: T, want: T) -> Fits {
    if got == want { Ok(()) } else { Err(format!("got {got:?}, want {want:?}")) }
}

fn count(w: &[&str]) -> Fits {
    same(calls::count(&raw(w[1]), number(w[2])), (number(w[3]), number(w[4])))
}

fn reading(w: &[&str]) -> Fits {
    let places: [i16; 8] = std::array::from_fn(|i| number(w[2 + i]));
    let (code, part) = calls::reading(&raw(w[1]), &places, number(w[10]), number(w[11]))?;
    same(code, number(w[12]))?;
    if is(w[13], &part) { Ok(()) } else { Err("another part".to_string()) }
}

fn run(w: &[&str]) -> Fits {
    let places = std::array::from_fn(|i| number(w[5 + i]));
    same(calls::run(&raw(w[1]), &raw(w[2])), (number(w[3]), number(w[4]), places))
}

fn pattern(w: &[&str]) -> Fits {
    let m = calls::pattern(&raw(w[1]), number(w[2]))?;
    same((m.code, m.place, m.net.len()), (number(w[3]), number(w[4]), number(w[5])))?;
    if is(w[6], &m.net) { Ok(()) } else { Err(format!("another net: {}", hex(&m.net))) }
}

fn build(w: &[&str]) -> Fits {
    let b = calls::build(&raw(w[1]), number(w[2]), number(w[3]))?;
    same(
        (b.code, b.table.len(), b.situations, b.registers),
        (number(w[4]), number(w[5]), number(w[6]), number(w[7])),
    )?;
    if is(w[8], &b.table) { Ok(()) } else { Err(format!("another table: {}", hex(&b.table))) }
}

fn program(w: &[&str]) -> Fits {
    let out = calls::tagline(&raw(w[1]));
    if is(w[2], &out) { Ok(()) } else { Err(format!("another output: {}", String::from_utf8_lossy(&out))) }
}

fn field(w: &[&str]) -> Fits {
    let (code, part) = calls::field(&raw(w[1]), number(w[2]), number(w[3]))?;
    same(code, number(w[4]))?;
    if is(w[5], &part) { Ok(()) } else { Err("another part".to_string()) }
}
