//! The program itself, from standard input to standard output.

use chorvugdan_tests::calls::{tagline, tagline_between};
use chorvugdan_tests::vectors::{cases, fault};
use std::fs::File;
use std::process::Stdio;

#[test]
fn inputs() {
    let all = cases("T");
    assert!(!all.is_empty(), "no case of kind T");
    let faults: Vec<String> = all.iter().filter_map(|c| fault(c)).collect();
    let shown = faults.iter().take(5).map(|f| f.chars().take(400).collect::<String>() + "\n");
    assert!(faults.is_empty(), "{} of {} cases differ:\n{}", faults.len(), all.len(), shown.collect::<String>());
}

/// Document 01's example.
#[test]
fn the_example_of_the_paper() {
    let told = "table 71 situations 3 registers 1\n\
                0 2 -1 -1 -1 -1 -1 -1 -1\n\
                0 0 -1 -1 -1 -1 -1 -1 -1\n\
                0 0 -1 -1 -1 -1 -1 -1 -1\n\
                refused 16\n";
    assert_eq!(tagline(b"a*@0b*\naab\nb\n\nca\n"), told.as_bytes());
    assert_eq!(tagline(b"a*@0b*\naab\nb\n\nca"), told.as_bytes());
}

/// 65,536 bytes are taken, one more is not; as many empty lines as there is room for.
#[test]
fn the_longest_input() {
    let mut input = vec![b'\n'; 65536];
    let lines = tagline(&input);
    assert_eq!(lines.iter().filter(|b| **b == b'\n').count(), 65536);
    input.push(b'\n');
    assert_eq!(tagline(&input), b"input over 65536\n");
    input.extend(vec![b'x'; 100_000]);
    assert_eq!(tagline(&input), b"input over 65536\n");
}

/// A line of 32,767 bytes has a last place; one byte more is LINE_LONG.
#[test]
fn the_longest_line() {
    let mut input = b"a*@0\n".to_vec();
    input.extend(vec![b'a'; 32767]);
    input.push(b'\n');
    let end = |input: &[u8]| String::from_utf8(tagline(input)).expect("text").lines().last().map(str::to_string);
    assert_eq!(end(&input).as_deref(), Some("0 32767 -1 -1 -1 -1 -1 -1 -1"));
    input.insert(5, b'a');
    assert_eq!(end(&input).as_deref(), Some("refused 15"));
}

/// Records are told each as if alone, however many there are and whichever of them is too long.
#[test]
fn records_beside_each_other() {
    let long = "a".repeat(32768);
    let records = ["aab", &long, "", "ca", "b"];
    let told = |all: &[&str]| tagline(format!("a*@0b*\n{}", all.concat()).as_bytes());
    let head = told(&[]);
    for from in 0..records.len() {
        for to in from..=records.len() {
            let lines: Vec<String> = records[from..to].iter().map(|r| format!("{r}\n")).collect();
            let lines: Vec<&str> = lines.iter().map(String::as_str).collect();
            let alone = lines.iter().flat_map(|l| told(&[l])[head.len()..].to_vec());
            assert_eq!(told(&lines), [head.clone(), alone.collect()].concat(), "records {from} to {to}");
        }
    }
}

/// Document 01's sizes: 63 and 64 bytes, 16 and 17 groups, dots.
#[test]
fn sizes() {
    let first = |pattern: &[u8]| {
        let told = String::from_utf8(tagline(pattern)).expect("text");
        told.lines().next().map(str::to_string).expect("a line")
    };
    assert!(first(&[b'a'; 63]).starts_with("table "));
    assert_eq!(first(&[b'a'; 64]), "refused 4");
    let groups = |n: usize| [vec![b'('; n], vec![b')'; n]].concat();
    assert!(first(&groups(16)).starts_with("table "));
    assert_eq!(first(&groups(17)), "refused 3 at 16");
    assert!(first(b".*a.....").contains(" situations 64 "));
    assert_eq!(first(b".*a......"), "refused 11");
    assert!(first(b".*@0@1@2@3@4@5@6@7.......").ends_with(" situations 8 registers 64"));
    assert_eq!(first(b".*@0@1@2@3@4@5@6@7........"), "refused 10");
    assert_eq!(first(b"a**"), "refused 2 at 2");
    assert_eq!(first(b"@8"), "refused 2 at 1");
    assert_eq!(first(b"[z-a]"), "refused 2 at 3");
}

/// What the system will not take or give ends the program with a status and a word on it, and nothing is told of the feed.
#[test]
fn refused_by_the_system() {
    let folder = File::open(env!("CARGO_MANIFEST_DIR")).expect("the folder of the tests");
    let read = tagline_between(folder.into(), Stdio::piped()).wait_with_output().expect("the program ends");
    assert_eq!((read.status.code(), read.stdout.len()), (Some(1), 0));
    assert!(!read.stderr.is_empty());

    let full = File::options().write(true).open("/dev/full").expect("a device that is always full");
    let feed = File::open(concat!(env!("CARGO_MANIFEST_DIR"), "/../examples/paper.txt")).expect("the example feed");
    let write = tagline_between(feed.into(), full.into()).wait_with_output().expect("the program ends");
    assert_eq!(write.status.code(), Some(1));
    assert!(!write.stderr.is_empty());
}
