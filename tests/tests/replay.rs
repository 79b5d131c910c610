//! Every vector, through the exported calls.

use chorvugdan_tests::vectors::{cases, fault};

fn replay(kind: &str) {
    let all = cases(kind);
    assert!(!all.is_empty(), "no case of kind {kind}");
    let faults: Vec<String> = all.iter().filter_map(|c| fault(c)).collect();
    let shown = faults.iter().take(5).map(|f| f.chars().take(400).collect::<String>() + "\n");
    assert!(faults.is_empty(), "{} of {} cases differ:\n{}", faults.len(), all.len(), shown.collect::<String>());
}

#[test]
fn counts() {
    replay("C");
}

#[test]
fn patterns() {
    replay("P");
}

#[test]
fn builds() {
    replay("B");
}

#[test]
fn loads() {
    replay("L");
}

#[test]
fn runs() {
    replay("R");
}

#[test]
fn readings() {
    replay("G");
}

#[test]
fn fields() {
    replay("F");
}
