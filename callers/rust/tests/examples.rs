//! The checked examples of document 01, and the sample feed, through the crate's types.

use chorvugdan::{BuildError, Error, LineError, Net, PartError, Pattern, PatternError, Table, TableError, Tag};

fn table(text: impl AsRef<[u8]>) -> Table {
    Pattern::new(text).expect("a pattern").build().expect("a table")
}

/// The places of tags 0 and 1, -1 for none.
fn places(text: &str, line: &[u8]) -> Result<(i32, i32), LineError> {
    let table = table(text);
    let mounted = table.clone().mount();
    assert_eq!(mounted.read(line), table.read(line));
    let reading = mounted.read(line)?;
    let place = |tag| reading.place(tag).map_or(-1, |p| p as i32);
    Ok((place(Tag::T0), place(Tag::T1)))
}

#[test]
fn cases_p() {
    assert_eq!(places("a*@0b*", b"aab"), Ok((2, -1)));
    assert_eq!(places("a*@0b*", b""), Ok((0, -1)));
    assert_eq!(places("a*@0b*", b"ba"), Err(LineError::NoMatch));
    assert_eq!(places("(a|b)*@0b(a|b)*", b"abba"), Ok((2, -1)));
    assert_eq!(places("a*@0a*a", b"aaa"), Ok((2, -1)));
    assert_eq!(places("(@0a*@1)*", b""), Ok((-1, -1)));
    assert_eq!(places("(@0a*@1)*", b"aa"), Ok((0, 2)));
    assert_eq!(places("(@0a@1|b)*", b"ab"), Ok((0, 1)));
    assert_eq!(places("(a|ab)@0(b|)", b"ab"), Ok((1, -1)));
    assert_eq!(places("a?@0a?", b"a"), Ok((1, -1)));
    assert_eq!(places("", b""), Ok((-1, -1)));
    assert_eq!(places("", b"x"), Err(LineError::NoMatch));
}

#[test]
fn limits() {
    let long = vec![b'a'; 32768];
    assert_eq!(places("a*@0", &long[..32767]), Ok((32767, -1)));
    assert_eq!(places("a*@0", &long), Err(LineError::Long));
    assert!(Pattern::new(&long[..63]).is_ok());
    assert_eq!(Pattern::new(&long[..64]), Err(PatternError::Big));
    assert_eq!(Pattern::new(&long[..256]), Err(PatternError::Long));
    let nested = |n: usize| "(".repeat(n) + "a" + &")".repeat(n);
    assert!(Pattern::new(nested(16)).is_ok());
    assert_eq!(Pattern::new(nested(17)), Err(PatternError::Deep { place: 16 }));
    for (text, place) in [("a**", 2), ("@8", 1), ("[z-a]", 3)] {
        assert_eq!(Pattern::new(text), Err(PatternError::Form { place }));
    }
    assert_eq!(table(".*a.....").situations(), 64);
    let six = Pattern::new(".*a......").expect("a pattern");
    assert_eq!(six.build(), Err(BuildError::Situations));
    let tags = ".*@0@1@2@3@4@5@6@7";
    let seven = table(format!("{tags}......."));
    assert_eq!((seven.situations(), seven.registers()), (8, 64));
    let eight = Pattern::new(format!("{tags}........")).expect("a pattern");
    assert_eq!(eight.build(), Err(BuildError::Registers));
}

/// Two lines in step are read as each is alone.
#[test]
fn two_lines() {
    let long = vec![b'a'; 32768];
    let lines = [&b"aab"[..], b"", b"ba", b"b", &long, &long[..32767]];
    let mounted = table("a*@0b*").mount();
    for line in lines {
        for other in lines {
            assert_eq!(mounted.read_two(line, other), (mounted.read(line), mounted.read(other)));
        }
    }
    assert_eq!(mounted.read_two(&long, b"aab").0, Err(LineError::Long));
}

#[test]
fn tables() {
    let bytes = table("a*@0b*").bytes().to_vec();
    assert_eq!(bytes.len(), 71);
    assert_eq!(Table::load(bytes.clone()).as_ref().map(|t| (t.situations(), t.registers())), Ok((3, 1)));
    for cut in 0..bytes.len() {
        assert_eq!(Table::load(&bytes[..cut]), Err(TableError::Form));
    }
}

/// A table of more than 65,536 bytes is built as well as a small one.
#[test]
fn long_table() {
    // `.*`, all eight tags, a set of every other byte, then `...`: neighbouring bytes never share a row.
    let mut net = vec![0x10, 1, 8, 15, 0x13, 1, 2, 0x11, 0, 255, 0];
    net.extend((0..8).flat_map(|tag| [0x14, tag, tag + 3]));
    net.push(0x12);
    net.extend([0x55; 32]);
    net.push(11);
    net.extend((11..14).flat_map(|at| [0x11, 0, 255, at + 1]));
    net.extend([0x15, 0]);
    let table = Net::load(net).expect("a net").build().expect("a table");
    assert!(table.bytes().len() > 65536, "{} bytes", table.bytes().len());
    assert!(Table::load(table.bytes()).is_ok());
}

#[test]
fn parts() {
    let table = table("@0a*@1b*@2(c@3)?@4");
    for line in [&b"aabbb"[..], b"", b"aac", b"bc"] {
        let reading = table.read(line).expect("a match");
        for from in Tag::ALL {
            for to in Tag::ALL {
                let mut out = vec![0; line.len()];
                let copied = reading.copy_part(from, to, &mut out);
                match reading.part(from, to) {
                    Ok(part) => assert_eq!(part, &out[..copied]),
                    Err(e) => {
                        assert_eq!(copied, 0);
                        let absent = reading.place(from).is_none() || reading.place(to).is_none();
                        assert_eq!(e, if absent { PartError::Absent } else { PartError::Back });
                    }
                }
            }
        }
    }
}

#[test]
fn numbers_and_sentences() {
    let e: Error = Pattern::new("[z-a]").expect_err("FORM").into();
    assert_eq!((e.number(), e.to_string().as_str()), (2, "no legal pattern begins like this at byte 3"));
    let e: Error = table("a").read(b"b").expect_err("NO_MATCH").into();
    assert_eq!((e.number(), e.to_string().as_str()), (16, "the line does not match"));
}

#[test]
fn sample_feed() {
    let feed = include_str!("../../../examples/feed.txt");
    let (pattern, lines) = feed.split_once('\n').expect("a pattern line");
    let table = table(pattern);
    let mut printed = String::new();
    for line in lines.lines() {
        let text = match table.read(line.as_bytes()) {
            Ok(reading) => {
                let part = |a, b| String::from_utf8_lossy(reading.part(a, b).expect("a part")).into_owned();
                let (truck, weight) = (part(Tag::T0, Tag::T1), part(Tag::T2, Tag::T3));
                format!("weight {weight} unit {} truck {truck}\n", part(Tag::T4, Tag::T5))
            }
            Err(e) => format!("no reading ({})\n", e.number()),
        };
        printed += &text;
    }
    assert_eq!(printed, include_str!("../../../examples/feed.out"));
}
