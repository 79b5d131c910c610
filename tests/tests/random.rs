//! Random cases against judges that share nothing with the library. `CASES=n` sets how many (default 3,000 of each kind),
//! `SEED=n` the seed; a failing case is printed as one line for the probe.

use chorvugdan_tests::calls;
use chorvugdan_tests::make;
use chorvugdan_tests::rng::Rng;
use chorvugdan_tests::text::{hex, join};
use chorvugdan_tests::{judge, ways};

const WORK: usize = 65536;
const OUT: usize = 65536;
/// Steps after which the path search gives a case up.
const STEPS: usize = 20_000;

fn number(name: &str, default: u64) -> u64 {
    match std::env::var(name) {
        Ok(text) => text.parse().unwrap_or_else(|_| panic!("{name} is no number: {text}")),
        Err(_) => default,
    }
}

/// Runs `one` on as many generators as there are cases, each from its own seed.
fn each(what: &str, one: impl Fn(&mut Rng)) {
    let seed = number("SEED", 1);
    let cases = number("CASES", 3_000);
    println!("{what}: {cases} cases, seed {seed}");
    for case in 0..cases {
        one(&mut Rng::new(seed.wrapping_mul(1 << 32).wrapping_add(case)));
    }
}

/// The table of a net, if it is built.
fn built(net: &[u8]) -> Option<Vec<u8>> {
    let b = calls::build(net, WORK, OUT).unwrap_or_else(|why| panic!("{why}: build {} {WORK} {OUT}", hex(net)));
    (b.code == 0).then_some(b.table)
}

/// The run of a built table against the path search.
fn compare(net: &[u8], table: &[u8], line: &[u8]) {
    let Some(want) = ways::answer(&ways::read(net), line, STEPS) else { return };
    let got = calls::run(table, line);
    let want = match want {
        None => (16, 255, [-1; 8]),
        Some((end, tags)) => (0, end, tags.map(|p| p as i16)),
    };
    assert_eq!(got, want, "run {} {}  (net {})", hex(table), hex(line), hex(net));
}

#[test]
fn nets_against_the_path_search() {
    each("nets", |rng| {
        let net = make::net(rng);
        let Some(table) = built(&net) else { return };
        assert_eq!(calls::load(&table), 0, "load {}", hex(&table));
        for _ in 0..8 {
            compare(&net, &table, &rng.line(8, make::ALPHABET));
        }
    });
}

#[test]
fn patterns_against_their_language_and_the_path_search() {
    each("patterns", |rng| {
        let pat = make::pattern(rng, 4);
        let mut text = Vec::new();
        pat.text(&mut text);
        let made = calls::pattern(&text, 4096).unwrap_or_else(|why| panic!("{why}: pattern {} 4096", hex(&text)));
        let fits = text.len() <= 255;
        assert!(fits == (made.code != 1) && (made.code <= 1 || made.code == 4), "pattern {} 4096", hex(&text));
        if made.code != 0 {
            return;
        }
        let Some(table) = built(&made.net) else { return };
        for _ in 0..8 {
            let line = rng.line(8, make::ALPHABET);
            let matched = calls::run(&table, &line).0 == 0;
            assert_eq!(matched, pat.takes(&line), "run {} {}  (pattern {})", hex(&table), hex(&line), hex(&text));
            compare(&made.net, &table, &line);
        }
    });
}

#[test]
fn tables_against_the_judge() {
    each("tables", |rng| {
        let net = make::net(rng);
        let Some(table) = built(&net) else { return };
        for _ in 0..8 {
            let table = make::damaged(rng, &table);
            assert_eq!(calls::load(&table), judge::judge(&table), "load {}", hex(&table));
            let line = rng.line(8, make::ALPHABET);
            let got = calls::run(&table, &line);
            assert_eq!(got, judge::run(&table, &line), "run {} {} -> {}", hex(&table), hex(&line), join(&got.2));
        }
    });
}

/// Two lines that ride in step are told as each is alone.
fn in_step(table: &[u8], image: &[u32], line: &[u8], other: &[u8]) {
    let alone = [calls::ride(table, image, line), calls::ride(table, image, other)];
    let got = calls::ride_two(table, image, line, other);
    assert_eq!(got, alone, "ride {}: {} beside {}", hex(table), hex(line), hex(other));
}

/// A ride over the image of a taken table is the run; over any other image it is answered.
#[test]
fn rides() {
    each("rides", |rng| {
        let Some(table) = built(&make::net(rng)) else { return };
        let len = 257 * table[4] as usize;
        let (code, mut image) = calls::mount(&table, len);
        assert_eq!(code, 0, "mount {}", hex(&table));
        assert_eq!(calls::mount(&table, len - 1), (12, vec![0xa5a5a5a5; len - 1]), "mount {}", hex(&table));
        let mut beside = Vec::new();
        for _ in 0..8 {
            let line = rng.line(8, make::ALPHABET);
            assert_eq!(calls::ride(&table, &image, &line), calls::run(&table, &line), "run {} {}", hex(&table), hex(&line));
            in_step(&table, &image, &beside, &line);
            beside = line;
        }
        let other = make::damaged(rng, &table);
        let judged = calls::load(&other);
        if judged != 0 {
            assert_eq!(calls::mount(&other, len), (judged, vec![0xa5a5a5a5; len]), "mount {}", hex(&other));
        }
        for _ in 0..8 {
            let at = rng.below(image.len());
            image[at] = rng.next() as u32;
            let line = rng.line(8, make::ALPHABET);
            let (code, answer, places) = calls::ride(&other, &image, &line);
            let told = code == 0 && answer != 255;
            assert!(told || (answer == 255 && places == [-1; 8]), "a refusal tells nothing: {code} {answer}");
            in_step(&other, &image, &line, &rng.line(8, make::ALPHABET));
        }
    });
}

/// Lines of all lengths beside each other and beside themselves: empty, a few bytes, hundreds, the longest, one byte more.
#[test]
fn rides_in_step() {
    each("rides in step", |rng| {
        let Some(table) = built(&make::net(rng)) else { return };
        let (_, image) = calls::mount(&table, 257 * table[4] as usize);
        let most = if rng.one_in(50) { 32768 } else { 300 };
        let mut long = rng.line(most, make::ALPHABET);
        long.resize(most, make::ALPHABET[0]);
        let lines = [vec![], rng.line(3, make::ALPHABET), rng.line(300, make::ALPHABET), long[1..].to_vec(), long];
        for line in &lines {
            for other in &lines {
                in_step(&table, &image, line, other);
            }
        }
    });
}

#[test]
fn counts_one_by_one() {
    each("counts", |rng| {
        let file = make::net(rng);
        let net = ways::read(&file);
        for index in 0..net.recs.len() + 1 {
            let want = ways::count(&net, index).map_or((20, 0), |n| (0, n));
            assert_eq!(calls::count(&file, index), want, "count {} {index}", hex(&file));
        }
    });
}

/// Any bytes are answered, nothing is written outside the result, and the work memory is zero: the calls check that.
#[test]
fn any_bytes() {
    each("bytes", |rng| {
        let net = make::net(rng);
        for bytes in [rng.bytes(40), make::damaged(rng, &net)] {
            let room = rng.below(80);
            let text = &bytes[..bytes.len().min(300)];
            calls::pattern(text, room).unwrap_or_else(|why| panic!("{why}: pattern {} {room}", hex(text)));
            let work = rng.pick(&[0, 1, 65535, 65536, 65537]);
            calls::build(&bytes, work, room).unwrap_or_else(|why| panic!("{why}: build {} {work} {room}", hex(&bytes)));
            calls::count(&bytes, rng.below(70));
            calls::load(&bytes);
            calls::run(&bytes, &net);
        }
    });
}
