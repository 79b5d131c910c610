//! Tables at the limits: the largest file, and chains of situations that need many rounds of judging.

use chorvugdan_tests::calls;

const NONE: [u8; 8] = [255; 8];

fn head(regs: u8, sits: u8) -> Vec<u8> {
    vec![0x21, 1, 8, regs, sits]
}

fn situation(table: &mut Vec<u8>, answer: u8, fields: [u8; 8]) {
    table.extend([0x22, answer]);
    table.extend(fields);
}

/// 96 situations of 256 rows of 64 MOVEs; `set` says whether the start SETs the registers that they read.
fn largest(set: bool) -> Vec<u8> {
    let mut table = head(64, 96);
    if set {
        (0..64).for_each(|r| table.extend([0x25, r]));
    }
    for q in 0..96u8 {
        situation(&mut table, q, [0, 1, 2, 3, 4, 5, 6, 63]);
        for b in 0..=255u8 {
            table.extend([0x23, b, b, (q + 1) % 96]);
            (0..64).for_each(|r| table.extend([0x24, r, 63 - r]));
        }
    }
    table
}

#[test]
fn the_largest_table() {
    let table = largest(true);
    assert_eq!(table.len(), 96 * (10 + 256 * (4 + 64 * 3)) + 5 + 128);
    assert_eq!(calls::load(&table), 0);
    // every row turns the bank round, so after an even number of bytes each register has its own place 0 again
    assert_eq!(calls::run(&table, &[7; 32766]), (0, (32766 % 96) as u8, [0; 8]));
    assert_eq!(calls::load(&largest(false)), 14);
    assert_eq!(calls::load(&table[..table.len() - 1]), 13);
}

/// A chain of 96 situations; only the last reads register 0, which nothing writes. Where the chain runs against the numbers,
/// a pass in the order of the file carries the emptiness one situation further only.
fn chain(reversed: bool) -> Vec<u8> {
    let next = |q: u8| match (reversed, q) {
        (false, 95) => 95,
        (false, q) => q + 1,
        (true, 0) => 95,
        (true, 1) => 1,
        (true, q) => q - 1,
    };
    let last = if reversed { 1 } else { 95 };
    let mut table = head(1, 96);
    for q in 0..96u8 {
        let mut fields = NONE;
        if q == last {
            fields[0] = 0;
        }
        situation(&mut table, if q == last { 0 } else { 255 }, fields);
        table.extend([0x23, 0, 255, next(q)]);
    }
    table
}

#[test]
fn chains() {
    assert_eq!(calls::load(&chain(false)), 14);
    assert_eq!(calls::load(&chain(true)), 14);
    for reversed in [false, true] {
        let mut table = chain(reversed);
        table.splice(5..5, [0x25, 0]);
        assert_eq!(calls::load(&table), 0);
        assert_eq!(calls::run(&table, &[b'x'; 100]), (0, 0, [0, -1, -1, -1, -1, -1, -1, -1]));
    }
}

/// Document 01's two tables: EMPTY_READ, and with a SET at the start taken, t0 = 0 on every line.
#[test]
fn the_two_tables_of_the_paper() {
    let mut table = vec![0x21, 1, 1, 1, 1, 0x22, 0, 0];
    table.extend([255; 7]);
    table.extend([0x23, 0, 255, 0]);
    assert_eq!(calls::load(&table), 14);
    assert_eq!(calls::run(&table, &[0; 40_000]), (14, 255, [-1; 8]));
    table.splice(5..5, [0x25, 0]);
    assert_eq!(calls::load(&table), 0);
    for line in [vec![], b"x".to_vec(), vec![255; 32767]] {
        assert_eq!(calls::run(&table, &line), (0, 0, [0, -1, -1, -1, -1, -1, -1, -1]));
    }
    assert_eq!(calls::run(&table, &[0; 32768]), (15, 255, [-1; 8]));
}

/// A place of 32767 is a place: a row that SETs at every byte tells the line's length.
#[test]
fn the_last_place() {
    let mut table = vec![0x21, 1, 1, 1, 1, 0x25, 0, 0x22, 9, 0];
    table.extend([255; 7]);
    table.extend([0x23, 0, 255, 0, 0x25, 0]);
    for len in [0usize, 1, 32766, 32767] {
        let places = [len as i16, -1, -1, -1, -1, -1, -1, -1];
        assert_eq!(calls::run(&table, &vec![1; len]), (0, 9, places));
    }
    let (code, image) = calls::mount(&table, 257);
    assert_eq!(code, 0);
    let told = |len: usize| match len {
        32768 => (15, 255, [-1; 8]),
        len => (0, 9, [len as i16, -1, -1, -1, -1, -1, -1, -1]),
    };
    for (one, two) in [(0, 32767), (32767, 1), (32768, 32766), (2, 32768), (32768, 32768)] {
        let got = calls::ride_two(&table, &image, &vec![1; one], &vec![1; two]);
        assert_eq!(got, [told(one), told(two)]);
    }
}
