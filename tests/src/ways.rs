//! An independent path search, straight from "Paths and their order": every path in order, each with its own set of
//! records that it stood on since its last byte. No situations, no registers, no marks that paths share.

pub enum Rec {
    Range(u8, u8, usize),
    Mask([u8; 32], usize),
    Fork(usize, usize),
    Tag(usize, usize),
    End(u8),
}

pub struct Net {
    pub tags: u8,
    pub recs: Vec<Rec>,
}

/// The net of a legal file.
pub fn read(file: &[u8]) -> Net {
    let mut recs = Vec::new();
    let mut at = 4;
    for _ in 0..file[3] {
        let body = &file[at + 1..];
        let n = |i: usize| body[i] as usize;
        let (rec, size) = match file[at] {
            0x11 => (Rec::Range(body[0], body[1], n(2)), 4),
            0x12 => (Rec::Mask(body[..32].try_into().expect("32 bytes"), n(32)), 34),
            0x13 => (Rec::Fork(n(0), n(1)), 3),
            0x14 => (Rec::Tag(n(0), n(1)), 3),
            0x15 => (Rec::End(body[0]), 2),
            kind => panic!("kind {kind}"),
        };
        recs.push(rec);
        at += size;
    }
    assert_eq!(at, file.len());
    Net { tags: file[2], recs }
}

/// END and tags of the first path.
pub type Answer = Option<(u8, [i32; 8])>;

struct Search<'a> {
    net: &'a Net,
    line: &'a [u8],
    steps: usize,
}

/// The answer of a line, or `None` where more than `steps` steps would be taken.
pub fn answer(net: &Net, line: &[u8], steps: usize) -> Option<Answer> {
    let mut search = Search { net, line, steps };
    search.from(0, 0, [-1; 8], 0)
}

impl Search<'_> {
    /// The first accepting path from a record at a place; `stood` are the records since the last byte.
    fn from(&mut self, on: usize, place: usize, tags: [i32; 8], stood: u64) -> Option<Answer> {
        self.steps = self.steps.checked_sub(1)?;
        if stood >> on & 1 == 1 {
            return Some(None);
        }
        let stood = stood | 1 << on;
        match &self.net.recs[on] {
            Rec::Range(lo, hi, next) => {
                let (lo, hi, next) = (*lo, *hi, *next);
                self.eat(|b| lo <= b && b <= hi, next, place, tags)
            }
            Rec::Mask(bits, next) => {
                let (bits, next) = (*bits, *next);
                self.eat(|b| bits[b as usize / 8] >> (b % 8) & 1 == 1, next, place, tags)
            }
            Rec::Fork(first, second) => {
                let (first, second) = (*first, *second);
                match self.from(first, place, tags, stood)? {
                    None => self.from(second, place, tags, stood),
                    found => Some(found),
                }
            }
            Rec::Tag(tag, next) => {
                let mut tags = tags;
                tags[*tag] = place as i32;
                self.from(*next, place, tags, stood)
            }
            Rec::End(end) => Some((place == self.line.len()).then_some((*end, tags))),
        }
    }

    fn eat(&mut self, takes: impl Fn(u8) -> bool, next: usize, place: usize, tags: [i32; 8]) -> Option<Answer> {
        match self.line.get(place) {
            Some(b) if takes(*b) => self.from(next, place + 1, tags, 0),
            _ => Some(None),
        }
    }
}

/// The bytes that a record takes, counted one by one.
pub fn count(net: &Net, index: usize) -> Option<u32> {
    match net.recs.get(index)? {
        Rec::Range(lo, hi, _) => Some((0..=255u8).filter(|b| lo <= b && b <= hi).count() as u32),
        Rec::Mask(bits, _) => Some((0..=255u8).filter(|b| bits[*b as usize / 8] >> (b % 8) & 1 == 1).count() as u32),
        _ => None,
    }
}
