//! Random patterns, nets and damaged bytes.

use crate::rng::Rng;

/// A pattern as a tree, so that its language can be asked for without reading its text.
pub enum Pat {
    Empty,
    Byte(u8),
    Any,
    Set(Vec<u8>, bool),
    Tag(u8),
    Seq(Vec<Pat>),
    Alt(Box<Pat>, Box<Pat>),
    Star(Box<Pat>),
    Plus(Box<Pat>),
    Opt(Box<Pat>),
}

pub const ALPHABET: &[u8] = b"ab(";

pub fn pattern(rng: &mut Rng, depth: usize) -> Pat {
    let atoms = if depth == 0 { 6 } else { 12 };
    let inner = |rng: &mut Rng| Box::new(pattern(rng, depth - 1));
    match rng.below(atoms) {
        0 | 1 => Pat::Byte(rng.pick(ALPHABET)),
        2 => Pat::Any,
        3 => Pat::Tag(rng.below(8) as u8),
        4 => Pat::Set((0..1 + rng.below(2)).map(|_| rng.pick(ALPHABET)).collect(), rng.one_in(3)),
        5 => Pat::Empty,
        6 | 7 => Pat::Seq((0..rng.below(4)).map(|_| *inner(rng)).collect()),
        8 => Pat::Alt(inner(rng), inner(rng)),
        9 => Pat::Star(inner(rng)),
        10 => Pat::Plus(inner(rng)),
        _ => Pat::Opt(inner(rng)),
    }
}

impl Pat {
    /// The text, every composite piece in parentheses.
    pub fn text(&self, out: &mut Vec<u8>) {
        let group = |p: &Pat, out: &mut Vec<u8>| {
            out.push(b'(');
            p.text(out);
            out.push(b')');
        };
        let byte = |b: u8, out: &mut Vec<u8>| {
            if !b.is_ascii_alphanumeric() {
                out.push(b'\\');
            }
            out.push(b);
        };
        match self {
            Pat::Empty => {}
            Pat::Byte(b) => byte(*b, out),
            Pat::Any => out.push(b'.'),
            Pat::Set(items, not) => {
                out.push(b'[');
                if *not {
                    out.push(b'^');
                }
                items.iter().for_each(|b| byte(*b, out));
                out.push(b']');
            }
            Pat::Tag(t) => out.extend([b'@', b'0' + t]),
            Pat::Seq(parts) => parts.iter().for_each(|p| group(p, out)),
            Pat::Alt(p, q) => {
                group(p, out);
                out.push(b'|');
                group(q, out);
            }
            Pat::Star(p) => {
                group(p, out);
                out.push(b'*');
            }
            Pat::Plus(p) => {
                group(p, out);
                out.push(b'+');
            }
            Pat::Opt(p) => {
                group(p, out);
                out.push(b'?');
            }
        }
    }

    /// The places where a reading from `at` can end: the pattern's language with tags erased.
    pub fn ends(&self, line: &[u8], at: u64) -> u64 {
        let eat = |takes: &dyn Fn(u8) -> bool| {
            (0..line.len()).filter(|i| at >> i & 1 == 1 && takes(line[*i])).fold(0, |m, i| m | 1 << (i + 1))
        };
        match self {
            Pat::Empty | Pat::Tag(_) => at,
            Pat::Byte(b) => eat(&|c| c == *b),
            Pat::Any => eat(&|_| true),
            Pat::Set(items, not) => eat(&|c| items.contains(&c) != *not),
            Pat::Seq(parts) => parts.iter().fold(at, |m, p| p.ends(line, m)),
            Pat::Alt(p, q) => p.ends(line, at) | q.ends(line, at),
            Pat::Star(p) => star(p, line, at),
            Pat::Plus(p) => star(p, line, p.ends(line, at)),
            Pat::Opt(p) => at | p.ends(line, at),
        }
    }

    /// Whether a line of at most 63 bytes is in the language.
    pub fn takes(&self, line: &[u8]) -> bool {
        self.ends(line, 1) >> line.len() & 1 == 1
    }
}

fn star(p: &Pat, line: &[u8], at: u64) -> u64 {
    let more = at | p.ends(line, at);
    if more == at { at } else { star(p, line, more) }
}

/// A legal net of a few records.
pub fn net(rng: &mut Rng) -> Vec<u8> {
    let tags = rng.below(9);
    let most = if rng.one_in(8) { 64 } else { 10 };
    let count = 1 + rng.below(most);
    let mut file = vec![0x10, 1, tags as u8, count as u8];
    for _ in 0..count {
        let next = rng.below(count) as u8;
        let other = rng.below(count) as u8;
        match rng.below(10) {
            0..=2 => {
                let (a, b) = (rng.pick(ALPHABET), rng.pick(ALPHABET));
                file.extend([0x11, a.min(b), a.max(b), next]);
            }
            3 => {
                let mut bits = [0u8; 32];
                ALPHABET.iter().filter(|_| rng.one_in(2)).for_each(|b| bits[*b as usize / 8] |= 1 << (b % 8));
                file.push(0x12);
                file.extend(bits);
                file.push(next);
            }
            4 | 5 => file.extend([0x13, next, other]),
            6 | 7 if tags > 0 => file.extend([0x14, rng.below(tags) as u8, next]),
            _ => file.extend([0x15, rng.below(255) as u8]),
        }
    }
    file
}

/// The bytes with a few of them changed, cut, doubled or added.
pub fn damaged(rng: &mut Rng, bytes: &[u8]) -> Vec<u8> {
    let mut out = bytes.to_vec();
    for _ in 0..1 + rng.below(3) {
        let at = rng.below(out.len() + 1);
        match rng.below(6) {
            0 if at < out.len() => out[at] = rng.next() as u8,
            1 if at < out.len() => out[at] = out[at].wrapping_add(1),
            2 if at < out.len() => out[at] = out[at].wrapping_sub(1),
            3 => out.truncate(at),
            4 => out.insert(at, rng.next() as u8),
            _ if at < out.len() => {
                out.remove(at);
            }
            _ => {}
        }
    }
    out
}
