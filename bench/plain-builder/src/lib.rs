//! The builder of document 01 as one writes it in Rust: for the bench alone, nothing here is proved.

use std::collections::HashMap;

/// Where a tag's place comes from: a register of before, the place reached now, or nowhere.
const NOW: u8 = 64;
const ABSENT: u8 = 255;

const REGISTERS_MAX: usize = 64;
const SITUATIONS_MAX: usize = 96;

#[repr(u8)]
#[derive(Clone, Copy, Debug, PartialEq)]
pub enum Refusal {
    Kind = 5,
    Short,
    Field,
    Extra,
    Registers = 10,
    Situations,
    OutSmall,
}

// ---- the automaton ----

#[derive(Clone, Copy)]
enum Record {
    Bytes { next: u8 },
    Fork { first: u8, second: u8 },
    Tag { tag: u8, next: u8 },
    End { answer: u8 },
}

struct Net {
    tags: usize,
    records: Vec<Record>,
    /// For each byte the records that take it.
    takers: [u64; 256],
}

struct Reader<'a>(&'a [u8]);

impl<'a> Reader<'a> {
    fn body<const N: usize>(&mut self) -> Result<&'a [u8; N], Refusal> {
        let (body, rest) = self.0.split_first_chunk().ok_or(Refusal::Short)?;
        self.0 = rest;
        Ok(body)
    }

    fn kind(&mut self) -> Result<u8, Refusal> {
        self.body::<1>().map(|body| body[0])
    }
}

fn check(holds: bool) -> Result<(), Refusal> {
    holds.then_some(()).ok_or(Refusal::Field)
}

impl Net {
    fn read(file: &[u8]) -> Result<Net, Refusal> {
        let mut reader = Reader(file);
        if reader.kind()? != 0x10 {
            return Err(Refusal::Kind);
        }
        let &[edition, tags, count] = reader.body()?;
        check(edition == 1 && tags <= 8 && (1..=64).contains(&count))?;
        let mut net = Net { tags: tags.into(), records: Vec::with_capacity(count.into()), takers: [0; 256] };
        for index in 0..count {
            let record = net.read_record(&mut reader, index, count)?;
            net.records.push(record);
        }
        if reader.0.is_empty() {
            Ok(net)
        } else {
            Err(Refusal::Extra)
        }
    }

    fn read_record(&mut self, reader: &mut Reader, index: u8, count: u8) -> Result<Record, Refusal> {
        let bit = 1 << index;
        Ok(match reader.kind()? {
            0x11 => {
                let &[lo, hi, next] = reader.body()?;
                check(lo <= hi && next < count)?;
                self.takers[lo.into()..=hi.into()].iter_mut().for_each(|t| *t |= bit);
                Record::Bytes { next }
            }
            0x12 => {
                let &[ref mask @ .., next] = reader.body::<33>()?;
                check(next < count)?;
                for (byte, takers) in self.takers.iter_mut().enumerate() {
                    if mask[byte / 8] >> (byte % 8) & 1 == 1 {
                        *takers |= bit;
                    }
                }
                Record::Bytes { next }
            }
            0x13 => {
                let &[first, second] = reader.body()?;
                check(first < count && second < count)?;
                Record::Fork { first, second }
            }
            0x14 => {
                let &[tag, next] = reader.body()?;
                check(usize::from(tag) < self.tags && next < count)?;
                Record::Tag { tag, next }
            }
            0x15 => {
                let &[answer] = reader.body()?;
                check(answer < 255)?;
                Record::End { answer }
            }
            _ => return Err(Refusal::Kind),
        })
    }

    /// Each byte's class, and each class's takers; classes are numbered by their lowest byte.
    fn classes(&self) -> ([u8; 256], Vec<u64>) {
        let mut classes = Vec::new();
        let mut numbers = HashMap::new();
        let of = self.takers.map(|takers| {
            *numbers.entry(takers).or_insert_with(|| {
                classes.push(takers);
                (classes.len() - 1) as u8
            })
        });
        (of, classes)
    }
}

// ---- situations ----

/// A record in a situation's list and for each tag its register.
type Stand = (u8, [u8; 8]);

/// The list under way; its registers are still those of before, or `NOW`.
struct Walk<'a> {
    net: &'a Net,
    seen: u64,
    list: Vec<Stand>,
}

impl<'a> Walk<'a> {
    fn new(net: &'a Net) -> Self {
        Walk { net, seen: 0, list: Vec::new() }
    }

    fn visit(&mut self, at: u8, mut places: [u8; 8]) {
        if self.seen >> at & 1 == 1 {
            return;
        }
        self.seen |= 1 << at;
        match self.net.records[usize::from(at)] {
            Record::Fork { first, second } => {
                self.visit(first, places);
                self.visit(second, places);
            }
            Record::Tag { tag, next } => {
                places[usize::from(tag)] = NOW;
                self.visit(next, places);
            }
            Record::Bytes { .. } | Record::End { .. } => self.list.push((at, places)),
        }
    }

    /// The situation with its registers numbered by first appearance, and where each of them comes from.
    fn numbered(mut self) -> Result<(Vec<Stand>, Vec<u8>), Refusal> {
        let mut numbers = [[ABSENT; NOW as usize + 1]; 8];
        let mut origins = Vec::new();
        for (_, places) in &mut self.list {
            for (place, numbers) in places.iter_mut().zip(&mut numbers).take(self.net.tags) {
                if *place == ABSENT {
                    continue;
                }
                let number = &mut numbers[usize::from(*place)];
                if *number == ABSENT {
                    if origins.len() == REGISTERS_MAX {
                        return Err(Refusal::Registers);
                    }
                    *number = origins.len() as u8;
                    origins.push(*place);
                }
                *place = *number;
            }
        }
        Ok((self.list, origins))
    }
}

/// What follows a row's bounds: the next situation, then the commands that fill each register from its origin.
fn tail(next: u8, origins: &[u8]) -> Vec<u8> {
    let mut out = vec![next];
    for (to, &from) in (0u8..).zip(origins) {
        if from == NOW {
            out.extend([0x25, to]);
        } else if from != to {
            out.extend([0x24, to, from]);
        }
    }
    out
}

// ---- the table ----

struct Builder<'a> {
    net: &'a Net,
    situations: Vec<Vec<Stand>>,
    numbers: HashMap<Vec<Stand>, u8>,
    registers: usize,
}

impl<'a> Builder<'a> {
    /// The way into the situation that a walk ends in, known or new: a row's tail.
    fn arrive(&mut self, walk: Walk<'a>) -> Result<Vec<u8>, Refusal> {
        let (list, origins) = walk.numbered()?;
        self.registers = self.registers.max(origins.len());
        let next = match self.numbers.get(&list) {
            Some(&number) => number,
            None if self.situations.len() == SITUATIONS_MAX => return Err(Refusal::Situations),
            None => {
                let number = self.situations.len() as u8;
                self.situations.push(list.clone());
                self.numbers.insert(list, number);
                number
            }
        };
        Ok(tail(next, &origins))
    }

    fn step(&mut self, from: usize, takers: u64) -> Result<Vec<u8>, Refusal> {
        let mut walk = Walk::new(self.net);
        for &(at, places) in &self.situations[from] {
            if let Record::Bytes { next } = self.net.records[usize::from(at)] {
                if takers >> at & 1 == 1 {
                    walk.visit(next, places);
                }
            }
        }
        self.arrive(walk)
    }

    /// The first END in the list, its answer and registers.
    fn item(&self, number: usize) -> [u8; 10] {
        let mut item = [ABSENT; 10];
        item[0] = 0x22;
        for (at, places) in &self.situations[number] {
            if let Record::End { answer } = self.net.records[usize::from(*at)] {
                item[1] = answer;
                item[2..].copy_from_slice(places);
                break;
            }
        }
        item
    }
}

/// Rows of neighbouring bytes with equal tails, where `of` is each byte's class.
fn write_rows(of: &[u8; 256], tails: &[Vec<u8>], table: &mut Vec<u8>) {
    let tail = |b: usize| &tails[usize::from(of[b])];
    let mut lo = 0;
    for hi in 0..256 {
        if hi == 255 || (of[hi] != of[hi + 1] && tail(hi) != tail(hi + 1)) {
            table.extend([0x23, lo as u8, hi as u8]);
            table.extend(tail(hi));
            lo = hi + 1;
        }
    }
}

pub struct Built {
    pub table: Vec<u8>,
    pub situations: usize,
    pub registers: usize,
}

pub fn build(file: &[u8]) -> Result<Built, Refusal> {
    let net = Net::read(file)?;
    let (of, classes) = net.classes();
    let mut builder = Builder { net: &net, situations: Vec::new(), numbers: HashMap::new(), registers: 0 };
    let mut start = Walk::new(&net);
    start.visit(0, [ABSENT; 8]);
    let start = builder.arrive(start)?;
    let mut table = vec![0x21, 1, net.tags as u8, 0, 0];
    table.extend(&start[1..]);
    let mut at = 0;
    while at < builder.situations.len() {
        let tails = classes.iter().map(|&takers| builder.step(at, takers)).collect::<Result<Vec<_>, _>>()?;
        table.extend(builder.item(at));
        write_rows(&of, &tails, &mut table);
        at += 1;
    }
    table[3] = builder.registers as u8;
    table[4] = builder.situations.len() as u8;
    Ok(Built { table, situations: builder.situations.len(), registers: builder.registers })
}

/// As `cv_build`, but for the work memory: this one takes its own.
///
/// # Safety
/// `net` points to `net_len` bytes, `out` to `out_len`, the others to one value each.
#[no_mangle]
pub unsafe extern "C" fn plain_rust_build(
    net: *const u8,
    net_len: usize,
    out: *mut u8,
    out_len: usize,
    length: *mut usize,
    situations: *mut usize,
    registers: *mut usize,
) -> u8 {
    let out = std::slice::from_raw_parts_mut(out, out_len);
    let told = build(std::slice::from_raw_parts(net, net_len)).and_then(|built| {
        let room = out.get_mut(..built.table.len()).ok_or(Refusal::OutSmall)?;
        room.copy_from_slice(&built.table);
        Ok((built.table.len(), built.situations, built.registers))
    });
    (*length, *situations, *registers) = told.unwrap_or((0, 0, 0));
    told.map_or_else(|refusal| refusal as u8, |_| 0)
}
