//! The exported calls, wrapped. Every wrapper lends buffers with guard bytes around them and reports
//! where a promise about a buffer is broken: output touched on a refusal or past the result, work memory not zero.

use std::io::Write;
use std::path::Path;
use std::process::{Child, Command, Stdio};

/// What fills a buffer before a call.
const FILL: u8 = 0xa5;
const GUARD: usize = 32;

extern "C" {
    fn cv_count(net: *const u8, net_len: usize, index: usize, count: *mut u32) -> u8;
    fn cv_pattern(
        text: *const u8,
        text_len: usize,
        out: *mut u8,
        out_len: usize,
        place: *mut usize,
        length: *mut usize,
    ) -> u8;
    fn cv_build(
        net: *const u8,
        net_len: usize,
        work: *mut u8,
        work_len: usize,
        out: *mut u8,
        out_len: usize,
        length: *mut usize,
        situations: *mut usize,
        registers: *mut usize,
    ) -> u8;
    fn cv_load(table: *const u8, table_len: usize) -> u8;
    fn cv_run(
        table: *const u8,
        table_len: usize,
        line: *const u8,
        line_len: usize,
        answer: *mut u8,
        places: *mut i16,
    ) -> u8;
    fn cv_mount(table: *const u8, table_len: usize, image: *mut u32, image_len: usize) -> u8;
    fn cv_ride(
        table: *const u8,
        table_len: usize,
        image: *const u32,
        image_len: usize,
        line: *const u8,
        line_len: usize,
        answer: *mut u8,
        places: *mut i16,
    ) -> u8;
    fn cv_ride_two(
        table: *const u8,
        table_len: usize,
        image: *const u32,
        image_len: usize,
        line: *const u8,
        line_len: usize,
        other: *const u8,
        other_len: usize,
        codes: *mut u8,
        answers: *mut u8,
        first: *mut i16,
        second: *mut i16,
    );
    fn cv_reading_code(line: *const u8, line_len: usize, places: *const i16, a: u8, b: u8) -> u8;
    fn cv_reading(
        line: *const u8,
        line_len: usize,
        places: *const i16,
        a: u8,
        b: u8,
        out: *mut u8,
        out_len: usize,
    ) -> usize;
    fn cv_field_code(line: *const u8, line_len: usize, from: i16, to: i16) -> u8;
    fn cv_field(line: *const u8, line_len: usize, from: i16, to: i16, out: *mut u8, out_len: usize) -> usize;
}

/// A buffer between two runs of guard bytes.
pub struct Guarded {
    all: Vec<u8>,
    len: usize,
}

impl Guarded {
    pub fn new(len: usize) -> Guarded {
        Guarded { all: vec![FILL; len + 2 * GUARD], len }
    }

    pub fn part(&mut self) -> &mut [u8] {
        &mut self.all[GUARD..GUARD + self.len]
    }

    /// The first `len` bytes, if everything else is as it was.
    pub fn first(&self, len: usize) -> Result<&[u8], String> {
        let end = GUARD + len;
        let kept = |part: &[u8]| part.iter().all(|b| *b == FILL);
        if len > self.len || !kept(&self.all[..GUARD]) || !kept(&self.all[end..]) {
            return Err("! OUTPUT TOUCHED".to_string());
        }
        Ok(&self.all[GUARD..end])
    }
}

/// How many bytes a record takes: code and count.
pub fn count(net: &[u8], index: usize) -> (u8, u32) {
    let mut count = 0xa5a5a5a5;
    let code = unsafe { cv_count(net.as_ptr(), net.len(), index, &mut count) };
    (code, count)
}

/// A reading of a line and eight places between two tags: its number, and the bytes of the part.
pub fn reading(line: &[u8], places: &[i16; 8], a: u8, b: u8) -> Result<(u8, Vec<u8>), String> {
    let code = unsafe { cv_reading_code(line.as_ptr(), line.len(), places.as_ptr(), a, b) };
    let mut out = Guarded::new(line.len());
    let room = out.part();
    let len = unsafe {
        cv_reading(line.as_ptr(), line.len(), places.as_ptr(), a, b, room.as_mut_ptr(), room.len())
    };
    Ok((code, out.first(len)?.to_vec()))
}

/// The field call: its number, and the bytes of the part.
pub fn field(line: &[u8], from: i16, to: i16) -> Result<(u8, Vec<u8>), String> {
    let code = unsafe { cv_field_code(line.as_ptr(), line.len(), from, to) };
    let mut out = Guarded::new(line.len());
    let room = out.part();
    let len = unsafe { cv_field(line.as_ptr(), line.len(), from, to, room.as_mut_ptr(), room.len()) };
    Ok((code, out.first(len)?.to_vec()))
}

/// What the loader answers of a table.
pub fn load(table: &[u8]) -> u8 {
    unsafe { cv_load(table.as_ptr(), table.len()) }
}

/// A run: code, answer and eight places.
pub fn run(table: &[u8], line: &[u8]) -> (u8, u8, [i16; 8]) {
    let mut answer = 0;
    let mut places = [0x5a5a; 8];
    let code = unsafe {
        cv_run(table.as_ptr(), table.len(), line.as_ptr(), line.len(), &mut answer, places.as_mut_ptr())
    };
    (code, answer, places)
}

/// What the pattern maker answers.
#[derive(Debug, PartialEq)]
pub struct Made {
    pub code: u8,
    pub place: usize,
    pub net: Vec<u8>,
}

/// A pattern made into an automaton file, in an output of that length.
pub fn pattern(text: &[u8], out_len: usize) -> Result<Made, String> {
    let mut out = Guarded::new(out_len);
    let room = out.part();
    let (mut place, mut length) = (usize::MAX, usize::MAX);
    let code = unsafe {
        cv_pattern(text.as_ptr(), text.len(), room.as_mut_ptr(), room.len(), &mut place, &mut length)
    };
    Ok(Made { code, place, net: out.first(length)?.to_vec() })
}

/// What the builder answers.
#[derive(Debug, PartialEq)]
pub struct Built {
    pub code: u8,
    pub situations: usize,
    pub registers: usize,
    pub table: Vec<u8>,
}

/// A table built of an automaton file, with work memory and an output of those lengths.
pub fn build(net: &[u8], work_len: usize, out_len: usize) -> Result<Built, String> {
    let mut work = vec![FILL; work_len];
    let mut out = Guarded::new(out_len);
    let room = out.part();
    let (mut length, mut situations, mut registers) = (usize::MAX, usize::MAX, usize::MAX);
    let code = unsafe {
        cv_build(
            net.as_ptr(),
            net.len(),
            work.as_mut_ptr(),
            work.len(),
            room.as_mut_ptr(),
            room.len(),
            &mut length,
            &mut situations,
            &mut registers,
        )
    };
    if work.iter().any(|b| *b != 0) {
        return Err("! WORK NOT ZERO".to_string());
    }
    Ok(Built { code, situations, registers, table: out.first(length)?.to_vec() })
}

/// A table judged and written as an image of that length: the code and the image.
pub fn mount(table: &[u8], len: usize) -> (u8, Vec<u32>) {
    let mut image = vec![0xa5a5a5a5; len];
    let code = unsafe { cv_mount(table.as_ptr(), table.len(), image.as_mut_ptr(), image.len()) };
    (code, image)
}

/// A ride over an image: code, answer and eight places.
pub fn ride(table: &[u8], image: &[u32], line: &[u8]) -> (u8, u8, [i16; 8]) {
    let mut answer = 0;
    let mut places = [0x5a5a; 8];
    let code = unsafe {
        cv_ride(
            table.as_ptr(),
            table.len(),
            image.as_ptr(),
            image.len(),
            line.as_ptr(),
            line.len(),
            &mut answer,
            places.as_mut_ptr(),
        )
    };
    (code, answer, places)
}

/// A ride of two lines in step: code, answer and eight places of each.
pub fn ride_two(table: &[u8], image: &[u32], line: &[u8], other: &[u8]) -> [(u8, u8, [i16; 8]); 2] {
    let (mut codes, mut answers) = ([FILL; 2], [FILL; 2]);
    let (mut first, mut second) = ([0x5a5a; 8], [0x5a5a; 8]);
    unsafe {
        cv_ride_two(
            table.as_ptr(),
            table.len(),
            image.as_ptr(),
            image.len(),
            line.as_ptr(),
            line.len(),
            other.as_ptr(),
            other.len(),
            codes.as_mut_ptr(),
            answers.as_mut_ptr(),
            first.as_mut_ptr(),
            second.as_mut_ptr(),
        )
    }
    [(codes[0], answers[0], first), (codes[1], answers[1], second)]
}

/// The program under way, between an input and an output.
pub fn tagline_between(input: Stdio, output: Stdio) -> Child {
    let program = Path::new(env!("CARGO_MANIFEST_DIR")).join("../target/bin/tagline");
    Command::new(&program)
        .stdin(input)
        .stdout(output)
        .stderr(Stdio::piped())
        .spawn()
        .unwrap_or_else(|why| panic!("{}: {why}; `tools/link.sh tagline` makes it", program.display()))
}

/// The program itself: what it writes to standard output for an input.
pub fn tagline(input: &[u8]) -> Vec<u8> {
    let mut child = tagline_between(Stdio::piped(), Stdio::piped());
    let mut to = child.stdin.take().expect("a pipe");
    let text = input.to_vec();
    // the program stops reading after 65,537 bytes, so what is left of a longer input may find no reader
    let writer = std::thread::spawn(move || drop(to.write_all(&text)));
    let out = child.wait_with_output().expect("the program ends").stdout;
    writer.join().expect("the writer ends");
    out
}
