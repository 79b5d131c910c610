//! The proved library's C calls, each behind a safe function: a slice gives a pointer and a length that belong together,
//! and what a call may write is lent to it alone.

mod c {
    extern "C" {
        pub fn cv_pattern(
            text: *const u8,
            text_len: usize,
            out: *mut u8,
            out_len: usize,
            place: *mut usize,
            length: *mut usize,
        ) -> u8;
        pub fn cv_build(
            net: *const u8,
            net_len: usize,
            work: *mut u8,
            work_len: usize,
            out: *mut u8,
            out_len: usize,
            length: *mut usize,
            situations: *mut usize,
            registers: *mut usize,
        ) -> u8;
        pub fn cv_count(net: *const u8, net_len: usize, index: usize, count: *mut u32) -> u8;
        pub fn cv_load(table: *const u8, table_len: usize) -> u8;
        pub fn cv_run(
            table: *const u8,
            table_len: usize,
            line: *const u8,
            line_len: usize,
            answer: *mut u8,
            places: *mut i16,
        ) -> u8;
        pub fn cv_mount(table: *const u8, table_len: usize, image: *mut u32, image_len: usize) -> u8;
        pub fn cv_ride(
            table: *const u8,
            table_len: usize,
            image: *const u32,
            image_len: usize,
            line: *const u8,
            line_len: usize,
            answer: *mut u8,
            places: *mut i16,
        ) -> u8;
        pub fn cv_ride_two(
            table: *const u8,
            table_len: usize,
            image: *const u32,
            image_len: usize,
            line: *const u8,
            line_len: usize,
            other: *const u8,
            other_len: usize,
            codes: *mut u8,
            answers: *mut u8,
            first: *mut i16,
            second: *mut i16,
        );
        pub fn cv_reading_code(line: *const u8, line_len: usize, places: *const i16, a: u8, b: u8) -> u8;
        pub fn cv_reading(
            line: *const u8,
            line_len: usize,
            places: *const i16,
            a: u8,
            b: u8,
            out: *mut u8,
            out_len: usize,
        ) -> usize;
    }
}

/// The code, the place of a fault and how many bytes of `out` are the net.
pub fn pattern(text: &[u8], out: &mut [u8]) -> (u8, usize, usize) {
    let (mut place, mut length) = (0, 0);
    // SAFETY: pointers and lengths are those of live slices; `out` and the two numbers are lent to the call alone.
    let code =
        unsafe { c::cv_pattern(text.as_ptr(), text.len(), out.as_mut_ptr(), out.len(), &mut place, &mut length) };
    (code, place, length)
}

/// The code, and how many bytes of `out` are the table.
pub fn build(net: &[u8], work: &mut [u8], out: &mut [u8]) -> (u8, usize) {
    let (mut length, mut situations, mut registers) = (0, 0, 0);
    // SAFETY: as above.
    let code = unsafe {
        c::cv_build(
            net.as_ptr(),
            net.len(),
            work.as_mut_ptr(),
            work.len(),
            out.as_mut_ptr(),
            out.len(),
            &mut length,
            &mut situations,
            &mut registers,
        )
    };
    (code, length)
}

/// The code, and how many bytes the record takes.
pub fn count(net: &[u8], index: usize) -> (u8, u32) {
    let mut count = 0;
    // SAFETY: as above.
    let code = unsafe { c::cv_count(net.as_ptr(), net.len(), index, &mut count) };
    (code, count)
}

pub fn load(table: &[u8]) -> u8 {
    // SAFETY: as above.
    unsafe { c::cv_load(table.as_ptr(), table.len()) }
}

/// The code, the answer and the eight places.
pub fn run(table: &[u8], line: &[u8]) -> (u8, u8, [i16; 8]) {
    let (mut answer, mut places) = (0, [0; 8]);
    // SAFETY: as above; `places` has room for eight.
    let code =
        unsafe { c::cv_run(table.as_ptr(), table.len(), line.as_ptr(), line.len(), &mut answer, places.as_mut_ptr()) };
    (code, answer, places)
}

pub fn mount(table: &[u8], image: &mut [u32]) -> u8 {
    // SAFETY: as above.
    unsafe { c::cv_mount(table.as_ptr(), table.len(), image.as_mut_ptr(), image.len()) }
}

/// The code, the answer and the eight places.
pub fn ride(table: &[u8], image: &[u32], line: &[u8]) -> (u8, u8, [i16; 8]) {
    let (mut answer, mut places) = (0, [0; 8]);
    // SAFETY: as above; `places` has room for eight.
    let code = unsafe {
        c::cv_ride(
            table.as_ptr(),
            table.len(),
            image.as_ptr(),
            image.len(),
            line.as_ptr(),
            line.len(),
            &mut answer,
            places.as_mut_ptr(),
        )
    };
    (code, answer, places)
}

/// The code, the answer and the eight places of each of two lines.
pub fn ride_two(table: &[u8], image: &[u32], line: &[u8], other: &[u8]) -> [(u8, u8, [i16; 8]); 2] {
    let (mut codes, mut answers) = ([0; 2], [0; 2]);
    let (mut first, mut second) = ([0; 8], [0; 8]);
    // SAFETY: as above; `codes` and `answers` have room for two, `first` and `second` for eight.
    unsafe {
        c::cv_ride_two(
            table.as_ptr(),
            table.len(),
            image.as_ptr(),
            image.len(),
            line.as_ptr(),
            line.len(),
            other.as_ptr(),
            other.len(),
            codes.as_mut_ptr(),
            answers.as_mut_ptr(),
            first.as_mut_ptr(),
            second.as_mut_ptr(),
        )
    }
    [(codes[0], answers[0], first), (codes[1], answers[1], second)]
}

pub fn reading_code(line: &[u8], places: &[i16; 8], a: u8, b: u8) -> u8 {
    // SAFETY: as above; `places` holds eight.
    unsafe { c::cv_reading_code(line.as_ptr(), line.len(), places.as_ptr(), a, b) }
}

/// The part's length; it is copied to the front of `out` if it fits.
pub fn reading(line: &[u8], places: &[i16; 8], a: u8, b: u8, out: &mut [u8]) -> usize {
    // SAFETY: as above; `places` holds eight.
    unsafe { c::cv_reading(line.as_ptr(), line.len(), places.as_ptr(), a, b, out.as_mut_ptr(), out.len()) }
}
