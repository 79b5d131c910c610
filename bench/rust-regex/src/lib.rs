//! Rust's regex under C names, for the bench alone.

use regex::bytes::{CaptureLocations, Regex};

pub struct Held {
    regex: Regex,
    places: CaptureLocations,
}

/// # Safety
/// `text` points to `len` bytes.
#[no_mangle]
pub unsafe extern "C" fn rust_regex_new(text: *const u8, len: usize) -> *mut Held {
    let text = std::str::from_utf8(std::slice::from_raw_parts(text, len));
    match text.ok().and_then(|t| Regex::new(t).ok()) {
        Some(regex) => Box::into_raw(Box::new(Held { places: regex.capture_locations(), regex })),
        None => std::ptr::null_mut(),
    }
}

/// # Safety
/// `held` is of `rust_regex_new`, `line` points to `len` bytes, `bounds` to two numbers a group.
#[no_mangle]
pub unsafe extern "C" fn rust_regex_match(
    held: *mut Held,
    line: *const u8,
    len: usize,
    bounds: *mut i32,
    groups: usize,
) -> i32 {
    let held = &mut *held;
    let line = std::slice::from_raw_parts(line, len);
    if held.regex.captures_read(&mut held.places, line).is_none() {
        return 0;
    }
    let bounds = std::slice::from_raw_parts_mut(bounds, 2 * groups);
    for group in 0..groups {
        let (from, to) = held.places.get(group).map_or((-1, -1), |(a, b)| (a as i32, b as i32));
        bounds[2 * group] = from;
        bounds[2 * group + 1] = to;
    }
    1
}

/// # Safety
/// `held` is of `rust_regex_new` and not used afterwards.
#[no_mangle]
pub unsafe extern "C" fn rust_regex_free(held: *mut Held) {
    drop(Box::from_raw(held));
}
