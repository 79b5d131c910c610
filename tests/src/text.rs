//! The text of vectors and of the probe: lowercase hex for bytes, `-` for none, decimal numbers.

/// The bytes that a word spells, or `None` where it spells none.
pub fn bytes(word: &str) -> Option<Vec<u8>> {
    if word == "-" {
        return Some(Vec::new());
    }
    let digits = word.as_bytes();
    if digits.len() % 2 != 0 {
        return None;
    }
    digits.chunks(2).map(|pair| Some(digit(pair[0])? * 16 + digit(pair[1])?)).collect()
}

fn digit(c: u8) -> Option<u8> {
    match c {
        b'0'..=b'9' => Some(c - b'0'),
        b'a'..=b'f' => Some(c - b'a' + 10),
        _ => None,
    }
}

pub fn hex(bytes: &[u8]) -> String {
    if bytes.is_empty() {
        return "-".to_string();
    }
    bytes.iter().map(|b| format!("{b:02x}")).collect()
}

/// FNV-1a, 64 bits: how the vectors give an output of more than 6,000 bytes.
pub fn fnv(bytes: &[u8]) -> u64 {
    bytes.iter().fold(0xcbf29ce484222325, |h, b| (h ^ u64::from(*b)).wrapping_mul(0x100000001b3))
}

/// Whether a vector's word, hex or `~` and a hash, is these bytes.
pub fn is(word: &str, got: &[u8]) -> bool {
    match word.strip_prefix('~') {
        Some(hash) => u64::from_str_radix(hash, 16) == Ok(fnv(got)),
        None => bytes(word).as_deref() == Some(got),
    }
}

pub fn join(numbers: &[i16]) -> String {
    numbers.iter().map(i16::to_string).collect::<Vec<_>>().join(" ")
}
