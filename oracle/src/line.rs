//! Fields of a line: hex, eight hex digits, decimal.

pub fn hex(field: &[u8]) -> Option<Vec<u8>> {
    if field == b"-" {
        return Some(Vec::new());
    }
    if field.is_empty() || field.len() % 2 != 0 {
        return None;
    }
    field.chunks(2).map(|c| Some(digit(c[0])? << 4 | digit(c[1])?)).collect()
}

pub fn hex_of<const N: usize>(field: &[u8]) -> Option<[u8; N]> {
    hex(field)?.try_into().ok()
}

fn digit(c: u8) -> Option<u8> {
    match c {
        b'0'..=b'9' => Some(c - b'0'),
        b'a'..=b'f' => Some(c - b'a' + 10),
        _ => None,
    }
}

pub fn word(field: &[u8]) -> Option<u32> {
    (field.len() == 8).then(|| hex_of::<4>(field).map(u32::from_be_bytes))?
}

/// A decimal number of at most `max`.
pub fn number(field: &[u8], max: u64) -> Option<u64> {
    if field.is_empty() || !field.iter().all(u8::is_ascii_digit) {
        return None;
    }
    let value = std::str::from_utf8(field).ok()?.parse::<u64>().ok()?;
    (value <= max).then_some(value)
}

pub fn level(field: &[u8]) -> Option<Option<u8>> {
    if field == b"none" {
        return Some(None);
    }
    number(field, 255).map(|n| Some(n as u8))
}

/// The largest room that a call is lent.
pub const LARGEST_ROOM: usize = 70_000;

pub fn room(field: &[u8]) -> Option<usize> {
    number(field, LARGEST_ROOM as u64).map(|n| n as usize)
}

pub fn show(bytes: &[u8]) -> String {
    use std::fmt::Write;
    if bytes.is_empty() {
        return "-".to_string();
    }
    bytes.iter().fold(String::with_capacity(2 * bytes.len()), |mut s, b| {
        let _ = write!(s, "{b:02x}");
        s
    })
}
