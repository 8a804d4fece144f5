//! UTF-8 as in RFC 3629.

/// The character at the front of `bytes` and its length, or none where the sequence is bad or missing.
pub fn decode(bytes: &[u8]) -> Option<(u32, usize)> {
    let first = u32::from(*bytes.first()?);
    let (length, lead, least) = match first {
        0x00..=0x7F => return Some((first, 1)),
        0xC0..=0xDF => (2, first & 0x1F, 0x80),
        0xE0..=0xEF => (3, first & 0x0F, 0x800),
        0xF0..=0xF7 => (4, first & 0x07, 0x1_0000),
        _ => return None,
    };
    let mut code = lead;
    for &byte in bytes.get(1..length)? {
        if byte & 0xC0 != 0x80 {
            return None;
        }
        code = code << 6 | u32::from(byte & 0x3F);
    }
    (code >= least && is_scalar(code)).then_some((code, length))
}

/// Whether a number names a character: no surrogate, and not over 10FFFF.
pub fn is_scalar(code: u32) -> bool {
    !(0xD800..=0xDFFF).contains(&code) && code <= 0x10_FFFF
}

/// Where the first bad sequence begins.
pub fn first_bad(bytes: &[u8]) -> Option<usize> {
    let mut place = 0;
    while place < bytes.len() {
        match decode(&bytes[place..]) {
            Some((_, length)) => place += length,
            None => return Some(place),
        }
    }
    None
}

/// Puts a character behind `out`.
pub fn encode(code: u32, out: &mut Vec<u8>) {
    let character = char::from_u32(code).expect("7 was given for what is no character");
    out.extend_from_slice(character.encode_utf8(&mut [0; 4]).as_bytes());
}
