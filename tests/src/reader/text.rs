//! What a token's text stands for: escapes undone.

use super::lexer::{uchar, Kind, Token};
use super::utf8;

/// 7: whether a string or IRIREF has a numeric escape that names no character. Escapes are taken from the left.
pub fn names_no_character(document: &[u8], token: Token) -> bool {
    matches!(token.kind, Kind::IriRef | Kind::String) && escapes(&document[token.start..token.end]).any(|code| !utf8::is_scalar(code))
}

/// The numbers named by the numeric escapes of a string or IRIREF.
fn escapes(text: &[u8]) -> impl Iterator<Item = u32> + '_ {
    let mut place = 0;
    std::iter::from_fn(move || {
        while place < text.len() {
            let rest = &text[place..];
            match uchar(rest) {
                Some(length) => {
                    place += length;
                    return Some(number(&rest[2..length]));
                }
                None => place += if rest[0] == b'\\' { 2 } else { 1 },
            }
        }
        None
    })
}

fn number(hex: &[u8]) -> u32 {
    hex.iter().fold(0, |n, &digit| n << 4 | char::from(digit).to_digit(16).expect("a HEX"))
}

/// The text of an IRIREF without its < >, or of a string without its quotes.
pub fn unescaped(document: &[u8], token: Token) -> Vec<u8> {
    let whole = &document[token.start..token.end];
    let marks = if token.kind == Kind::String && whole.starts_with(&[whole[0]; 3]) { 3 } else { 1 };
    let text = &whole[marks..whole.len() - marks];
    let mut out = Vec::with_capacity(text.len());
    let mut place = 0;
    while place < text.len() {
        let rest = &text[place..];
        if let Some(length) = uchar(rest) {
            utf8::encode(number(&rest[2..length]), &mut out);
            place += length;
        } else if rest[0] == b'\\' {
            out.push(echar(rest[1]));
            place += 2;
        } else {
            out.push(rest[0]);
            place += 1;
        }
    }
    out
}

/// The character that an ECHAR's letter stands for (Turtle, section 6.4).
fn echar(letter: u8) -> u8 {
    match letter {
        b't' => b'\t',
        b'b' => 0x08,
        b'n' => b'\n',
        b'r' => b'\r',
        b'f' => 0x0C,
        other => other,
    }
}

/// A prefixed name as prefix and local part, "reserved escapes undone, percent signs kept".
pub fn prefix_and_local(name: &[u8]) -> (&[u8], Vec<u8>) {
    let colon = name.iter().position(|&b| b == b':').expect("a prefixed name has a colon");
    // A backslash in a local part always begins a PN_LOCAL_ESC, and none escapes a backslash.
    let local = name[colon + 1..].iter().copied().filter(|&b| b != b'\\').collect();
    (&name[..colon], local)
}
