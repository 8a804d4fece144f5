//! "Addresses": schemes, and resolution by RFC 3986, section 5.2.

use super::lexer::forbidden_in_iri;
use super::utf8;

/// "IRI over 1,024 bytes".
pub const LONGEST: usize = 1024;

/// The length of the scheme: "letter, then letters, digits, + - . up to a colon".
pub fn scheme(text: &[u8]) -> Option<usize> {
    let colon = text.iter().position(|&b| b == b':')?;
    let good = |b: &u8| b.is_ascii_alphanumeric() || b"+-.".contains(b);
    (text[0].is_ascii_alphabetic() && text[..colon].iter().all(good)).then_some(colon)
}

/// 3: whether a base that is not empty may be lent. It is not unescaped, so a backslash is forbidden.
pub fn can_be_base(text: &[u8]) -> bool {
    text.len() <= LONGEST && utf8::first_bad(text).is_none() && scheme(text).is_some() && !text.iter().any(|&b| forbidden_in_iri(b))
}

/// The parts of a reference. A part that is absent differs from one that is empty.
#[derive(Clone, Copy)]
struct Parts<'a> {
    scheme: &'a [u8],
    authority: Option<&'a [u8]>,
    path: &'a [u8],
    query: Option<&'a [u8]>,
    fragment: Option<&'a [u8]>,
}

/// RFC 3986, Appendix B, but for the scheme, which is 01's.
fn split(text: &[u8]) -> Parts<'_> {
    let (scheme, rest) = match scheme(text) {
        Some(length) => (&text[..length], &text[length + 1..]),
        None => (&text[..0], text),
    };
    let (rest, fragment) = cut(rest, b'#');
    let (rest, query) = cut(rest, b'?');
    let (authority, path) = match rest.strip_prefix(b"//") {
        Some(rest) => {
            let end = rest.iter().position(|&b| b == b'/').unwrap_or(rest.len());
            (Some(&rest[..end]), &rest[end..])
        }
        None => (None, rest),
    };
    Parts { scheme, authority, path, query, fragment }
}

/// What stands before the first `mark`, and what stands behind it.
fn cut(text: &[u8], mark: u8) -> (&[u8], Option<&[u8]>) {
    match text.iter().position(|&b| b == mark) {
        Some(place) => (&text[..place], Some(&text[place + 1..])),
        None => (text, None),
    }
}

/// A reference resolved: its text, and how long it was before its dot segments went (11 measures that).
pub struct Resolved {
    pub text: Vec<u8>,
    pub length_with_dots: usize,
}

/// RFC 3986, 5.2.2, for a reference without a scheme.
pub fn resolve(base: &[u8], reference: &[u8]) -> Resolved {
    let base = split(base);
    // It has no scheme: the caller takes a reference that has one as written.
    let reference = split(reference);
    let scheme = base.scheme;
    let fragment = reference.fragment;
    if reference.authority.is_none() && reference.path.is_empty() {
        // The base's path is taken uncleaned.
        let query = reference.query.or(base.query);
        let text = recompose(Parts { query, fragment, ..base });
        return Resolved { length_with_dots: text.len(), text };
    }
    let (authority, path) = match reference.authority {
        Some(authority) => (Some(authority), reference.path.to_vec()),
        None if reference.path[0] == b'/' => (base.authority, reference.path.to_vec()),
        None => (base.authority, merge(base, reference.path)),
    };
    let with = |path: &[u8]| recompose(Parts { scheme, authority, path, query: reference.query, fragment });
    Resolved { length_with_dots: with(&path).len(), text: with(&remove_dot_segments(&path)) }
}

/// RFC 3986, 5.2.3.
fn merge(base: Parts, path: &[u8]) -> Vec<u8> {
    if base.authority.is_some() && base.path.is_empty() {
        return [b"/", path].concat();
    }
    let kept = base.path.iter().rposition(|&b| b == b'/').map_or(0, |slash| slash + 1);
    [&base.path[..kept], path].concat()
}

/// RFC 3986, 5.2.4, step by step as printed.
fn remove_dot_segments(path: &[u8]) -> Vec<u8> {
    let mut input = path.to_vec();
    let mut output: Vec<u8> = Vec::new();
    while !input.is_empty() {
        if input.starts_with(b"../") {
            input.drain(..3);
        } else if input.starts_with(b"./") || input.starts_with(b"/./") {
            input.drain(..2);
        } else if input == b"/." {
            input = b"/".to_vec();
        } else if input.starts_with(b"/../") || input == b"/.." {
            input.splice(..input.len().min(4), *b"/");
            output.truncate(output.iter().rposition(|&b| b == b'/').unwrap_or(0));
        } else if input == b"." || input == b".." {
            input.clear();
        } else {
            let end = input.iter().skip(1).position(|&b| b == b'/').map_or(input.len(), |n| n + 1);
            output.extend(input.drain(..end));
        }
    }
    output
}

/// RFC 3986, 5.3.
fn recompose(parts: Parts) -> Vec<u8> {
    let mut out = [parts.scheme, b":"].concat();
    let mut put = |mark: &[u8], part: Option<&[u8]>| {
        if let Some(part) = part {
            out.extend_from_slice(mark);
            out.extend_from_slice(part);
        }
    };
    put(b"//", parts.authority);
    put(b"", Some(parts.path));
    put(b"?", parts.query);
    put(b"#", parts.fragment);
    out
}
