//! "Cutting into tokens": each terminal of the TriG Recommendation has a matcher, and the longest match wins.

use super::utf8;

/// Terminals; the four kinds of string are one, and ANON and NIL are two bracket tokens.
#[derive(Clone, Copy, PartialEq, Eq, Debug)]
pub enum Kind {
    IriRef,
    PnameNs,
    PnameLn,
    BlankNodeLabel,
    LangTag,
    Integer,
    Decimal,
    Double,
    String,
    AtPrefix,
    AtBase,
    Prefix,
    Base,
    Graph,
    A,
    True,
    False,
    Dot,
    Semicolon,
    Comma,
    Carets,
    OpenBracket,
    CloseBracket,
    OpenParen,
    CloseParen,
    OpenBrace,
    CloseBrace,
}

#[derive(Clone, Copy, PartialEq, Eq, Debug)]
pub struct Token {
    pub kind: Kind,
    pub start: usize,
    pub end: usize,
}

/// What stands at a place of the document, after blanks and comments.
#[derive(Clone, Copy, PartialEq, Eq, Debug)]
pub enum Next {
    Token(Token),
    Unreadable(usize),
    End,
}

/// The next token from `place` on.
pub fn next(document: &[u8], place: usize) -> Next {
    let start = skip_blanks(document, place);
    let rest = &document[start..];
    if rest.is_empty() {
        return Next::End;
    }
    match longest(rest) {
        Some((kind, length)) => Next::Token(Token { kind, start, end: start + length }),
        None => Next::Unreadable(start),
    }
}

/// All tokens of a document, up to the first unreadable place.
pub fn tokens(document: &[u8]) -> Vec<Token> {
    let mut found: Vec<Token> = Vec::new();
    while let Next::Token(token) = next(document, found.last().map_or(0, |t| t.end)) {
        found.push(token);
    }
    found
}

/// WS and comments; a comment ends before CR, LF or the end.
fn skip_blanks(document: &[u8], mut place: usize) -> usize {
    while let Some(&byte) = document.get(place) {
        match byte {
            b' ' | b'\t' | b'\r' | b'\n' => place += 1,
            b'#' => place += run(&document[place..], |b| b != b'\r' && b != b'\n'),
            _ => break,
        }
    }
    place
}

/// Gives the length of a terminal at the front of a text: the longest, where there are several.
type Matcher = fn(&[u8]) -> Option<usize>;

/// Matchers in order; of equally long matches the first wins, so `@prefix` and `@base` are keywords.
const MATCHERS: [(Kind, Matcher); 27] = [
    (Kind::AtPrefix, |t| exact(t, b"@prefix")),
    (Kind::AtBase, |t| exact(t, b"@base")),
    (Kind::Prefix, |t| any_case(t, b"PREFIX")),
    (Kind::Base, |t| any_case(t, b"BASE")),
    (Kind::Graph, |t| any_case(t, b"GRAPH")),
    (Kind::A, |t| exact(t, b"a")),
    (Kind::True, |t| exact(t, b"true")),
    (Kind::False, |t| exact(t, b"false")),
    (Kind::Dot, |t| exact(t, b".")),
    (Kind::Semicolon, |t| exact(t, b";")),
    (Kind::Comma, |t| exact(t, b",")),
    (Kind::Carets, |t| exact(t, b"^^")),
    (Kind::OpenBracket, |t| exact(t, b"[")),
    (Kind::CloseBracket, |t| exact(t, b"]")),
    (Kind::OpenParen, |t| exact(t, b"(")),
    (Kind::CloseParen, |t| exact(t, b")")),
    (Kind::OpenBrace, |t| exact(t, b"{")),
    (Kind::CloseBrace, |t| exact(t, b"}")),
    (Kind::IriRef, iri_ref),
    (Kind::PnameNs, pname_ns),
    (Kind::PnameLn, pname_ln),
    (Kind::BlankNodeLabel, blank_node_label),
    (Kind::LangTag, lang_tag),
    (Kind::Integer, integer),
    (Kind::Decimal, decimal),
    (Kind::Double, double),
    (Kind::String, string),
];

fn longest(text: &[u8]) -> Option<(Kind, usize)> {
    let mut best: Option<(Kind, usize)> = None;
    for (kind, matcher) in MATCHERS {
        if let Some(length) = matcher(text) {
            if best.is_none_or(|(_, most)| length > most) {
                best = Some((kind, length));
            }
        }
    }
    best
}

fn exact(text: &[u8], word: &[u8]) -> Option<usize> {
    text.starts_with(word).then_some(word.len())
}

fn any_case(text: &[u8], word: &[u8]) -> Option<usize> {
    text.get(..word.len())?.eq_ignore_ascii_case(word).then_some(word.len())
}

/// How many bytes at the front are good.
fn run(text: &[u8], good: impl Fn(u8) -> bool) -> usize {
    text.iter().position(|&b| !good(b)).unwrap_or(text.len())
}

/// Bytes that [19] IRIREF forbids unescaped.
pub fn forbidden_in_iri(byte: u8) -> bool {
    byte <= 0x20 || b"<>\"{}|^`\\".contains(&byte)
}

/// [19] IRIREF ::= '<' ([^#x00-#x20<>"{}|^`\] | UCHAR)* '>'
fn iri_ref(text: &[u8]) -> Option<usize> {
    let mut place = exact(text, b"<")?;
    loop {
        match *text.get(place)? {
            b'>' => return Some(place + 1),
            b'\\' => place += uchar(&text[place..])?,
            byte if forbidden_in_iri(byte) => return None,
            _ => place += 1,
        }
    }
}

/// [27] UCHAR ::= '\u' HEX HEX HEX HEX | '\U' HEX HEX HEX HEX HEX HEX HEX HEX
pub fn uchar(text: &[u8]) -> Option<usize> {
    let length = match text.get(..2)? {
        b"\\u" => 6,
        b"\\U" => 10,
        _ => return None,
    };
    text.get(2..length)?.iter().all(u8::is_ascii_hexdigit).then_some(length)
}

/// [159s] ECHAR ::= '\' [tbnrf"'\]
fn echar(text: &[u8]) -> Option<usize> {
    (text[0] == b'\\' && b"tbnrf\"'\\".contains(text.get(1)?)).then_some(2)
}

/// [23] to [26]. Three equal quotes open a long string and nothing else.
fn string(text: &[u8]) -> Option<usize> {
    let quote = *text.first().filter(|b| matches!(b, b'"' | b'\''))?;
    let long = text.starts_with(&[quote; 3]);
    let closing = if long { 3 } else { 1 };
    let mut place = closing;
    loop {
        let rest = text.get(place..)?;
        match *rest.first()? {
            byte if byte == quote && run(rest, |b| b == quote) >= closing => return Some(place + closing),
            b'\\' => place += echar(rest).or_else(|| uchar(rest))?,
            b'\n' | b'\r' if !long => return None,
            _ => place += 1,
        }
    }
}

/// [144s] LANGTAG ::= '@' [a-zA-Z]+ ('-' [a-zA-Z0-9]+)*
fn lang_tag(text: &[u8]) -> Option<usize> {
    Some(1 + tag(text.strip_prefix(b"@")?)?)
}

/// A LANGTAG without its @: the longest at the front of `text`.
pub fn tag(text: &[u8]) -> Option<usize> {
    let mut place = Some(run(text, |b| b.is_ascii_alphabetic())).filter(|&n| n > 0)?;
    while text.get(place) == Some(&b'-') {
        match run(&text[place + 1..], |b| b.is_ascii_alphanumeric()) {
            0 => break,
            more => place += 1 + more,
        }
    }
    Some(place)
}

fn sign(text: &[u8]) -> usize {
    usize::from(matches!(text.first(), Some(b'+' | b'-')))
}

fn digits(text: &[u8]) -> usize {
    run(text, |b| b.is_ascii_digit())
}

/// [20] INTEGER ::= [+-]? [0-9]+
fn integer(text: &[u8]) -> Option<usize> {
    let start = sign(text);
    Some(digits(&text[start..])).filter(|&n| n > 0).map(|n| start + n)
}

/// [21] DECIMAL ::= [+-]? ([0-9]* '.' [0-9]+)
fn decimal(text: &[u8]) -> Option<usize> {
    let start = sign(text);
    let dot = start + digits(&text[start..]);
    let fraction = digits(text.get(dot..)?.strip_prefix(b".")?);
    (fraction > 0).then_some(dot + 1 + fraction)
}

/// [22] DOUBLE ::= [+-]? ([0-9]+ '.' [0-9]* EXPONENT | '.' [0-9]+ EXPONENT | [0-9]+ EXPONENT)
fn double(text: &[u8]) -> Option<usize> {
    let start = sign(text);
    let whole = digits(&text[start..]);
    let mut place = start + whole;
    let mut some = whole > 0;
    if let Some(rest) = text[place..].strip_prefix(b".") {
        let fraction = digits(rest);
        some |= fraction > 0;
        place += 1 + fraction;
    }
    some.then(|| exponent(&text[place..])).flatten().map(|n| place + n)
}

/// [154s] EXPONENT ::= [eE] [+-]? [0-9]+
fn exponent(text: &[u8]) -> Option<usize> {
    let rest = text.strip_prefix(b"e").or_else(|| text.strip_prefix(b"E"))?;
    integer(rest).map(|n| 1 + n)
}

/// [163s] PN_CHARS_BASE
fn pn_chars_base(c: u32) -> bool {
    const RANGES: [(u32, u32); 14] = [
        (0x41, 0x5A),
        (0x61, 0x7A),
        (0xC0, 0xD6),
        (0xD8, 0xF6),
        (0xF8, 0x2FF),
        (0x370, 0x37D),
        (0x37F, 0x1FFF),
        (0x200C, 0x200D),
        (0x2070, 0x218F),
        (0x2C00, 0x2FEF),
        (0x3001, 0xD7FF),
        (0xF900, 0xFDCF),
        (0xFDF0, 0xFFFD),
        (0x1_0000, 0xE_FFFF),
    ];
    RANGES.iter().any(|&(first, last)| (first..=last).contains(&c))
}

/// [164s] PN_CHARS_U ::= PN_CHARS_BASE | '_'
fn pn_chars_u(c: u32) -> bool {
    pn_chars_base(c) || c == u32::from(b'_')
}

/// [166s] PN_CHARS ::= PN_CHARS_U | '-' | [0-9] | #00B7 | [#0300-#036F] | [#203F-#2040]
fn pn_chars(c: u32) -> bool {
    pn_chars_u(c) || matches!(c, 0x2D | 0x30..=0x39 | 0xB7 | 0x300..=0x36F | 0x203F..=0x2040)
}

/// The length of a character at the front that is good.
fn one(text: &[u8], good: impl Fn(u32) -> bool) -> Option<usize> {
    utf8::decode(text).filter(|&(c, _)| good(c)).map(|(_, length)| length)
}

/// The longest `first ((part | '.')* part)?`: dots at its end are given back.
fn name(text: &[u8], first: impl Fn(&[u8]) -> Option<usize>, part: impl Fn(&[u8]) -> Option<usize>) -> Option<usize> {
    let mut end = first(text)?;
    let mut place = end;
    loop {
        if let Some(length) = part(&text[place..]) {
            place += length;
            end = place;
        } else if text.get(place) == Some(&b'.') {
            place += 1;
        } else {
            return Some(end);
        }
    }
}

/// [139s] PNAME_NS ::= PN_PREFIX? ':'
fn pname_ns(text: &[u8]) -> Option<usize> {
    let prefix = name(text, |t| one(t, pn_chars_base), |t| one(t, pn_chars)).unwrap_or(0);
    (text.get(prefix) == Some(&b':')).then_some(prefix + 1)
}

/// [140s] PNAME_LN ::= PNAME_NS PN_LOCAL
fn pname_ln(text: &[u8]) -> Option<usize> {
    let namespace = pname_ns(text)?;
    pn_local(&text[namespace..]).map(|n| namespace + n)
}

/// [168s] PN_LOCAL ::= (PN_CHARS_U | ':' | [0-9] | PLX) ((PN_CHARS | '.' | ':' | PLX)* (PN_CHARS | ':' | PLX))?
fn pn_local(text: &[u8]) -> Option<usize> {
    let colon = |c| c == u32::from(b':');
    let digit = |c| (0x30..=0x39).contains(&c);
    name(text, |t| one(t, |c| pn_chars_u(c) || colon(c) || digit(c)).or_else(|| plx(t)), |t| one(t, |c| pn_chars(c) || colon(c)).or_else(|| plx(t)))
}

/// [169s] PLX ::= PERCENT | PN_LOCAL_ESC
fn plx(text: &[u8]) -> Option<usize> {
    match text.first()? {
        b'%' => text.get(1..3)?.iter().all(u8::is_ascii_hexdigit).then_some(3),
        b'\\' => b"_~.-!$&'()*+,;=/?#@%".contains(text.get(1)?).then_some(2),
        _ => None,
    }
}

/// [141s] BLANK_NODE_LABEL ::= '_:' (PN_CHARS_U | [0-9]) ((PN_CHARS | '.')* PN_CHARS)?
fn blank_node_label(text: &[u8]) -> Option<usize> {
    let label = text.strip_prefix(b"_:")?;
    let digit = |c| (0x30..=0x39).contains(&c);
    name(label, |t| one(t, |c| pn_chars_u(c) || digit(c)), |t| one(t, pn_chars)).map(|n| 2 + n)
}
