//! Calls at the limits of document 01, each with the answer that the papers give.

use crate::known::{self, Known};
use crate::reader::read::{LEAST_WORK, LONGEST_DOCUMENT};
use At::{Accepted, Refused};

#[derive(Clone, Copy)]
enum At {
    Accepted,
    Refused(u32, usize),
}

const S: &[u8] = b"<x:s> <x:p> ";

struct Limits(Vec<Known>);

impl Limits {
    /// A document with these limits in both modes, if it has no braces.
    fn add(&mut self, name: &str, document: impl Into<Vec<u8>>, at: At) {
        let document = document.into();
        if !document.contains(&b'{') {
            self.0.push(call(&format!("{name}, Turtle"), document.clone(), at).mode(1));
        }
        self.0.push(call(name, document, at));
    }
}

fn call(name: &str, document: impl Into<Vec<u8>>, at: At) -> Known {
    match at {
        Accepted => known::accepted(name, document),
        Refused(number, position) => known::known(name, document, number, position),
    }
}

pub fn all() -> Vec<Known> {
    let mut limits = Limits(Vec::new());
    depth(&mut limits);
    iris(&mut limits);
    prefixes(&mut limits);
    documents(&mut limits);
    bases(&mut limits);
    order_of_checks(&mut limits);
    limits.0
}

fn depth(limits: &mut Limits) {
    let nested = |open: &[u8], middle: &[u8], close: &[u8], levels: usize| [S, &open.repeat(levels), middle, &close.repeat(levels), b" ."].concat();
    limits.add("64 lists", nested(b"(", b"1", b")", 64), Accepted);
    limits.add("65 lists", nested(b"(", b"1", b")", 65), Refused(13, 12 + 64));
    limits.add("64 empty lists", nested(b"(", b"", b")", 64), Accepted);
    limits.add("65 empty lists", nested(b"(", b"", b")", 65), Refused(13, 12 + 64));
    limits.add("64 brackets", nested(b"[<x:p>", b"1", b"]", 64), Accepted);
    limits.add("65 brackets", nested(b"[<x:p>", b"1", b"]", 65), Refused(13, 12 + 64 * 6));
    limits.add("64 mixed", nested(b"([<x:p>", b"1", b"])", 32), Accepted);
    limits.add("64 mixed and a bracket", nested(b"([<x:p>", b"[]", b"])", 32), Refused(13, 12 + 32 * 7));
    limits.add("64 mixed and a list", nested(b"([<x:p>", b"()", b"])", 32), Refused(13, 12 + 32 * 7));
    limits.add("64 side by side", [S, &b"[], ".repeat(64), b"(()())."].concat(), Accepted);
    limits.add("64 as subject", [&b"(".repeat(64)[..], &b")".repeat(64), b"<x:p> 1 ."].concat(), Accepted);
    limits.add("65 as subject", [&b"(".repeat(65)[..], &b")".repeat(65), b"<x:p> 1 ."].concat(), Refused(13, 64));
    limits.add("8 before 13", [S, &b"[<x:p>".repeat(63), b"[["].concat(), Refused(8, 12 + 63 * 6 + 1));
    limits.add("64 in braces", [b"<x:g> {", S, &b"(".repeat(64), &b")".repeat(64), b"}"].concat(), Accepted);
    limits.add("65 in braces", [b"<x:g> {", S, &b"(".repeat(65), &b")".repeat(65), b"}"].concat(), Refused(13, 7 + 12 + 64));
    limits.add("64 and a label", [b"[] {", S, &b"(".repeat(64), &b")".repeat(64), b"}"].concat(), Accepted);
}

fn iris(limits: &mut Limits) {
    let a = |n: usize| b"a".repeat(n);
    limits.add("IRI of 1,024 bytes", [S, b"<x:", &a(1022), b"> ."].concat(), Accepted);
    limits.add("IRI of 1,025 bytes", [S, b"<x:", &a(1023), b"> ."].concat(), Refused(11, 12));
    limits.add("IRI of 1,024 bytes in characters of two", [S, b"<x:", &"é".repeat(511).into_bytes(), b"> ."].concat(), Accepted);
    limits.add("IRI of 1,025 bytes in characters of two", [S, b"<x:a", &"é".repeat(511).into_bytes(), b"> ."].concat(), Refused(11, 12));
    limits.add("escapes of 1,024 bytes", [S, b"<x:", &b"\\u0061".repeat(1022), b"> ."].concat(), Accepted);
    limits.add("escapes of 1,025 bytes", [S, b"<x:", &b"\\u0061".repeat(1023), b"> ."].concat(), Refused(11, 12));
    limits.add("no base before too long", [S, b"<", &a(2000), b"> ."].concat(), Refused(10, 12));
    let joined = |local: Vec<u8>| [b"@prefix p: <x:> . ", S, b"p:", &local, b" ."].concat();
    limits.add("joined to 1,024 bytes", joined(a(1022)), Accepted);
    limits.add("joined to 1,025 bytes", joined(a(1023)), Refused(11, 30));
    limits.add("joined to 1,024 bytes from escapes", joined(b"\\-".repeat(1022)), Accepted);
    limits.add("joined to 1,025 bytes from escapes", joined(b"\\-".repeat(1023)), Refused(11, 30));
    limits.add("joined percent signs of 1,025 bytes", joined(b"%41".repeat(341)), Refused(11, 30));
    limits.add("namespace of 1,024 bytes", [b"@prefix p: <x:", &a(1022)[..], b"> . p: a p: ."].concat(), Accepted);
    limits.add("namespace of 1,024 bytes and one", [b"@prefix p: <x:", &a(1022)[..], b"> . p: a p:b ."].concat(), Refused(11, 14 + 1022 + 9));
    limits.add("namespace of 1,025 bytes", [b"@prefix p: <x:", &a(1023)[..], b"> . p: a p: ."].concat(), Refused(11, 11));
    limits.add("base of 1,025 bytes", [b"@base <x:", &a(1023)[..], b"> ."].concat(), Refused(11, 6));
    let resolved = |reference: Vec<u8>| [b"@base <x:/> . ", S, b"<", &reference, b"> ."].concat();
    limits.add("resolved to 1,024 bytes", resolved(a(1021)), Accepted);
    limits.add("resolved to 1,025 bytes", resolved(a(1022)), Refused(11, 26));
    limits.add("1,023 bytes before the dots go", resolved(b"./".repeat(510)), Accepted);
    limits.add("1,024 bytes before the dots go", resolved([&b"./".repeat(510)[..], b"a"].concat()), Accepted);
    limits.add("1,025 bytes before the dots go", resolved(b"./".repeat(511)), Refused(11, 26));
    limits.add("1,024 bytes of dots climb", resolved([&b"../".repeat(340)[..], b"a"].concat()), Accepted);
    limits.add("datatype of 1,024 bytes", [S, b"\"a\"^^<x:", &a(1022), b"> ."].concat(), Accepted);
    limits.add("datatype of 1,025 bytes", [S, b"\"a\"^^<x:", &a(1023), b"> ."].concat(), Refused(11, 17));
}

fn prefixes(limits: &mut Limits) {
    let declared = |count: usize| (0..count).map(|i| format!("PREFIX p{i}: <x:{i}#>\n")).collect::<String>().into_bytes();
    let length = declared(32).len();
    limits.add("32 prefixes", [&declared(32)[..], b"p0:a p31:b p15:c ."].concat(), Accepted);
    limits.add("33 prefixes", declared(33), Refused(12, length + "PREFIX p32: ".len()));
    limits.add(
        "33 prefixes, the empty one counted",
        [b"@prefix : <x:> .", &declared(32)[..]].concat(),
        Refused(12, 16 + declared(31).len() + "PREFIX p31: ".len()),
    );
    limits.add("one declared twice at 32", [&declared(32)[..], b"PREFIX p7: <x:new#> p7:a p31:b p15:c ."].concat(), Accepted);
    limits.add("10 before 12", [&declared(32)[..], b"PREFIX q: <g>"].concat(), Refused(10, length + 10));
    limits.add("11 before 12", [&declared(32)[..], b"PREFIX q: <x:", &b"a".repeat(1023), b">"].concat(), Refused(11, length + 10));
    let named = |n: usize| [b"@prefix ", &b"p".repeat(n)[..], b": <x:> . ", &b"p".repeat(n), b":a a 1 ."].concat();
    limits.add("prefix of 64 bytes", named(64), Accepted);
    limits.add("prefix of 65 bytes", named(65), Refused(11, 8));
    limits.add("prefix of 64 bytes in characters of two", [b"PREFIX ", &"é".repeat(32).into_bytes()[..], b": <x:>"].concat(), Accepted);
    limits.add("prefix of 65 bytes in characters of two", [b"PREFIX a", &"é".repeat(32).into_bytes()[..], b": <x:>"].concat(), Refused(11, 7));
    limits.add("11 at the prefix before 10 at its IRI", [b"@prefix ", &b"p".repeat(65)[..], b": <g> ."].concat(), Refused(11, 8));
    limits.add("65 bytes used", [&b"p".repeat(65)[..], b":a <x:p> 1 ."].concat(), Refused(9, 0));
    let full = full_prefixes();
    limits.add("a 33rd behind a full work slice", [&full[..], b"PREFIX q: <x:>"].concat(), Refused(12, full.len() + 10));
    let again = format!("PREFIX p31{}: <x:> p31{}:a a <> .", "p".repeat(61), "p".repeat(61));
    limits.add("one declared twice in a full work slice", [&full[..], again.as_bytes()].concat(), Accepted);
}

/// 32 prefixes of 64 bytes with IRIs of 1,024 bytes, and a base of 1,024.
fn full_prefixes() -> Vec<u8> {
    let line = |i: usize| format!("PREFIX p{i:02}{}: <x:{}>\n", "p".repeat(61), "a".repeat(1022));
    let base = format!("BASE <x:{}>\n", "b".repeat(1022));
    (0..32).map(line).chain([base]).collect::<String>().into_bytes()
}

fn documents(limits: &mut Limits) {
    let padded = |start: &[u8], length: usize| [start, &b" ".repeat(length - start.len())].concat();
    let statement = [S, b"1 ."].concat();
    limits.add("document of 1,048,576 bytes", padded(&statement, LONGEST_DOCUMENT), Accepted);
    limits.add("document of 1,048,577 bytes", padded(&statement, LONGEST_DOCUMENT + 1), Refused(1, 0));
    limits.add("comment to 1,048,576 bytes", [&statement[..], &b"#".repeat(LONGEST_DOCUMENT - 15)].concat(), Accepted);
    limits.add("string of 1,048,560 bytes", [S, b"\"", &b"a".repeat(LONGEST_DOCUMENT - 16), b"\" ."].concat(), Accepted);
    limits.add("string without end in 1,048,576 bytes", [S, b"\"", &b"a".repeat(LONGEST_DOCUMENT - 13)].concat(), Refused(6, 12));
    limits.add("unfinished to 1,048,576 bytes", padded(S, LONGEST_DOCUMENT), Refused(8, LONGEST_DOCUMENT));
    limits.add("bad last byte of 1,048,576", [&padded(&statement, LONGEST_DOCUMENT - 1)[..], b"\xff"].concat(), Refused(5, LONGEST_DOCUMENT - 1));
    limits.add("bad UTF-8 and too long", b"\xff".repeat(LONGEST_DOCUMENT + 1), Refused(1, 0));
    limits.add("empty", b"", Accepted);
}

fn bases(limits: &mut Limits) {
    let base = |n: usize| [b"x:/", &b"a".repeat(n - 3)[..]].concat();
    let mut lent = |name: &str, document: &[u8], base: &[u8], at: At| {
        for mode in [0, 1] {
            limits.0.push(call(&format!("{name}, mode {mode}"), document, at).base(base).mode(mode));
        }
    };
    lent("lent base of 1,024 bytes", b"<> <#f> <g> .", &base(1024), Refused(11, 3));
    lent("lent base of 1,024 bytes, itself", b"<> <> <g>, <..> .", &base(1024), Accepted);
    lent("lent base of 1,024 bytes, its scheme", b"<x:s> <//h> <//h/../g> .", &base(1024), Accepted);
    lent("lent base of 1,025 bytes", b"", &base(1025), Refused(3, 0));
    lent("lent base not UTF-8", b"", b"x:\xff", Refused(3, 0));
    lent("lent base cut in a character", b"", b"x:\xc3", Refused(3, 0));
    lent("lent base with a surrogate", b"", b"x:\xed\xa0\x80", Refused(3, 0));
    lent("lent base without scheme", b"", b"g", Refused(3, 0));
    lent("lent base with a slash before its colon", b"", b"a/b:c", Refused(3, 0));
    lent("lent base that begins with a digit", b"", b"1x:", Refused(3, 0));
    lent("lent base that begins with a letter of two bytes", b"", "é:".as_bytes(), Refused(3, 0));
    lent("lent base, a scheme alone", b"<> a <g> .", b"x:", Accepted);
    lent("lent base with a fragment", b"<> a <g> .", b"x:#f", Accepted);
    lent("lent base with U+007F and above", b"<> a <g> .", "x:\u{7f}\u{80}\u{10ffff}".as_bytes(), Accepted);
    for forbidden in (0..=0x20).chain(*b"<>\"{}|^`\\") {
        lent(&format!("lent base with {forbidden:02X}"), b"", &[b"x:", &[forbidden][..]].concat(), Refused(3, 0));
    }
}

fn order_of_checks(limits: &mut Limits) {
    let mut add = |known: Known| limits.0.push(known);
    add(call("1 before 2, 3, 4", vec![b' '; LONGEST_DOCUMENT + 1], Refused(1, 0)).base(b"g").mode(2).work(0));
    add(call("2 before 3, 4", b"\xff", Refused(2, 0)).base(b"g").mode(2).work(0));
    add(call("3 before 4", b"\xff", Refused(3, 0)).base(b"g").work(0));
    add(call("4 before 5", b"\xff", Refused(4, 0)).work(LEAST_WORK - 1));
    add(call("5 before 6", b"| \xff", Refused(5, 2)));
    for mode in [2, 3, 128, 255, 256, 257, 65_536, u32::MAX] {
        add(call(&format!("mode {mode}"), b"", Refused(2, 0)).mode(mode));
    }
    let statement = [S, b"1 ."].concat();
    for work in [0, 1, LEAST_WORK - 1] {
        add(call(&format!("work of {work}"), &statement[..], Refused(4, 0)).work(work));
    }
    for work in [LEAST_WORK, LEAST_WORK + 1, 2 * LEAST_WORK] {
        add(call(&format!("work of {work}"), &statement[..], Accepted).work(work));
        add(call(&format!("work of {work}, every cell"), full_prefixes(), Accepted).work(work));
    }
}

/// A longer work slice must not change an answer, however many terms have to be found again.
pub fn work_lengths() -> Vec<Known> {
    let document: String = (0..1500).map(|i| format!("<x:{}> <x:p> \"{}\", _:b{} .\n", i % 700, i % 400, i % 300)).collect();
    let call = |more: usize| {
        let work = LEAST_WORK + more;
        known::accepted(format!("1,402 terms, work of {work}"), document.as_bytes()).rows(15_000).work(work)
    };
    (0..24).chain([100, 1023, 4095, 4096, 20_000, 100_000, 1_000_000]).map(call).collect()
}
