//! Look-ups with their known answers (C-17): the readings' examples, every cut, each reason for 23 at each place, order, lengths and numbers.

use crate::call::Difference;
use crate::library::Found;
use crate::look_up::{expect, look_up};
use crate::reader::index::{record, Rows};

const ABSENT: Found = found(0, 0);
const REFUSED: Found = Found { number: 23, rows: 0, first: 0 };

const fn found(rows: u32, first: u32) -> Found {
    Found { number: 0, rows, first }
}

/// A record as the readings write it.
fn rec(text: &[u8], count: u32, first: u32) -> Vec<u8> {
    record(text, &Rows { count, first })
}

/// A text with so many letters behind it that it has this length.
fn long(start: &[u8], length: usize) -> Vec<u8> {
    [start, &b"a".repeat(length - start.len())].concat()
}

/// An address, the bytes in which it is looked up, and the answer.
type Known = (Vec<u8>, Vec<u8>, Found);

fn known(address: &[u8], parts: &[&[u8]], answer: Found) -> Known {
    (address.to_vec(), parts.concat(), answer)
}

fn check(calls: Vec<Known>) -> Vec<Result<(), Difference>> {
    let look = |(address, index, answer): &Known| expect(address, index, look_up(address, index)?, *answer).map(drop);
    calls.iter().map(look).collect()
}

/// The readings' example lines, and the empty index that they name.
pub fn examples() -> Vec<Result<(), Difference>> {
    let (a, b) = (rec(b"x:a", 3, 7), rec(b"x:b", 3, 7));
    check(vec![
        known(b"x:a", &[&a, b"junk"], found(3, 7)),
        known(b"x:b", &[&a, b"junk"], REFUSED),
        known(b"x:0", &[&a, &rec(b"x:a", 1, 1)], ABSENT),
        known(b"x:b", &[&a, &rec(b"x:a", 1, 1)], REFUSED),
        known(b"x:a", &[&a[..a.len() - 1]], REFUSED),
        known(b"x:a", &[&b[..b.len() - 1]], REFUSED),
        known(b"y", &[&rec(&long(b"x:", 1025), 1, 1)], REFUSED),
        known(b"x:c", &[&a], ABSENT),
        known(b"", &[&rec(b"", 3, 7)], found(3, 7)),
        known(b"x:a", &[], ABSENT),
        known(b"", &[], ABSENT),
    ])
}

/// Two records of 15 bytes.
const INDEX: &[u8] = b"GX\x03\0\x03\0\0\0\x07\0\0\0x:bGX\x03\0\x02\0\0\0\x01\0\0\0x:d";
const B: Found = found(3, 7);
const D: Found = found(2, 1);
/// Before, at, between, at and behind them.
const ADDRESSES: [&[u8]; 5] = [b"x:a", b"x:b", b"x:c", b"x:d", b"x:e"];

fn all_addresses(parts: &[&[u8]], answers: [Found; 5]) -> Vec<Known> {
    ADDRESSES.iter().zip(answers).map(|(address, answer)| known(address, parts, answer)).collect()
}

/// Up to which length the index cut there has which answers: where a record ends, the end of the bytes is no error.
const CUTS: [(usize, [Found; 5]); 5] = [
    (0, [ABSENT; 5]),
    (14, [REFUSED; 5]),
    (15, [ABSENT, B, ABSENT, ABSENT, ABSENT]),
    (29, [ABSENT, B, REFUSED, REFUSED, REFUSED]),
    (30, [ABSENT, B, ABSENT, D, ABSENT]),
];

/// The index cut at every length.
pub fn cuts() -> Vec<Result<(), Difference>> {
    let calls = |length: usize| {
        let (_, answers) = CUTS.iter().find(|(last, _)| length <= *last).expect("30 is the whole");
        all_addresses(&[&INDEX[..length]], *answers)
    };
    check((0..=INDEX.len()).flat_map(calls).collect())
}

/// Bytes in front of which no record stands: without the mark, cut short, or with a length that is too high.
const NO_RECORDS: &[&[u8]] = &[
    b"GY\x03\0\x02\0\0\0\x01\0\0\0x:d", b"HX\x03\0\x02\0\0\0\x01\0\0\0x:d", b"XG\x03\0\x02\0\0\0\x01\0\0\0x:d", b"gx\x03\0\x02\0\0\0\x01\0\0\0x:d",
    b"\0\0\x03\0\x02\0\0\0\x01\0\0\0x:d", b"\x03\0\x02\0\0\0\x01\0\0\0x:d", b"GX\x04\0\x02\0\0\0\x01\0\0\0x:d", b"GX\0\x03\x02\0\0\0\x01\0\0\0x:d",
    b"GX\x01\x04\x02\0\0\0\x01\0\0\0x:d", b"GX\xff\xff\x02\0\0\0\x01\0\0\0x:d", b"GX\x03\0\x02\0\0\0\x01\0\0\0", b"GX\0\0\x02\0\0\0\x01\0\0", b"GX",
    b"G", b"\n", b"junk",
];

/// Texts that are not greater than `x:b`.
const NOT_RISING: &[&[u8]] = &[b"x:b", b"x:az", b"x:a", b"x:", b"x", b"X:c", b"\0", b""];
/// Texts that are not greater than `x:d`, but than `x:b`.
const NOT_RISING_BEHIND_BOTH: &[&[u8]] = &[b"x:d", b"x:c", b"x:bz"];

/// Each reason for 23: in the first record, which every address reaches, and in the second, which is behind the stopping place of two.
pub fn refused() -> Vec<Result<(), Difference>> {
    let (first, last) = INDEX.split_at(15);
    let in_second = [ABSENT, B, REFUSED, REFUSED, REFUSED];
    let too_long = [1025, 1026, 2048, 65_535].map(|length| rec(&long(b"x:d", length), 2, 1));
    let no_records: Vec<&[u8]> = NO_RECORDS.iter().copied().chain(too_long.iter().map(Vec::as_slice)).collect();
    let mut calls = Vec::new();
    for bytes in no_records {
        calls.push(known(b"", &[bytes], REFUSED));
        calls.extend(all_addresses(&[bytes], [REFUSED; 5]));
        calls.extend(all_addresses(&[first, bytes], in_second));
    }
    for text in NOT_RISING {
        calls.extend(all_addresses(&[first, &rec(text, 2, 1)], in_second));
        calls.extend(all_addresses(&[first, &rec(text, 2, 1), last], in_second));
    }
    for text in NOT_RISING_BEHIND_BOTH {
        calls.extend(all_addresses(&[INDEX, &rec(text, 2, 1)], [ABSENT, B, ABSENT, D, REFUSED]));
    }
    check(calls)
}

/// Texts in byte order: a beginning goes before its continuation, and a byte over 7F behind one under it.
const RISING: &[&[u8]] = &[
    b"", b"\0", b"\0\0", b"\0a", b"A", b"a", b"a\0", b"a-", b"aa", b"a\x7f", b"a\x80", b"a\xff", b"b", b"\x7f", b"\x80", b"\xc3\xa9", b"\xff",
    b"\xff\0", b"\xff\xff",
];

/// Each of the texts in the index of all, and each two of them in either order, with an address behind them.
pub fn order() -> Vec<Result<(), Difference>> {
    let all: Vec<u8> = (1..).zip(RISING).flat_map(|(number, text)| rec(text, number, 100 + number)).collect();
    let mut calls: Vec<Known> = (1..).zip(RISING).map(|(number, text)| known(text, &[&all], found(number, 100 + number))).collect();
    for (place, text) in RISING.iter().enumerate() {
        for (other_place, other) in RISING.iter().enumerate() {
            let answer = if place < other_place { ABSENT } else { REFUSED };
            calls.push(known(b"\xff\xff\xff", &[&rec(text, 1, 0), &rec(other, 1, 1)], answer));
        }
    }
    check(calls)
}

/// A text of each length, whole and cut by a byte, and addresses of as many bytes, of one more, and behind it.
pub fn lengths() -> Vec<Result<(), Difference>> {
    let mut calls = vec![known(&long(b"x:", 70_000), &[&rec(&long(b"x:", 1024), 2, 1)], ABSENT)];
    for text in [Vec::new(), long(b"x:", 255), long(b"x:", 256), long(b"x:", 1023), long(b"x:", 1024), long(b"x:", 1025), long(b"x:", 65_535)] {
        let record = rec(&text, 2, 1);
        let [at, behind] = if text.len() <= 1024 { [D, ABSENT] } else { [REFUSED; 2] };
        calls.push(known(&text, &[&record], at));
        calls.push(known(&[&text[..], b"a"].concat(), &[&record], behind));
        calls.push(known(b"y", &[&record], behind));
        calls.push(known(&text, &[&record[..record.len() - 1]], REFUSED));
    }
    check(calls)
}

/// Numbers that take all four bytes, and such as no index has: they are not checked.
pub fn numbers() -> Vec<Result<(), Difference>> {
    check(vec![
        known(b"x:a", &[b"GX\x03\0\x01\x02\x03\x04\x05\x06\x07\x08x:a"], found(0x0403_0201, 0x0807_0605)),
        known(b"x:a", &[b"GX\x03\0\x80\xff\x80\xff\xff\x80\xff\x80x:a"], found(0xFF80_FF80, 0x80FF_80FF)),
        known(b"x:a", &[b"GX\x03\0\xff\xff\xff\xff\xff\xff\xff\xffx:a"], found(u32::MAX, u32::MAX)),
        known(b"x:a", &[b"GX\x03\0\0\0\0\0\x05\0\0\0x:a"], found(0, 5)),
        known(b"x:a", &[b"GX\x03\0\0\0\0\0\0\0\0\0x:a"], ABSENT),
        known(b"x:a", &[b"GX\x03\0GXGXGXGXx:a"], found(0x5847_5847, 0x5847_5847)),
    ])
}
