//! Tables with their known index (C-16): the readings' examples, numbers of more than one byte, and the conditions of 18.

use crate::call::Difference;
use crate::index::{check, write};
use crate::library::Checked;
use crate::made::tables_of_trig;
use crate::reader::long_form::Given;
use crate::written::{add_term, expect, tables, Change, CHANGES};

/// The index of `written::tables`, whose first and third row are about `x:s`.
const INDEX: &[u8] = b"GX\x03\0\x02\0\0\0\0\0\0\0x:s";

/// Documents and their records: the readings' two example lines, the empty list that they name, what has no record, and bytes over 7F.
const DOCUMENTS: &[(&str, &[&[u8]])] = &[
    (
        "<x:b> <x:p> 1, 1 . <x:a> <x:p> 1 . _:a <x:p> 2 . <x:g> { <x:b> <x:p> 1 }",
        &[b"GX\x03\0\x01\0\0\0\x02\0\0\0x:a", b"GX\x03\0\x03\0\0\0\0\0\0\0x:b"],
    ),
    (
        "<x:a-> a 1 . <x:ab> a 1 . <x:a> a 1 . <x:A> a 1 .",
        &[
            b"GX\x03\0\x01\0\0\0\x03\0\0\0x:A", b"GX\x03\0\x01\0\0\0\x02\0\0\0x:a", b"GX\x04\0\x01\0\0\0\0\0\0\0x:a-",
            b"GX\x04\0\x01\0\0\0\x01\0\0\0x:ab",
        ],
    ),
    ("() a 1 .", &[b"GX\x2e\0\x01\0\0\0\0\0\0\0http://www.w3.org/1999/02/22-rdf-syntax-ns#nil"]),
    ("", &[]),
    ("_:a <x:p> <x:o> . [] <x:p> [ <x:p> 1 ] . (1) <x:p> 2 . <x:g> {}", &[]),
    (
        "<x:\u{10ffff}> a 1 . <x:é> a 1 . <x:\u{7f}> a 1 . <x:aaa> a 1 .",
        &[
            b"GX\x05\0\x01\0\0\0\x03\0\0\0x:aaa", b"GX\x03\0\x01\0\0\0\x02\0\0\0x:\x7f", b"GX\x04\0\x01\0\0\0\x01\0\0\0x:\xc3\xa9",
            b"GX\x06\0\x01\0\0\0\0\0\0\0x:\xf4\x8f\xbf\xbf",
        ],
    ),
];

/// What the tables are, the tables, and their index.
type Known = (String, Given, Vec<u8>);

fn known(name: impl Into<String>, given: Given, index: &[u8]) -> Known {
    (name.into(), given, index.to_vec())
}

fn documents() -> impl Iterator<Item = Known> {
    DOCUMENTS.iter().map(|(document, records)| known(*document, tables_of_trig(document.as_bytes()), &records.concat()))
}

/// The length's low byte is 0.
fn longest() -> Known {
    let text = [b"x:", &b"a".repeat(1022)[..]].concat();
    let index = [b"GX\0\x04\x01\0\0\0\0\0\0\0", &text[..]].concat();
    known("an IRI of 1,024 bytes", tables_of_trig(&[b"<", &text[..], b"> a 1 ."].concat()), &index)
}

/// 010101 hex rows about one subject, and then one about another.
fn many_rows() -> Known {
    let mut rows = [0, 1, 2, 1, 0].repeat(0x01_0101);
    rows.extend([0, 2, 2, 1, 0]);
    let given = Given { rows, row_count: 0x01_0102, ..tables() };
    known("65,793 rows of a subject", given, b"GX\x03\0\x01\0\0\0\x01\x01\x01\0x:pGX\x03\0\x01\x01\x01\0\0\0\0\0x:s")
}

/// Term 7 has the text of term 1, which is the third row's subject; the first two rows' subjects are given.
fn one_text_twice(subjects: [u32; 2], index: &[u8]) -> Known {
    let mut given = tables();
    add_term(&mut given, [1, 0, 3, 0, 0]);
    [given.rows[1], given.rows[6]] = subjects;
    known(format!("one text under two numbers, subjects {subjects:?}"), given, index)
}

const NO: Checked = Checked { number: 0, yes: 0 };
const YES: Checked = Checked { number: 0, yes: 1 };

/// A result that says of which tables it is.
fn named(name: &str, result: Result<(), Difference>) -> Result<(), Difference> {
    result.map_err(|difference| Difference { call: format!("{name}: {}", difference.call), ..difference })
}

/// Each index in an output of its length and in a shorter one, and checked.
pub fn records() -> Vec<Result<(), Difference>> {
    let twice = [one_text_twice([7, 6], INDEX), one_text_twice([6, 7], b"GX\x03\0\x02\0\0\0\x01\0\0\0x:s")];
    let look = |given: &Given, index: &[u8]| {
        let (written, bytes) = write(given, index.len())?;
        expect("number and index", (written.number, bytes), (0, index))?;
        expect("check the index", check(given, index)?, YES)?;
        let [less @ .., _] = index else { return Ok(()) };
        expect("one byte less of output", write(given, less.len())?.0.number, 22)?;
        expect("check one byte less", check(given, less)?, NO)
    };
    documents().chain([longest(), many_rows()]).chain(twice).map(|(name, given, index)| named(&name, look(&given, &index))).collect()
}

/// Each change with ample room, and with none: 18 goes before 22. What passes has the index of the tables unchanged.
pub fn changes() -> Vec<Result<(), Difference>> {
    let look = |change: fn(&mut Given), number: u32| {
        let mut given = tables();
        change(&mut given);
        let index = if number == 0 && given.row_count > 0 { INDEX } else { b"" };
        let (written, bytes) = write(&given, 10_000)?;
        expect("number and index", (written.number, bytes), (number, index))?;
        expect("no output", write(&given, 0)?.0.number, if index.is_empty() { number } else { 22 })?;
        for bytes in [INDEX, b""] {
            let yes = number == 0 && bytes == index;
            expect("check", check(&given, bytes)?, Checked { number, yes: u32::from(yes) })?;
        }
        Ok(())
    };
    CHANGES.iter().map(|&(name, change, number): &Change| named(name, look(change, number))).collect()
}

/// Outputs of every length up to the index's own and over; and, checked, the index in that length.
pub fn lengths() -> Vec<Result<(), Difference>> {
    let given = tables();
    let look = |length: usize| {
        let (written, bytes) = write(&given, length)?;
        expect("number and index", (written.number, bytes), if length < INDEX.len() { (22, &b""[..]) } else { (0, INDEX) })?;
        let mut bytes = INDEX.to_vec();
        bytes.resize(length, 0);
        expect("check", check(&given, &bytes)?, if length == INDEX.len() { YES } else { NO })
    };
    (0..INDEX.len() + 4).map(look).collect()
}

/// The index with each of its bits changed.
pub fn bits() -> Vec<Result<(), Difference>> {
    let look = |bit: usize| {
        let mut bytes = INDEX.to_vec();
        bytes[bit / 8] ^= 1 << (bit % 8);
        expect("check", check(&tables(), &bytes)?, NO)
    };
    (0..8 * INDEX.len()).map(look).collect()
}
