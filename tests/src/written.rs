//! Tables made by hand for the writer and for term texts, with known answers: each condition of 18 alone, and what 18 does not look at.

use crate::call::{Difference, Guarded};
use crate::library::{self, Text, Written};
use crate::reader::long_form::{self, Given};

/// One usable table with every kind of term; term 3 is the datatype of 4, and 5 has the tag `en`.
pub fn tables() -> Given {
    let terms = [[1, 0, 3, 0, 0], [1, 3, 3, 0, 0], [1, 6, 3, 0, 0], [3, 9, 1, 3, 0], [4, 10, 2, 12, 2], [2, 14, 1, 0, 0]];
    let rows = [[0, 1, 2, 4, 0], [6, 6, 2, 5, 0], [1, 1, 2, 1, 0]];
    Given { rows: rows.concat(), row_count: 3, terms: terms.concat(), term_count: 6, store: b"x:sx:px:t7hienn".to_vec(), store_count: 15 }
}

const LONG_FORM: &str = "<x:s> <x:p> \"7\"^^<x:t> .\n_:b0 { _:b0 <x:p> \"hi\"@en . }\n<x:s> { <x:s> <x:p> <x:s> . }\n";

/// A change to the tables, and the writer's number then.
pub type Change = (&'static str, fn(&mut Given), u32);

/// A term's words are `terms[5 * (number - 1)..]`, a row's `rows[5 * row..]`.
pub const CHANGES: &[Change] = &[
    ("nothing", |_| {}, 0),
    ("no rows", |g| g.row_count = 0, 0),
    ("more rows than the slice", |g| g.row_count = 4, 18),
    ("2^32 - 1 rows", |g| g.row_count = u32::MAX, 18),
    ("rows in words that make no group", |g| g.rows.truncate(14), 18),
    ("more terms than the slice", |g| g.term_count = 7, 18),
    ("2^32 - 1 terms", |g| g.term_count = u32::MAX, 18),
    ("five times the terms is over 2^32", |g| g.term_count = 858_993_460, 18),
    ("more bytes than the store", |g| g.store_count = 16, 18),
    ("2^32 - 1 bytes", |g| g.store_count = u32::MAX, 18),
    ("a store used less than its spans", |g| g.store_count = 14, 18),
    (
        "longer slices",
        |g| {
            g.rows.push(9);
            g.terms.push(9);
            g.store.push(0xFF);
        },
        0,
    ),
    ("a graph over the count", |g| g.rows[0] = 7, 18),
    ("a graph of 2^32 - 1", |g| g.rows[0] = u32::MAX, 18),
    ("a literal as graph", |g| g.rows[0] = 4, 18),
    ("a tagged literal as graph", |g| g.rows[0] = 5, 18),
    ("subject 0", |g| g.rows[1] = 0, 18),
    ("a subject over the count", |g| g.rows[1] = 7, 18),
    ("a literal as subject", |g| g.rows[1] = 4, 18),
    ("a tagged literal as subject", |g| g.rows[1] = 5, 18),
    ("predicate 0", |g| g.rows[2] = 0, 18),
    ("a predicate over the count", |g| g.rows[2] = 7, 18),
    ("a blank node as predicate", |g| g.rows[2] = 6, 18),
    ("a literal as predicate", |g| g.rows[2] = 4, 18),
    ("a tagged literal as predicate", |g| g.rows[2] = 5, 18),
    ("object 0", |g| g.rows[3] = 0, 18),
    ("an object over the count", |g| g.rows[3] = 7, 18),
    ("a fault in the last row", |g| g.rows[13] = 0, 18),
    ("position words", |g| g.rows[4] = u32::MAX, 0),
    ("kind 0", |g| g.terms[0] = 0, 18),
    ("kind 5", |g| g.terms[0] = 5, 18),
    ("kind 2^32 - 1", |g| g.terms[0] = u32::MAX, 18),
    ("kind 0 in no row", |g| add_term(g, [0, 0, 3, 0, 0]), 18),
    ("a span outside in no row", |g| add_term(g, [2, 15, 1, 0, 0]), 18),
    ("an empty span at the used count", |g| add_term(g, [2, 15, 0, 0, 0]), 0),
    ("an empty span past the used count", |g| add_term(g, [2, 16, 0, 0, 0]), 18),
    ("a span that wraps", |g| add_term(g, [2, u32::MAX, 2, 0, 0]), 18),
    ("a length of 2^32 - 1", |g| add_term(g, [2, 1, u32::MAX, 0, 0]), 18),
    ("an IRI not UTF-8", |g| g.store[2] = 0xFF, 18),
    ("a literal not UTF-8", |g| g.store[9] = 0x80, 18),
    ("a tagged literal not UTF-8", |g| g.store[11] = 0xC3, 18),
    ("a label not UTF-8", |g| g.store[14] = 0xFF, 18),
    (
        "a span that cuts a character",
        |g| {
            g.store[9..11].copy_from_slice("é".as_bytes());
        },
        18,
    ),
    ("an IRI without scheme", |g| g.store[1] = b's', 18),
    ("an IRI that begins with a digit", |g| g.store[0] = b'1', 18),
    ("an IRI that begins with a colon", |g| g.store[0] = b':', 18),
    ("an empty IRI", |g| add_term(g, [1, 0, 0, 0, 0]), 18),
    ("a scheme alone", |g| add_term(g, [1, 0, 2, 0, 0]), 0),
    ("an IRI of 1,024 bytes", |g| add_long_iri(g, 1024), 0),
    ("an IRI of 1,025 bytes", |g| add_long_iri(g, 1025), 18),
    ("an IRI's other words", |g| g.terms[3..5].fill(u32::MAX), 0),
    ("a blank node's last word", |g| g.terms[29] = u32::MAX, 0),
    ("a literal's last word", |g| g.terms[19] = u32::MAX, 0),
    ("datatype 0", |g| g.terms[18] = 0, 18),
    ("a datatype that is itself", |g| g.terms[18] = 4, 18),
    ("a tagged literal as datatype", |g| g.terms[18] = 5, 18),
    ("an earlier blank node as datatype", |g| add_term(g, [3, 9, 1, 6, 0]), 18),
    ("an earlier literal as datatype", |g| add_term(g, [3, 9, 1, 4, 0]), 18),
    ("a datatype over the count", |g| g.terms[18] = 7, 18),
    ("a datatype of 2^32 - 1", |g| g.terms[18] = u32::MAX, 18),
    (
        "a later IRI as datatype",
        |g| {
            g.terms[18] = 7;
            add_term(g, [1, 0, 3, 0, 0]);
        },
        18,
    ),
    ("the IRI before as datatype", |g| add_term(g, [3, 9, 1, 2, 0]), 0),
    ("an empty tag", |g| g.terms[24] = 0, 18),
    ("a tag outside", |g| g.terms[24] = 4, 18),
    ("a tag that wraps", |g| g.terms[23] = u32::MAX, 18),
    ("a tag with a digit first", |g| g.store[12] = b'1', 18),
    ("a tag that ends in a hyphen", |g| g.store[13] = b'-', 18),
    ("a tag of one letter", |g| g.terms[24] = 1, 0),
    ("a tag with a letter of two bytes", |g| g.store[12..14].copy_from_slice("é".as_bytes()), 18),
    ("the tag a-1", |g| add_tag(g, "a-1"), 0),
    ("the tag a--b", |g| add_tag(g, "a--b"), 18),
    ("the tag base", |g| add_tag(g, "base"), 18),
    ("the tag prefix", |g| add_tag(g, "prefix"), 18),
    ("the tag BASE", |g| add_tag(g, "BASE"), 0),
    ("the tag Prefix", |g| add_tag(g, "Prefix"), 0),
    ("the tag base-x", |g| add_tag(g, "base-x"), 0),
    ("the tag prefixes", |g| add_tag(g, "prefixes"), 0),
];

/// A seventh term.
pub fn add_term(given: &mut Given, term: [u32; 5]) {
    given.terms.extend(term);
    given.term_count += 1;
}

/// More bytes in the used store; their start.
fn add_text(given: &mut Given, text: &[u8]) -> u32 {
    let start = given.store_count;
    given.store.extend(text);
    given.store_count += text.len() as u32;
    start
}

fn add_long_iri(given: &mut Given, length: u32) {
    let start = add_text(given, &[b"x:", &b"a".repeat(length as usize - 2)[..]].concat());
    add_term(given, [1, start, length, 0, 0]);
}

fn add_tag(given: &mut Given, tag: &str) {
    let start = add_text(given, tag.as_bytes());
    add_term(given, [4, 0, 0, start, tag.len() as u32]);
}

/// Texts as the long form shows them: an IRI's, and a string's.
const SHOWN: &[(u32, &str, &str)] = &[
    (1, "x:\0 <>\"{}|^`\\", "<x:\\u0000\\u0020\\u003C\\u003E\\u0022\\u007B\\u007D\\u007C\\u005E\\u0060\\u005C>"),
    (1, "x:\u{1f}!~\u{7f}é\u{10ffff}#%", "<x:\\u001F!~\u{7f}é\u{10ffff}#%>"),
    (3, "\"\\\n\r", "\"\\\"\\\\\\n\\r\""),
    (3, "\0\t\u{8}\u{c}'\u{7f}é\u{ffff}", "\"\0\t\u{8}\u{c}'\u{7f}é\u{ffff}\""),
    (3, "", "\"\""),
];

/// Both writers' answer and output, in a buffer full of a pattern.
fn write(given: &Given, length: usize) -> Result<(Written, Vec<u8>), Difference> {
    let mut theirs = Guarded::new(length, b"pattern");
    let mut ours = theirs.clone();
    let wanted = Written::of(long_form::write(given, ours.lent()));
    let written = library::write(given, theirs.lent());
    if written != wanted || theirs.difference(&ours).is_some() {
        let text = theirs.lent().escape_ascii().to_string();
        return Err(Difference {
            call: format!("write into {length} bytes"),
            library: format!("{written:?}, {text}"),
            wanted: format!("{wanted:?}"),
        });
    }
    Ok((written, theirs.lent()[..written.position as usize].to_vec()))
}

pub fn expect(call: &str, got: impl std::fmt::Debug + PartialEq, wanted: impl std::fmt::Debug) -> Result<(), Difference> {
    let (library, wanted) = (format!("{got:?}"), format!("{wanted:?}"));
    if library == wanted {
        Ok(())
    } else {
        Err(Difference { call: call.into(), library, wanted })
    }
}

/// Each change with ample room, and with none: 18 goes before 17.
pub fn changes() -> Vec<Result<(), Difference>> {
    let check = |&(name, change, number): &Change| {
        let mut given = tables();
        change(&mut given);
        let (written, _) = write(&given, 10_000)?;
        expect(name, written.number, number)?;
        let (written, _) = write(&given, 0)?;
        expect(name, written.number, if number == 0 && given.row_count > 0 { 17 } else { number })
    };
    CHANGES.iter().map(check).collect()
}

/// The long form itself, in buffers of every length up to its own and over.
pub fn lengths() -> Vec<Result<(), Difference>> {
    let check = |length: usize| {
        let (written, text) = write(&tables(), length)?;
        let enough = length >= LONG_FORM.len();
        expect(
            "number and text",
            (written.number, String::from_utf8(text)),
            (if enough { 0 } else { 17 }, Ok::<_, ()>(if enough { LONG_FORM } else { "" })),
        )
    };
    (0..LONG_FORM.len() + 4).map(check).collect()
}

/// Characters that are escaped, and those that are not.
pub fn shown() -> Vec<Result<(), Difference>> {
    let check = |&(kind, text, shown): &(u32, &str, &str)| {
        let mut given = tables();
        let type_start = add_text(&mut given, b"http://www.w3.org/2001/XMLSchema#string");
        add_term(&mut given, [1, type_start, 39, 0, 0]);
        let start = add_text(&mut given, text.as_bytes());
        add_term(&mut given, [kind, start, text.len() as u32, if kind == 3 { 7 } else { 0 }, 0]);
        given.rows[..5].copy_from_slice(&[0, 1, 2, 8, 0]);
        given.row_count = 1;
        let (_, written) = write(&given, 1000)?;
        expect("text", String::from_utf8(written), Ok::<_, ()>(format!("<x:s> <x:p> {shown} .\n")))
    };
    SHOWN.iter().map(check).collect()
}

/// A change to the tables, a term's number, and the answer then.
type TextCall = (&'static str, fn(&mut Given), u32, Text);

/// Term texts, by number.
pub fn texts() -> Vec<Result<(), Difference>> {
    let found = |start, length| Text { start, length, number: 0 };
    let refused = Text { start: 0, length: 0, number: 18 };
    let calls: Vec<TextCall> = vec![
        ("an IRI", |_| {}, 2, found(3, 3)),
        ("a literal", |_| {}, 4, found(9, 1)),
        ("a tagged literal", |_| {}, 5, found(10, 2)),
        ("a label", |_| {}, 6, found(14, 1)),
        ("number 0", |_| {}, 0, refused),
        ("one over the count", |_| {}, 7, refused),
        ("2^32 - 1", |_| {}, u32::MAX, refused),
        ("one over the count, in the slice", |g| g.term_count = 5, 6, refused),
        ("terms past their slice", |g| g.term_count = 7, 1, refused),
        ("2^32 - 1 terms", |g| g.term_count = u32::MAX, 1, refused),
        ("store past its slice", |g| g.store_count = 16, 1, refused),
        ("kind 0", |g| g.terms[0] = 0, 1, refused),
        ("kind 5", |g| g.terms[0] = 5, 1, refused),
        ("another term's kind", |g| g.terms[0] = 5, 2, found(3, 3)),
        ("a span outside the used store", |g| g.store_count = 14, 6, refused),
        ("a span that wraps", |g| g.terms[1] = u32::MAX, 1, refused),
        ("an empty span at the used count", |g| g.terms[1..3].copy_from_slice(&[15, 0]), 1, found(15, 0)),
        ("an empty span past it", |g| g.terms[1..3].copy_from_slice(&[16, 0]), 1, refused),
        ("a tag outside", |g| g.terms[24] = 9, 5, found(10, 2)),
        ("a text not UTF-8", |g| g.store[9] = 0xFF, 4, found(9, 1)),
    ];
    let check = |(name, change, number, wanted): TextCall| {
        let mut given = tables();
        change(&mut given);
        expect(&format!("{name}, the independent reader"), Text::of(long_form::term_text(&given, number)), wanted)?;
        expect(name, library::term_text(&given, number), wanted)
    };
    calls.into_iter().map(check).collect()
}
