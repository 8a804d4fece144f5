//! "An index beside the file" (document 02, C-16): the builder and the check.

use super::long_form::{Checked, Given};
use std::collections::BTreeMap;

/// The builder's number and position; the output slice is changed on 0 alone.
pub fn write(given: &Given, out: &mut [u8]) -> (u32, usize) {
    let Some(index) = index(given) else { return (18, 0) };
    let Some(start) = out.get_mut(..index.len()) else { return (22, 0) };
    start.copy_from_slice(&index);
    (0, index.len())
}

/// The check's number and its answer.
pub fn check(given: &Given, bytes: &[u8]) -> (u32, bool) {
    index(given).map_or((18, false), |index| (0, index == bytes))
}

/// How many rows a subject has, and the number of the first.
pub struct Rows {
    pub count: u32,
    pub first: u32,
}

/// The whole index, or none for 18. Subjects are told apart by their texts: two IRI terms may have the same one.
pub fn index(given: &Given) -> Option<Vec<u8>> {
    let (tables, rows) = Checked::usable(given)?;
    let mut subjects: BTreeMap<&[u8], Rows> = BTreeMap::new();
    for (number, row) in (0..).zip(rows) {
        if let Some(text) = tables.iri(row[1]) {
            subjects.entry(text).or_insert(Rows { count: 0, first: number }).count += 1;
        }
    }
    Some(subjects.iter().flat_map(|(text, rows)| record(text, rows)).collect())
}

/// "the two bytes 47 58 hex, the text length in two bytes, the number of its rows in four, the number of its first row (from 0) in four"
pub fn record(text: &[u8], rows: &Rows) -> Vec<u8> {
    let length = u16::try_from(text.len()).expect("18 was given for an IRI that is longer");
    [&[0x47, 0x58][..], &length.to_le_bytes(), &rows.count.to_le_bytes(), &rows.first.to_le_bytes(), text].concat()
}
