//! "One motor, without walking the lot" (document 02, C-17): the look-up of any address in any bytes.

use super::iri;
use std::cmp::Ordering;

/// The number, and how many rows the address has and the number of the first; both are 0 where it is not there, and with 23.
pub fn look_up(address: &[u8], index: &[u8]) -> (u32, u32, u32) {
    let (mut before, mut rest) = (None, index);
    while !rest.is_empty() {
        // a record rises where its text is over the one before; the first has none before it, and `None` is under every text
        let Some(record) = first_record(rest).filter(|record| before < Some(record.text)) else { return (23, 0, 0) };
        match record.text.cmp(address) {
            Ordering::Less => (before, rest) = (Some(record.text), record.behind),
            Ordering::Equal => return (0, record.rows, record.first),
            Ordering::Greater => break,
        }
    }
    (0, 0, 0)
}

struct Record<'a> {
    rows: u32,
    first: u32,
    text: &'a [u8],
    behind: &'a [u8],
}

/// The record in front, or none where it "lacks its mark, is cut short, has a length over 1,024".
fn first_record(bytes: &[u8]) -> Option<Record<'_>> {
    let (head, rest) = bytes.split_at_checked(12)?;
    let length = number(&head[2..4]) as usize;
    if head[..2] != [0x47, 0x58] || length > iri::LONGEST {
        return None;
    }
    let (text, behind) = rest.split_at_checked(length)?;
    Some(Record { rows: number(&head[4..8]), first: number(&head[8..]), text, behind })
}

/// "all low byte first"
fn number(bytes: &[u8]) -> u32 {
    bytes.iter().rev().fold(0, |number, &byte| number << 8 | u32::from(byte))
}
