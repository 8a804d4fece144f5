//! "Long form": the writer, and a term's text.

use super::changes::Value;
use super::iri;
use super::lexer;
use super::tables::{BLANK, IRI, LITERAL, TAGGED};
use super::utf8;
use std::collections::BTreeSet;
use std::ops::Range;
use std::slice::ChunksExact;

const XSD_STRING: &[u8] = b"http://www.w3.org/2001/XMLSchema#string";

/// Tables as a caller gives them: slices, and the counts in use.
#[derive(Clone, PartialEq)]
pub struct Given {
    pub rows: Vec<u32>,
    pub row_count: u32,
    pub terms: Vec<u32>,
    pub term_count: u32,
    pub store: Vec<u8>,
    pub store_count: u32,
}

/// The writer's number and position; the output slice is changed on 0 alone.
pub fn write(given: &Given, out: &mut [u8]) -> (u32, usize) {
    let Some(text) = long_form(given) else { return (18, 0) };
    let Some(start) = out.get_mut(..text.len()) else { return (17, 0) };
    start.copy_from_slice(&text);
    (0, text.len())
}

/// The part of the store that is a term's text, or none for 18.
pub fn term_text(given: &Given, number: u32) -> Option<Range<usize>> {
    let tables = Checked::counts(given)?;
    let term = tables.term(number)?;
    if !(IRI..=TAGGED).contains(&term[0]) {
        return None;
    }
    tables.span(term[1], term[2])
}

/// The whole long form, or none for 18.
pub fn long_form(given: &Given) -> Option<Vec<u8>> {
    let (tables, rows) = Checked::usable(given)?;
    let mut out = Vec::new();
    for row in rows {
        tables.line(row, &mut out);
    }
    Some(out)
}

/// The words in use of a slice in groups of five, or none where the count goes past it.
fn used(words: &[u32], count: u32) -> Option<&[u32]> {
    words.get(..usize::try_from(count).ok()?.checked_mul(5)?)
}

/// Terms and store whose counts stay in their slices.
pub struct Checked<'a> {
    terms: &'a [u32],
    store: &'a [u8],
}

impl<'a> Checked<'a> {
    fn counts(given: &'a Given) -> Option<Self> {
        Some(Checked { terms: used(&given.terms, given.term_count)?, store: given.store.get(..given.store_count as usize)? })
    }

    /// The tables and their rows, or none for 18.
    pub fn usable(given: &'a Given) -> Option<(Self, ChunksExact<'a, u32>)> {
        let rows = used(&given.rows, given.row_count)?.chunks_exact(5);
        let tables = Checked::counts(given)?;
        for number in 1..=given.term_count {
            tables.check_term(number)?;
        }
        for row in rows.clone() {
            tables.check_row(row)?;
        }
        Some((tables, rows))
    }

    /// A term by its number, from 1 to the count.
    fn term(&self, number: u32) -> Option<&'a [u32]> {
        self.terms.chunks_exact(5).nth((number as usize).checked_sub(1)?)
    }

    fn kind(&self, number: u32) -> Option<u32> {
        self.term(number).map(|term| term[0])
    }

    /// A span inside the used store.
    fn span(&self, start: u32, length: u32) -> Option<Range<usize>> {
        let range = start as usize..start as usize + length as usize;
        (range.end <= self.store.len()).then_some(range)
    }

    fn text(&self, start: u32, length: u32) -> Option<&'a [u8]> {
        self.span(start, length).map(|range| &self.store[range])
    }

    /// An IRI term's text, or none where the term is no IRI.
    pub fn iri(&self, number: u32) -> Option<&'a [u8]> {
        self.term(number).filter(|term| term[0] == IRI).and_then(|term| self.text(term[1], term[2]))
    }

    /// What a term of usable tables stands for; 0 is the default graph.
    pub fn value(&self, number: u32) -> Value<'a> {
        let text = |start: u32, length: u32| self.text(start, length).expect("checked");
        match self.term(number) {
            None => Value::DefaultGraph,
            Some(&[IRI, start, length, ..]) => Value::Iri(text(start, length)),
            Some(&[BLANK, _, _, blank, _]) => Value::Blank(blank),
            Some(&[LITERAL, start, length, datatype, _]) => {
                Value::Literal { text: text(start, length), datatype: self.iri(datatype).expect("checked") }
            }
            Some(term) => Value::Tagged { text: text(term[1], term[2]), tag: text(term[3], term[4]) },
        }
    }

    /// The blank numbers that terms have, used by a row or not.
    pub fn blank_numbers(&self) -> BTreeSet<u32> {
        self.terms.chunks_exact(5).filter(|term| term[0] == BLANK).map(|term| term[3]).collect()
    }

    /// What 18 asks of a term, used by a row or not.
    fn check_term(&self, number: u32) -> Option<()> {
        let term = self.term(number)?;
        let text = self.text(term[1], term[2])?;
        let good = match term[0] {
            IRI => iri::scheme(text).is_some() && text.len() <= iri::LONGEST,
            BLANK => true,
            LITERAL => term[3] < number && self.kind(term[3]) == Some(IRI),
            TAGGED => {
                let tag = self.text(term[3], term[4])?;
                lexer::tag(tag) == Some(tag.len()) && tag != b"base" && tag != b"prefix"
            }
            _ => false,
        };
        (good && utf8::first_bad(text).is_none()).then_some(())
    }

    /// What 18 asks of a row, graph 0 being the default graph.
    fn check_row(&self, row: &[u32]) -> Option<()> {
        let is_node = |number| matches!(self.kind(number), Some(IRI | BLANK));
        let good = (row[0] == 0 || is_node(row[0])) && is_node(row[1]) && self.kind(row[2]) == Some(IRI) && self.kind(row[3]).is_some();
        good.then_some(())
    }

    fn line(&self, row: &[u32], out: &mut Vec<u8>) {
        if row[0] != 0 {
            self.put_term(row[0], out);
            out.extend(b" { ");
        }
        for &number in &row[1..4] {
            self.put_term(number, out);
            out.push(b' ');
        }
        out.extend(if row[0] == 0 { &b".\n"[..] } else { b". }\n" });
    }

    fn put_term(&self, number: u32, out: &mut Vec<u8>) {
        let term = self.term(number).expect("checked");
        let text = self.text(term[1], term[2]).expect("checked");
        match term[0] {
            IRI => put_iri(text, out),
            BLANK => out.extend(format!("_:b{}", term[3]).bytes()),
            LITERAL => {
                put_string(text, out);
                let datatype = self.term(term[3]).expect("checked");
                if self.text(datatype[1], datatype[2]) != Some(XSD_STRING) {
                    out.extend(b"^^");
                    self.put_term(term[3], out);
                }
            }
            _ => {
                put_string(text, out);
                out.push(b'@');
                out.extend(self.text(term[3], term[4]).expect("checked"));
            }
        }
    }
}

/// "the characters IRIREF forbids as \u and four capital hex digits"
fn put_iri(text: &[u8], out: &mut Vec<u8>) {
    out.push(b'<');
    for &byte in text {
        if lexer::forbidden_in_iri(byte) {
            out.extend(format!("\\u{byte:04X}").bytes());
        } else {
            out.push(byte);
        }
    }
    out.push(b'>');
}

/// "only \" \\ LF CR escaped"
fn put_string(text: &[u8], out: &mut Vec<u8>) {
    out.push(b'"');
    for &byte in text {
        match byte {
            b'"' => out.extend(b"\\\""),
            b'\\' => out.extend(b"\\\\"),
            b'\n' => out.extend(b"\\n"),
            b'\r' => out.extend(b"\\r"),
            _ => out.push(byte),
        }
    }
    out.push(b'"');
}
