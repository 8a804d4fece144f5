//! "Rows and terms": the three tables, without any limit; the caller compares their sizes with the room lent.

use std::collections::HashMap;

/// A row or a term.
pub type Group = [u32; 5];

pub const IRI: u32 = 1;
pub const BLANK: u32 = 2;
pub const LITERAL: u32 = 3;
pub const TAGGED: u32 = 4;

/// What makes two terms equal. Brackets and list cells have none: each is new.
#[derive(PartialEq, Eq, Hash)]
enum Key {
    Iri(Vec<u8>),
    Label(Vec<u8>),
    Literal(Vec<u8>, u32),
    Tagged(Vec<u8>, Vec<u8>),
}

#[derive(Default)]
pub struct Tables {
    pub rows: Vec<Group>,
    pub terms: Vec<Group>,
    pub store: Vec<u8>,
    numbers: HashMap<Key, u32>,
    blanks: u32,
}

fn word(n: usize) -> u32 {
    u32::try_from(n).expect("a document of a mebibyte has no table over 32 bits")
}

impl Tables {
    /// The IRI's number; a new one if there is none yet.
    pub fn iri(&mut self, text: &[u8]) -> u32 {
        self.number(Key::Iri(text.to_vec()), |tables| {
            let [start, length] = tables.put(text);
            [IRI, start, length, 0, 0]
        })
    }

    pub fn labelled_blank(&mut self, label: &[u8]) -> u32 {
        self.number(Key::Label(label.to_vec()), |tables| tables.blank_term(label))
    }

    /// A bracket's or a cell's node.
    pub fn new_blank(&mut self) -> u32 {
        let term = self.blank_term(b"");
        self.add(term)
    }

    /// A literal; its datatype was numbered before.
    pub fn literal(&mut self, text: &[u8], datatype: u32) -> u32 {
        self.number(Key::Literal(text.to_vec(), datatype), |tables| {
            let [start, length] = tables.put(text);
            [LITERAL, start, length, datatype, 0]
        })
    }

    pub fn tagged_literal(&mut self, text: &[u8], tag: &[u8]) -> u32 {
        self.number(Key::Tagged(text.to_vec(), tag.to_vec()), |tables| {
            let [start, length] = tables.put(text);
            let [tag_start, tag_length] = tables.put(tag);
            [TAGGED, start, length, tag_start, tag_length]
        })
    }

    pub fn row(&mut self, graph: u32, subject: u32, predicate: u32, object: u32, position: usize) {
        self.rows.push([graph, subject, predicate, object, word(position)]);
    }

    fn number(&mut self, key: Key, make: impl FnOnce(&mut Self) -> Group) -> u32 {
        if let Some(&number) = self.numbers.get(&key) {
            return number;
        }
        let term = make(self);
        let number = self.add(term);
        self.numbers.insert(key, number);
        number
    }

    /// Terms are numbered from 1.
    fn add(&mut self, term: Group) -> u32 {
        self.terms.push(term);
        word(self.terms.len())
    }

    /// Writes a text into the unused end of the store.
    fn put(&mut self, text: &[u8]) -> [u32; 2] {
        let start = self.store.len();
        self.store.extend_from_slice(text);
        [word(start), word(text.len())]
    }

    fn blank_term(&mut self, label: &[u8]) -> Group {
        let [start, length] = self.put(label);
        let blank = self.blanks;
        self.blanks += 1;
        [BLANK, start, length, blank, 0]
    }
}
