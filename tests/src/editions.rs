//! Two editions of one file, made at random: documents whose lines were edited, and tables that no reader left, put in other words.

use crate::examine;
use crate::generate::Subject;
use crate::made::{made_at_random, put, read_at_random, tables_of, LABELS, TAGS};
use crate::random::Random;
use crate::reader::lexer::{self, Kind};
use crate::reader::long_form::{self, Given};
use crate::reader::read::Answer;
use crate::reader::tables::{Group, BLANK, IRI, LITERAL, TAGGED};
use std::collections::{BTreeMap, BTreeSet};

pub struct Editions {
    pub left: Given,
    pub right: Given,
    /// The left and the right number of each blank node that both have.
    pub pairs: Vec<[u32; 2]>,
    /// Statements are repeated and in another order, and that is all.
    pub unchanged: bool,
}

/// Once in three times without a change to any statement; either side may be the one that was made of the other.
pub fn at_random(random: &mut Random) -> Editions {
    let unchanged = random.once_in(3);
    let (left, right, mut pairs) = match random.below(3) {
        0 => {
            let left = made_at_random(random);
            let (right, pairs) = remade(&left, unchanged, random);
            (left, right, pairs)
        }
        _ => documents(unchanged, random),
    };
    if random.once_in(2) {
        return Editions { left, right, pairs, unchanged };
    }
    for pair in &mut pairs {
        pair.reverse();
    }
    Editions { left: right, right: left, pairs, unchanged }
}

pub fn shuffle<T>(items: &mut [T], random: &mut Random) {
    for place in (1..items.len()).rev() {
        items.swap(place, random.below(place + 1));
    }
}

/// The terms in use of usable tables, from number 1 on.
fn terms(given: &Given) -> impl Iterator<Item = Group> + '_ {
    given.terms.chunks_exact(5).take(given.term_count as usize).map(|term| term.try_into().expect("five words"))
}

fn text(given: &Given, start: u32, length: u32) -> &[u8] {
    &given.store[start as usize..][..length as usize]
}

/// The numbers of its blank nodes, each once.
pub fn blank_numbers(given: &Given) -> BTreeSet<u32> {
    terms(given).filter(|term| term[0] == BLANK).map(|term| term[3]).collect()
}

/// The tables of a random document, and of its long form edited.
fn documents(unchanged: bool, random: &mut Random) -> (Given, Given, Vec<[u32; 2]>) {
    let left = read_at_random(random);
    let mut lines = lines(&left);
    if !unchanged {
        for _ in 0..=random.below(6) {
            edit(&mut lines, random);
        }
    }
    repeat_some(&mut lines, random);
    let (letter, factor, more) = *random.pick(&[('b', 1, 0), ('b', 1, 1), ('c', 1, 0), ('d', 3, 7)]);
    let label = |number: u32| format!("{letter}{}", factor * number + more);
    let document = lines.iter().flat_map(|line| with_labels(line, label)).collect();
    let right = tables_of(&Subject { document, base: Vec::new(), mode: 0 }, random).expect("every line is a document");
    let left_numbers: BTreeMap<String, u32> = blank_numbers(&left).into_iter().map(|number| (label(number), number)).collect();
    let of_label = |label: &[u8]| left_numbers.get(std::str::from_utf8(label).expect("a label is UTF-8"));
    let blanks = terms(&right).filter(|term| term[0] == BLANK);
    let pairs = blanks.filter_map(|[_, start, length, number, _]| Some([*of_label(text(&right, start, length))?, number])).collect();
    (left, right, pairs)
}

/// The lines of the long form. A blank node's label in them is `b` and its number.
fn lines(given: &Given) -> Vec<Vec<u8>> {
    let long_form = long_form::long_form(given).expect("tables that were read are usable");
    long_form.split_inclusive(|&byte| byte == b'\n').map(<[u8]>::to_vec).collect()
}

/// Some lines once more, and all of them in another order, each once in two times.
fn repeat_some<T: Clone>(lines: &mut Vec<T>, random: &mut Random) {
    if random.once_in(2) && !lines.is_empty() {
        for _ in 0..=random.below(4) {
            lines.insert(random.below(lines.len() + 1), random.pick(lines).clone());
        }
    }
    if random.once_in(2) {
        shuffle(lines, random);
    }
}

/// A line added, taken away, or changed in one of its terms or in its graph.
fn edit(lines: &mut Vec<Vec<u8>>, random: &mut Random) {
    let change = random.below(5);
    if lines.is_empty() || change == 0 {
        lines.extend(lines_of_another(random));
        return;
    }
    let place = random.below(lines.len());
    let changed = match change {
        1 => {
            lines.remove(place);
            return;
        }
        2 => with_other_graph(&lines[place]),
        _ => with_other_token(&lines[place], lines, random),
    };
    let reads = |line: &Vec<u8>| tables_of(&Subject { document: line.clone(), base: Vec::new(), mode: 0 }, &mut Random(0)).is_some();
    if let Some(line) = Some(changed).filter(reads) {
        lines[place] = line;
    }
}

/// One or two lines of another document.
fn lines_of_another(random: &mut Random) -> Vec<Vec<u8>> {
    let mut lines = lines(&read_at_random(random));
    shuffle(&mut lines, random);
    lines.truncate(1 + random.below(2));
    lines
}

/// In the default graph, if it was in another; else in one.
fn with_other_graph(line: &[u8]) -> Vec<u8> {
    match lexer::tokens(line)[..] {
        [_, open, .., close] if open.kind == Kind::OpenBrace => [&line[open.end..close.start], b"\n"].concat(),
        _ => [b"<x:g> { ", line.strip_suffix(b"\n").expect("a line"), b" }\n"].concat(),
    }
}

const TOKENS: &[&str] = &["<x:s>", "<x:o>", "_:b0", "_:b1", "\"a\"", "\"\"", "@en", "@EN", "<http://www.w3.org/2001/XMLSchema#string>"];

/// With one token that stands in another line, or is one of a few, in the place of one of its own; that may be no statement.
fn with_other_token(line: &[u8], lines: &[Vec<u8>], random: &mut Random) -> Vec<u8> {
    let token = *random.pick(&lexer::tokens(line));
    let other_line = random.pick(lines);
    let other = *random.pick(&lexer::tokens(other_line));
    let text = if random.once_in(2) { &other_line[other.start..other.end] } else { random.pick(TOKENS).as_bytes() };
    [&line[..token.start], text, &line[token.end..]].concat()
}

/// The line with other labels, by the numbers in the old ones.
fn with_labels(line: &[u8], label: impl Fn(u32) -> String) -> Vec<u8> {
    let (mut out, mut place) = (Vec::new(), 0);
    for token in lexer::tokens(line).into_iter().filter(|token| token.kind == Kind::BlankNodeLabel) {
        let number = std::str::from_utf8(&line[token.start + 3..token.end]).expect("digits");
        out.extend(&line[place..token.start]);
        out.extend(format!("_:{}", label(number.parse().expect("a blank number"))).bytes());
        place = token.end;
    }
    out.extend(&line[place..]);
    out
}

/// Terms put anew, in another order and some of them more than once.
struct Remade<'a> {
    old: &'a Given,
    terms: Vec<Group>,
    store: Vec<u8>,
    /// The new numbers of each old term.
    copies: Vec<Vec<u32>>,
    /// Blank numbers are multiplied by an odd number, and moved: no two become one.
    factor: u32,
    more: u32,
}

impl Remade<'_> {
    fn blank(&self, number: u32) -> u32 {
        number.wrapping_mul(self.factor).wrapping_add(self.more)
    }

    fn push(&mut self, term: Group) -> u32 {
        self.terms.push(term);
        self.terms.len() as u32
    }

    /// A copy of an old term, behind one of its datatype. The words that say nothing are any.
    fn copy(&mut self, number: u32, random: &mut Random) {
        let old = self.old;
        let [kind, start, length, fourth, fifth] = terms(old).nth(number as usize - 1).expect("a term");
        if kind == LITERAL && self.copies[fourth as usize].is_empty() {
            self.copy(fourth, random);
        }
        let text_now = if kind == BLANK { random.pick(LABELS).as_bytes() } else { text(old, start, length) };
        let [start, length] = put(text_now, random, &mut self.store);
        let any = random.next() as u32;
        let [fourth, fifth] = match kind {
            IRI => [any, any],
            BLANK => [self.blank(fourth), any],
            LITERAL => [*random.pick(&self.copies[fourth as usize]), any],
            _ => put(text(old, fourth, fifth), random, &mut self.store),
        };
        let copy = self.push([kind, start, length, fourth, fifth]);
        self.copies[number as usize].push(copy);
    }

    /// A literal with the text of an old term, that may be another term's or none's.
    fn add_literal(&mut self, random: &mut Random) {
        let old = self.old;
        let [_, start, length, ..] = *random.pick(&terms(old).collect::<Vec<_>>());
        let [start, length] = put(text(old, start, length), random, &mut self.store);
        let datatypes = self.numbers(&[IRI]);
        let term = if random.once_in(2) {
            [LITERAL, start, length, *random.pick(&datatypes), 0]
        } else {
            let [tag_start, tag_length] = put(random.pick(TAGS).as_bytes(), random, &mut self.store);
            [TAGGED, start, length, tag_start, tag_length]
        };
        self.push(term);
    }

    /// The numbers of the terms of some kinds.
    fn numbers(&self, kinds: &[u32]) -> Vec<u32> {
        (1..).zip(&self.terms).filter(|(_, term)| kinds.contains(&term[0])).map(|(number, _)| number).collect()
    }

    /// An old row by one of the new numbers of each of its terms.
    fn row(&self, old: &[u32], random: &mut Random) -> Group {
        let mut part = |place: usize| if old[place] == 0 { 0 } else { *random.pick(&self.copies[old[place] as usize]) };
        [part(0), part(1), part(2), part(3), random.next() as u32]
    }

    /// A row taken away, added, or changed in one of its terms.
    fn edit(&self, rows: &mut Vec<Group>, random: &mut Random) {
        let (nodes, iris, all) = (self.numbers(&[IRI, BLANK]), self.numbers(&[IRI]), self.numbers(&[IRI, BLANK, LITERAL, TAGGED]));
        let graph = if random.once_in(2) { 0 } else { *random.pick(&nodes) };
        let row = [graph, *random.pick(&nodes), *random.pick(&iris), *random.pick(&all), 0];
        let place = random.below(rows.len() + 1);
        match random.below(6) {
            5 => rows.insert(place, row),
            _ if place == rows.len() => {}
            4 => drop(rows.remove(place)),
            part => rows[place][part] = row[part],
        }
    }
}

/// Tables made of others: their statements, edited or not, in other words.
fn remade(old: &Given, unchanged: bool, random: &mut Random) -> (Given, Vec<[u32; 2]>) {
    let count = old.term_count;
    let (factor, more) = if random.once_in(2) { (1, 0) } else { (random.next() as u32 | 1, random.next() as u32) };
    let mut new = Remade { old, terms: Vec::new(), store: Vec::new(), copies: vec![Vec::new(); count as usize + 1], factor, more };
    let mut order: Vec<u32> = (1..=count).collect();
    repeat_some(&mut order, random);
    for number in order {
        new.copy(number, random);
    }
    for _ in 0..random.below(3) {
        new.add_literal(random);
    }
    let mut rows: Vec<Group> = old.rows.chunks_exact(5).take(old.row_count as usize).map(|row| new.row(row, random)).collect();
    if !unchanged {
        for _ in 0..=random.below(6) {
            new.edit(&mut rows, random);
        }
    }
    repeat_some(&mut rows, random);
    let pairs = blank_numbers(old).into_iter().map(|number| [number, new.blank(number)]).collect();
    (examine::given(&Answer { rows, terms: new.terms, store: new.store, ..Answer::default() }, random), pairs)
}
