//! Tables to try a call on: those of random documents, and others that no reader left.

use crate::examine;
use crate::generate::{self, Subject};
use crate::random::Random;
use crate::reader::long_form::Given;
use crate::reader::read::{self, Answer, Request, LEAST_WORK};
use crate::reader::tables::{Group, BLANK, IRI, LITERAL, TAGGED};

/// The tables of a document, or none where it is refused.
pub fn tables_of(subject: &Subject, random: &mut Random) -> Option<Given> {
    let Subject { document, base, mode } = subject;
    let room = usize::MAX;
    let answer = read::read(&Request { document, base, mode: *mode, work: LEAST_WORK, row_words: room, term_words: room, store: room });
    (answer.number == 0).then(|| examine::given(&answer, random))
}

/// The tables of a TriG document that is accepted.
pub fn tables_of_trig(document: &[u8]) -> Given {
    let subject = Subject { document: document.to_vec(), base: Vec::new(), mode: 0 };
    tables_of(&subject, &mut Random(1)).expect("accepted")
}

/// The tables of a random document.
pub fn read_at_random(random: &mut Random) -> Given {
    loop {
        let subject = generate::subject(random);
        if let Some(given) = tables_of(&subject, random) {
            return given;
        }
    }
}

const SCHEMES: &[&str] = &["x:", "x:", "X:", "a+1:"];
/// Characters of one to four bytes: a byte over 7F is greater than one under it.
const CHARACTERS: &[&str] = &["a", "b", "-", "\u{7f}", "é", "\u{ff5e}", "\u{10ffff}"];
pub const LABELS: &[&str] = &["", "", "a", "b"];
pub const TAGS: &[&str] = &["en", "a-1", "base-x"];

/// So short that many texts are equal, or the beginning of another.
fn short_text(random: &mut Random) -> String {
    (0..random.below(4)).map(|_| *random.pick(CHARACTERS)).collect()
}

/// Now and then one whose length takes both bytes.
pub fn iri_text(random: &mut Random) -> String {
    let text = format!("{}{}", random.pick(SCHEMES), short_text(random));
    let more = if random.once_in(30) { random.below(1000) } else { 0 };
    text + &"a".repeat(more)
}

/// A text's start and length in the store: where it stands already, once in two times, or else behind the rest.
pub fn put(text: &[u8], random: &mut Random, store: &mut Vec<u8>) -> [u32; 2] {
    let found = store.windows(text.len().max(1)).position(|part| part == text);
    let start = found.filter(|_| random.once_in(2)).unwrap_or(store.len());
    if start == store.len() {
        store.extend(text);
    }
    [start as u32, text.len() as u32]
}

/// Usable tables that no document need have: equal texts under several numbers, labels and blank numbers of any kind.
pub fn made_at_random(random: &mut Random) -> Given {
    let (mut terms, mut store) = (Vec::new(), Vec::new());
    let (mut iris, mut nodes) = (Vec::new(), Vec::new());
    for number in 1..=1 + random.below(9) as u32 {
        // the first is an IRI: rows need a predicate, and literals a datatype
        let kind = if iris.is_empty() { IRI } else { *random.pick(&[IRI, IRI, IRI, IRI, BLANK, BLANK, LITERAL, TAGGED]) };
        let text = match kind {
            IRI => iri_text(random),
            BLANK => random.pick(LABELS).to_string(),
            _ => short_text(random),
        };
        let [start, length] = put(text.as_bytes(), random, &mut store);
        let [fourth, fifth] = match kind {
            IRI => [0, 0],
            BLANK => [random.below(3) as u32, 0],
            LITERAL => [*random.pick(&iris), 0],
            _ => {
                let tag = *random.pick(TAGS);
                put(tag.as_bytes(), random, &mut store)
            }
        };
        terms.push([kind, start, length, fourth, fifth]);
        iris.extend((kind == IRI).then_some(number));
        nodes.extend((kind == IRI || kind == BLANK).then_some(number));
    }
    let mut rows: Vec<Group> = Vec::new();
    // now and then so many that a number takes two bytes
    let most = if random.once_in(50) { 700 } else { 41 };
    for _ in 0..random.below(most) {
        let row = if !rows.is_empty() && random.once_in(5) {
            *random.pick(&rows)
        } else {
            let graph = if random.once_in(2) { 0 } else { *random.pick(&nodes) };
            [graph, *random.pick(&nodes), *random.pick(&iris), 1 + random.below(terms.len()) as u32, random.next() as u32]
        };
        rows.push(row);
    }
    examine::given(&Answer { rows, terms, store, ..Answer::default() }, random)
}

/// The tables of a document, or others.
pub fn usable_at_random(random: &mut Random) -> Given {
    if random.once_in(4) {
        read_at_random(random)
    } else {
        made_at_random(random)
    }
}
