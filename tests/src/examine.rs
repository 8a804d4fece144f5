//! Everything that is compared for one document: reads with several sizes of memory, the long form, and term texts.

use crate::call::{self, Difference, Guarded};
use crate::generate::Subject;
use crate::library::{self, Text, Written};
use crate::random::Random;
use crate::reader::long_form::{self, Given};
use crate::reader::read::{Answer, Request, LEAST_WORK, LONGEST_DOCUMENT};
use crate::statements::{self, Naming};

/// What was compared.
#[derive(Default)]
pub struct Tally {
    pub documents: u64,
    pub accepted: u64,
    /// Documents to which every smaller size of each table was lent.
    pub every_room: u64,
    /// Reads by the number answered, and writes and texts likewise.
    pub reads: [u64; 17],
    pub writes: [u64; 19],
    pub texts: [u64; 19],
}

/// Up to so many sizes, every size of the tables is lent.
const EVERY_ROOM_UP_TO: usize = 1500;
/// Tables lent to documents whose needs are not known are not larger.
const MOST_WORDS: usize = 400_000;

/// Examines a subject. `every_room` lends every smaller size of each table too.
pub fn examine(subject: &Subject, seed: u64, every_room: bool, tally: &mut Tally) -> Result<(), Difference> {
    let mut examiner = Examiner { subject, random: Random(seed), tally };
    examiner.tally.documents += 1;
    let answer = examiner.ample()?;
    examiner.short_work()?;
    if answer.number != 0 {
        return examiner.little_room();
    }
    examiner.tally.accepted += 1;
    examiner.exact_room(&answer)?;
    if every_room {
        examiner.every_room(&answer)?;
    }
    let given = given(&answer, &mut examiner.random);
    examiner.long_form(&answer, &given)?;
    examiner.texts(&given, answer.terms.len() as u32)?;
    for _ in 0..3 {
        examiner.damaged(&given)?;
    }
    Ok(())
}

struct Examiner<'a> {
    subject: &'a Subject,
    random: Random,
    tally: &'a mut Tally,
}

fn difference<T>(call: impl Into<String>, library: impl std::fmt::Debug, wanted: impl std::fmt::Debug) -> Result<T, Difference> {
    Err(Difference { call: call.into(), library: format!("{library:?}"), wanted: format!("{wanted:?}") })
}

impl Examiner<'_> {
    fn read(&mut self, row_words: usize, term_words: usize, store: usize) -> Result<Answer, Difference> {
        let work = self.work_length();
        self.read_with(work, row_words, term_words, store)
    }

    fn read_with(&mut self, work: usize, row_words: usize, term_words: usize, store: usize) -> Result<Answer, Difference> {
        let Subject { document, base, mode } = self.subject;
        let request = Request { document, base, mode: *mode, work, row_words, term_words, store };
        let answer = call::compare(&request, self.random.next())?;
        self.tally.reads[answer.number as usize] += 1;
        Ok(answer)
    }

    /// A read with room for all that the document can write.
    fn ample(&mut self) -> Result<Answer, Difference> {
        let length = self.subject.document.len();
        let words = (10 * length).min(MOST_WORDS) + self.random.below(12);
        let store = (50 * length).min(LONGEST_DOCUMENT + 500) + 500 + self.random.below(12);
        self.read(words, words, store)
    }

    /// Work slices of several lengths: a longer one changes nothing.
    fn work_length(&mut self) -> usize {
        LEAST_WORK
            + match self.random.below(8) {
                0..=3 => 0,
                4 | 5 => self.random.below(100),
                6 => self.random.below(10_000),
                _ => 4 * self.random.below(10_000),
            }
    }

    /// A shorter work slice is refused before the document is looked at.
    fn short_work(&mut self) -> Result<(), Difference> {
        if self.random.once_in(8) {
            self.read_with(LEAST_WORK - 1, 1000, 1000, 1000)?;
            let shorter = self.random.below(LEAST_WORK);
            self.read_with(shorter, 1000, 1000, 1000)?;
        }
        Ok(())
    }

    /// Refused documents, with tables that are short too.
    fn little_room(&mut self) -> Result<(), Difference> {
        for _ in 0..3 {
            let (rows, terms, store) = (self.random.below(40), self.random.below(60), self.random.below(200));
            match self.random.below(4) {
                0 => self.read(rows, 2000, 5000)?,
                1 => self.read(2000, terms, 5000)?,
                2 => self.read(2000, 2000, store)?,
                _ => self.read(rows, terms, store)?,
            };
        }
        Ok(())
    }

    /// Tables of exactly the room used are enough; one word or byte less of any is not.
    fn exact_room(&mut self, answer: &Answer) -> Result<(), Difference> {
        let (rows, terms, store) = sizes(answer);
        self.expect(0, rows, terms, store)?;
        let spare = self.random.below(5);
        self.expect(0, rows + spare, terms + spare, store + spare)?;
        if rows > 0 {
            self.expect(14, rows - 1, terms, store)?;
        }
        if terms > 0 {
            self.expect(15, rows, terms - 1, store)?;
        }
        if store > 0 {
            self.expect(16, rows, terms, store - 1)?;
        }
        Ok(())
    }

    fn expect(&mut self, number: u32, rows: usize, terms: usize, store: usize) -> Result<(), Difference> {
        let answer = self.read(rows, terms, store)?;
        if answer.number != number {
            return difference(format!("read with rows {rows}, terms {terms} words, store {store}"), answer.number, number);
        }
        Ok(())
    }

    /// Every smaller size of each table, words that make no group included, and of two tables together.
    fn every_room(&mut self, answer: &Answer) -> Result<(), Difference> {
        let (rows, terms, store) = sizes(answer);
        if rows + terms + store > EVERY_ROOM_UP_TO {
            return Ok(());
        }
        self.tally.every_room += 1;
        for words in 0..rows {
            self.expect(14, words, terms, store)?;
            let (other, bytes) = (self.random.below(terms + 1), self.random.below(store + 1));
            self.read(words, other, bytes)?;
        }
        for words in 0..terms {
            self.expect(15, rows, words, store)?;
            let bytes = self.random.below(store + 1);
            self.read(rows, words, bytes)?;
        }
        for bytes in 0..store {
            self.expect(16, rows, terms, bytes)?;
        }
        Ok(())
    }

    /// Writes by both into a buffer of some length; both answers and all bytes are equal.
    fn write(&mut self, given: &Given, length: usize) -> Result<(Written, Vec<u8>), Difference> {
        let mut theirs = Guarded::new(length, &self.random.next().to_le_bytes());
        let mut ours = theirs.clone();
        let wanted = Written::of(long_form::write(given, ours.lent()));
        let written = library::write(given, theirs.lent());
        if written != wanted {
            return difference(format!("write into {length} bytes"), written, wanted);
        }
        match theirs.difference(&ours) {
            Some(place) => difference(format!("write into {length} bytes"), format!("{written:?}, but bytes differ at {place}"), wanted),
            None => {
                self.tally.writes[written.number as usize] += 1;
                Ok((written, ours.lent()[..written.position as usize].to_vec()))
            }
        }
    }

    /// The long form in buffers of several lengths, and read again.
    fn long_form(&mut self, answer: &Answer, given: &Given) -> Result<(), Difference> {
        let most = longest_long_form(answer);
        let (written, text) = self.write(given, most)?;
        if written.number != 0 {
            return difference("write what was read", written, "0");
        }
        for (length, number) in [(Some(text.len()), 0), (text.len().checked_sub(1), 17), (Some(0), if text.is_empty() { 0 } else { 17 })] {
            let Some(length) = length else { continue };
            let (written, _) = self.write(given, length)?;
            if written.number != number {
                return difference(format!("write into {length} bytes"), written, number);
            }
        }
        if text.len() <= LONGEST_DOCUMENT {
            self.read_back(answer, text)?;
        }
        Ok(())
    }

    /// Read in mode 0, the long form has the same statements: a blank node's label is `b` and its first blank number.
    fn read_back(&mut self, answer: &Answer, text: Vec<u8>) -> Result<(), Difference> {
        let subject = Subject { document: text, base: Vec::new(), mode: 0 };
        let again = Examiner { subject: &subject, random: Random(self.random.next()), tally: self.tally }.ample()?;
        let (before, after) = (statements::quads(answer, Naming::Number), statements::quads(&again, Naming::Label));
        if again.number != 0 || before != after {
            return difference(format!("read again: {}", subject.document.escape_ascii()), again, before);
        }
        Ok(())
    }

    fn text(&mut self, given: &Given, number: u32) -> Result<(), Difference> {
        let (text, wanted) = (library::term_text(given, number), Text::of(long_form::term_text(given, number)));
        if text != wanted {
            return difference(format!("text of term {number}"), text, wanted);
        }
        self.tally.texts[text.number as usize] += 1;
        Ok(())
    }

    fn texts(&mut self, given: &Given, count: u32) -> Result<(), Difference> {
        for number in [0, 1, count, count.saturating_add(1), u32::MAX, self.random.below(count as usize + 2) as u32] {
            self.text(given, number)?;
        }
        Ok(())
    }

    /// Tables with something changed: written and asked for texts by both.
    fn damaged(&mut self, given: &Given) -> Result<(), Difference> {
        let mut damaged = given.clone();
        for _ in 0..=self.random.below(2) {
            damage(&mut self.random, &mut damaged);
        }
        let length = 2 * (long_form_bound(&damaged) + 16);
        let told = |difference: Difference| Difference { call: format!("{} of damaged tables {:?}", difference.call, Shown(&damaged)), ..difference };
        let length = self.random.below(length);
        self.write(&damaged, length).map_err(told)?;
        self.texts(&damaged, damaged.term_count).map_err(told)?;
        let number = self.random.below(given.term_count as usize + 2) as u32;
        self.text(&damaged, number).map_err(told)
    }
}

/// The tables as a caller would give them, in slices that may be longer.
pub fn given(answer: &Answer, random: &mut Random) -> Given {
    let more = |length: usize, random: &mut Random| length + random.below(8);
    let mut rows = answer.rows.concat();
    let mut terms = answer.terms.concat();
    let mut store = answer.store.clone();
    rows.resize(more(rows.len(), random), 7);
    terms.resize(more(terms.len(), random), 7);
    store.resize(more(store.len(), random), b'x');
    Given { rows, row_count: answer.rows.len() as u32, terms, term_count: answer.terms.len() as u32, store, store_count: answer.store.len() as u32 }
}

/// Changes a count, a word, a byte of the store, or a term.
pub fn damage(random: &mut Random, given: &mut Given) {
    let near = |random: &mut Random, value: u32| match random.below(8) {
        0 => random.next() as u32,
        1 => u32::MAX - random.below(6) as u32,
        2 => 0,
        3 => value.wrapping_add(1),
        4 => value.wrapping_sub(1),
        _ => random.below(12) as u32,
    };
    match random.below(10) {
        8 => damage_term(random, given),
        0 => given.row_count = near(random, given.row_count),
        1 => given.term_count = near(random, given.term_count),
        2 => given.store_count = near(random, given.store_count),
        3 | 4 if !given.terms.is_empty() => {
            let place = random.below(given.terms.len());
            given.terms[place] = near(random, given.terms[place]);
        }
        5 | 6 if !given.rows.is_empty() => {
            let place = random.below(given.rows.len());
            given.rows[place] = near(random, given.rows[place]);
        }
        _ if !given.store.is_empty() => {
            let place = random.below(given.store.len());
            given.store[place] = *random.pick(b"\xff\x80:@a- 1<\"\\\n\0\xc3\xed");
        }
        _ => {}
    }
}

/// Changes a term's kind, datatype or tag to something that might be another's.
fn damage_term(random: &mut Random, given: &mut Given) {
    let count = given.terms.len() / 5;
    if count == 0 {
        return;
    }
    let number = 1 + random.below(count);
    let term = 5 * (number - 1);
    match random.below(4) {
        0 => given.terms[term] = 1 + random.below(4) as u32,
        1 => given.terms[term + 3] = (number + random.below(3)) as u32 - 1,
        2 => given.terms[term + 3] = 1 + random.below(number) as u32,
        _ => {
            let tag = *random.pick(&["base", "prefix", "Base", "base-x", "a-", "a-1"]);
            given.terms[term] = 4;
            given.terms[term + 3] = given.store.len() as u32;
            given.terms[term + 4] = tag.len() as u32;
            given.store.extend(tag.bytes());
            given.store_count = given.store.len() as u32;
        }
    }
}

/// Tables, as they are printed.
pub struct Shown<'a>(pub &'a Given);

impl std::fmt::Debug for Shown<'_> {
    fn fmt(&self, f: &mut std::fmt::Formatter) -> std::fmt::Result {
        let Given { rows, row_count, terms, term_count, store, store_count } = self.0;
        write!(f, "rows {row_count} of {rows:?}, terms {term_count} of {terms:?}, store {store_count} of \"{}\"", store.escape_ascii())
    }
}

/// The sizes of the tables used: words, words, bytes.
fn sizes(answer: &Answer) -> (usize, usize, usize) {
    (5 * answer.rows.len(), 5 * answer.terms.len(), answer.store.len())
}

/// A length that every answer's long form fits: each byte of a text may become six.
fn longest_long_form(answer: &Answer) -> usize {
    let term =
        |number: u32| if number == 0 { 0 } else { answer.terms[number as usize - 1][2] as usize + answer.terms[number as usize - 1][4] as usize };
    let datatype = |number: u32| match answer.terms[number as usize - 1] {
        [3, _, _, datatype, _] => term(datatype),
        _ => 0,
    };
    answer.rows.iter().map(|row| 80 + 6 * (row[..4].iter().map(|&number| term(number)).sum::<usize>() + datatype(row[3]))).sum()
}

/// About how long the long form of damaged tables is.
fn long_form_bound(given: &Given) -> usize {
    (given.row_count.min(given.rows.len() as u32 / 5) as usize * 200).min(100_000)
}
