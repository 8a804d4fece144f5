//! A reader for TriG and Turtle (RDF 1.1) that is proved to give the answers of its papers. Here are safe types over the calls
//! of the static library; all that is decided is decided there.
use std::collections::HashMap;
use std::fmt;

mod library;

pub use library::{Answer, Checked, Compared, Found, Text, Written};

/// The longest document, in bytes.
pub const DOCUMENT_BYTES: usize = 1_048_576;
/// The shortest work slice, in bytes. More is used as an index of the terms.
pub const WORK_BYTES: usize = 35_840;

/// How many bytes of the index a term takes.
pub const INDEX_BYTES: usize = 12;
/// The words of a row: graph, subject, predicate, object, position of the object's first byte.
pub const ROW_WORDS: usize = 5;
/// The words of a term.
pub const TERM_WORDS: usize = 5;
/// How many words of a comparison's index a row or a pair takes: two, and as many for its buckets.
pub const COMPARE_WORDS: usize = 4;

#[derive(Clone, Copy, Debug, PartialEq, Eq)]
pub enum Mode {
    TriG = 0,
    Turtle = 1,
}

/// Reads a document into lent slices, as the C interface does.
pub fn read_into(document: &[u8], base: &[u8], mode: Mode, work: &mut [u8], rows: &mut [u32], terms: &mut [u32], store: &mut [u8]) -> Answer {
    // SAFETY: every pointer comes from a slice of that length, and the slices that are written do not overlap.
    unsafe {
        library::sycamoot_read(
            document.as_ptr(),
            document.len(),
            base.as_ptr(),
            base.len(),
            mode as u32,
            work.as_mut_ptr(),
            work.len(),
            rows.as_mut_ptr(),
            rows.len(),
            terms.as_mut_ptr(),
            terms.len(),
            store.as_mut_ptr(),
            store.len(),
        )
    }
}

/// A refusal: its number (1 to 18, 22, 23, 25 or 26) and the byte position that it speaks of, 0 where it speaks of none.
#[derive(Clone, Copy, Debug, PartialEq, Eq)]
pub struct Refusal {
    pub number: u32,
    pub position: u64,
}

impl Refusal {
    pub fn meaning(&self) -> &'static str {
        match self.number {
            1 => "the document has over 1,048,576 bytes",
            2 => "the mode is neither 0 nor 1",
            3 => "the base is no IRI of at most 1,024 bytes with a scheme",
            4 => "the work slice has under 35,840 bytes",
            5 => "bad UTF-8",
            6 => "no token can be read",
            7 => "a numeric escape names no character",
            8 => "the grammar allows no such token here",
            9 => "the prefix is not declared before",
            10 => "a relative reference, and no base is in force",
            11 => "an IRI over 1,024 bytes, or a prefix over 64",
            12 => "a 33rd distinct prefix",
            13 => "a 65th [ or ( open at once",
            14 => "too few rows",
            15 => "too few terms",
            16 => "too small a store",
            17 => "the long form does not fit its buffer",
            22 => "the index does not fit its buffer",
            23 => "a record of the index lacks its mark, is cut short, has a length over 1,024 or does not rise",
            25 => "the pairing has an odd word, or a blank number that is missing or paired twice",
            26 => "a list is too small",
            _ => "the tables are not usable",
        }
    }
}

impl fmt::Display for Refusal {
    fn fmt(&self, f: &mut fmt::Formatter) -> fmt::Result {
        write!(f, "refused {} at {}: {}", self.number, self.position, self.meaning())
    }
}

impl std::error::Error for Refusal {}

/// How many rows, terms and bytes of text there is room for.
#[derive(Clone, Copy, Debug)]
pub struct Room {
    pub rows: usize,
    pub terms: usize,
    pub store: usize,
}

impl Room {
    /// What a document of so many bytes can fill at the most.
    pub fn at_most(bytes: usize) -> Room {
        Room { rows: 2 * bytes, terms: 2 * bytes + 9, store: 1025 * bytes + 386 }
    }
}

/// A term, by its kind. A blank node is known by its number; its label is what the document called it.
#[derive(Clone, Copy, Debug, PartialEq, Eq)]
pub enum Term<'a> {
    Iri(&'a str),
    Blank { number: u32, label: &'a str },
    Literal { text: &'a str, datatype: &'a str },
    Tagged { text: &'a str, tag: &'a str },
}

/// A statement: its terms, no graph being the default graph, and where its object stands in the document.
#[derive(Clone, Copy, Debug, PartialEq, Eq)]
pub struct Quad<'a> {
    pub graph: Option<Term<'a>>,
    pub subject: Term<'a>,
    pub predicate: Term<'a>,
    pub object: Term<'a>,
    pub position: u32,
}

/// The statements of a document that was accepted.
pub struct Dataset {
    rows: Vec<u32>,
    terms: Vec<u32>,
    store: Vec<u8>,
}

impl Dataset {
    /// Reads a document. The work slice is long enough for an index of all terms that there is room for.
    pub fn read(document: &[u8], base: &[u8], mode: Mode, room: Room) -> Result<Dataset, Refusal> {
        let mut work = vec![0; WORK_BYTES + INDEX_BYTES * room.terms];
        let mut rows = vec![0; ROW_WORDS * room.rows];
        let mut terms = vec![0; TERM_WORDS * room.terms];
        let mut store = vec![0; room.store];
        let a = read_into(document, base, mode, &mut work, &mut rows, &mut terms, &mut store);
        if a.number != 0 {
            return Err(Refusal { number: a.number, position: a.position });
        }
        rows.truncate(ROW_WORDS * a.rows as usize);
        terms.truncate(TERM_WORDS * a.terms as usize);
        store.truncate(a.store as usize);
        Ok(Dataset { rows, terms, store })
    }

    /// Reads a document with as much room as it needs: a table that is too small is doubled, up to what a document of this length can fill.
    pub fn read_growing(document: &[u8], base: &[u8], mode: Mode) -> Result<Dataset, Refusal> {
        let bytes = document.len().min(DOCUMENT_BYTES);
        let most = Room::at_most(bytes);
        let mut room = Room { rows: (bytes / 32 + 16).min(most.rows), terms: bytes / 32 + 9, store: 2 * bytes + 386 };
        loop {
            match Dataset::read(document, base, mode, room) {
                Err(Refusal { number: 14, .. }) if room.rows < most.rows => room.rows = most.rows.min(2 * room.rows),
                Err(Refusal { number: 15, .. }) if room.terms < most.terms => room.terms = most.terms.min(2 * room.terms),
                Err(Refusal { number: 16, .. }) if room.store < most.store => room.store = most.store.min(2 * room.store),
                answer => return answer,
            }
        }
    }

    pub fn len(&self) -> usize {
        self.rows.len() / ROW_WORDS
    }

    pub fn is_empty(&self) -> bool {
        self.rows.is_empty()
    }

    fn row_count(&self) -> u32 {
        self.len() as u32
    }

    fn term_count(&self) -> u32 {
        (self.terms.len() / TERM_WORDS) as u32
    }

    pub fn quads(&self) -> impl Iterator<Item = Quad<'_>> {
        self.rows.chunks_exact(ROW_WORDS).map(|r| Quad {
            graph: (r[0] != 0).then(|| self.term(r[0])),
            subject: self.term(r[1]),
            predicate: self.term(r[2]),
            object: self.term(r[3]),
            position: r[4],
        })
    }

    fn term(&self, number: u32) -> Term<'_> {
        let at = TERM_WORDS * (number as usize - 1);
        let (kind, fourth, fifth) = (self.terms[at], self.terms[at + 3], self.terms[at + 4]);
        let text = self.text(number);
        match kind {
            1 => Term::Iri(text),
            2 => Term::Blank { number: fourth, label: text },
            3 => Term::Literal { text, datatype: self.text(fourth) },
            _ => Term::Tagged { text, tag: self.part(fourth as usize, fifth as usize) },
        }
    }

    fn text(&self, number: u32) -> &str {
        // SAFETY: both pointers come from slices of those lengths.
        let t = unsafe {
            library::sycamoot_term_text(
                self.terms.as_ptr(),
                self.terms.len(),
                self.term_count(),
                self.store.as_ptr(),
                self.store.len(),
                self.store.len() as u32,
                number,
            )
        };
        self.part(t.start as usize, t.length as usize)
    }

    fn part(&self, start: usize, length: usize) -> &str {
        std::str::from_utf8(&self.store[start..start + length]).expect("the texts of accepted documents are UTF-8")
    }

    /// The long form: one statement a line. The buffer has so many bytes.
    pub fn long_form(&self, bytes: usize) -> Result<String, Refusal> {
        self.long_form_by(&self.rows, bytes)
    }

    /// The long form of some of the rows, by their numbers.
    pub fn long_form_of(&self, rows: &[u32], bytes: usize) -> Result<String, Refusal> {
        let words = |&row: &u32| &self.rows[ROW_WORDS * row as usize..][..ROW_WORDS];
        self.long_form_by(&rows.iter().flat_map(words).copied().collect::<Vec<_>>(), bytes)
    }

    fn long_form_by(&self, rows: &[u32], bytes: usize) -> Result<String, Refusal> {
        let form = self.write(library::sycamoot_write, rows, bytes)?;
        Ok(String::from_utf8(form).expect("the long form is UTF-8"))
    }

    /// The index of subjects: a record for each IRI that is one, in byte order. The buffer has so many bytes.
    pub fn index(&self, bytes: usize) -> Result<Vec<u8>, Refusal> {
        self.write(library::sycamoot_write_index, &self.rows, bytes)
    }

    /// Whether these bytes are the index of subjects.
    pub fn is_index(&self, index: &[u8]) -> bool {
        // SAFETY: every pointer comes from a slice of that length.
        let c = unsafe {
            library::sycamoot_check_index(
                self.rows.as_ptr(),
                self.rows.len(),
                self.row_count(),
                self.terms.as_ptr(),
                self.terms.len(),
                self.term_count(),
                self.store.as_ptr(),
                self.store.len(),
                self.store.len() as u32,
                index.as_ptr(),
                index.len(),
            )
        };
        c.yes == 1
    }

    /// What a writer makes of these rows.
    fn write(&self, writer: library::Writer, rows: &[u32], bytes: usize) -> Result<Vec<u8>, Refusal> {
        let mut out = vec![0; bytes];
        // SAFETY: every pointer comes from a slice of that length, and out overlaps none.
        let w = unsafe {
            writer(
                rows.as_ptr(),
                rows.len(),
                (rows.len() / ROW_WORDS) as u32,
                self.terms.as_ptr(),
                self.terms.len(),
                self.term_count(),
                self.store.as_ptr(),
                self.store.len(),
                self.store.len() as u32,
                out.as_mut_ptr(),
                out.len(),
            )
        };
        if w.number != 0 {
            return Err(Refusal { number: w.number, position: w.position });
        }
        out.truncate(w.position as usize);
        Ok(out)
    }

    /// The numbers of the blank nodes that have the same label in both, as the pairs of a comparison. Brackets and lists have no label, and
    /// are in no pair.
    pub fn pair_labels(&self, right: &Dataset) -> Vec<[u32; 2]> {
        let numbers: HashMap<&str, u32> = right.labels().collect();
        self.labels().filter_map(|(label, number)| Some([number, *numbers.get(label)?])).collect()
    }

    fn labels(&self) -> impl Iterator<Item = (&str, u32)> {
        let blanks = self.terms.chunks_exact(TERM_WORDS).filter(|t| t[0] == 2 && t[2] > 0);
        blanks.map(|t| (self.part(t[1] as usize, t[2] as usize), t[3]))
    }

    /// What this edition, the left one, and another do not have in common. A pair has the left and the right number of what is one blank node;
    /// a node in no pair is in one edition alone. The time grows with the square of the number of rows.
    pub fn compare(&self, right: &Dataset, pairing: &[[u32; 2]]) -> Result<Changes, Refusal> {
        let words = pairing.as_flattened();
        self.changes(right, |left_list, right_list| {
            // SAFETY: every pointer comes from a slice of that length, and the lists overlap nothing.
            unsafe {
                library::sycamoot_compare(
                    self.rows.as_ptr(),
                    self.rows.len(),
                    self.row_count(),
                    self.terms.as_ptr(),
                    self.terms.len(),
                    self.term_count(),
                    self.store.as_ptr(),
                    self.store.len(),
                    self.store.len() as u32,
                    right.rows.as_ptr(),
                    right.rows.len(),
                    right.row_count(),
                    right.terms.as_ptr(),
                    right.terms.len(),
                    right.term_count(),
                    right.store.as_ptr(),
                    right.store.len(),
                    right.store.len() as u32,
                    words.as_ptr(),
                    words.len(),
                    left_list.as_mut_ptr(),
                    left_list.len(),
                    right_list.as_mut_ptr(),
                    right_list.len(),
                )
            }
        })
    }

    /// The same with an index of the rows and the pairs, so that the time grows with the size of both editions.
    pub fn compare_indexed(&self, right: &Dataset, pairing: &[[u32; 2]]) -> Result<Changes, Refusal> {
        let words = pairing.as_flattened();
        let mut index = vec![0; COMPARE_WORDS * (self.len() + right.len() + pairing.len())];
        self.changes(right, |left_list, right_list| {
            // SAFETY: every pointer comes from a slice of that length, and the lists and the index overlap nothing.
            unsafe {
                library::sycamoot_compare_indexed(
                    self.rows.as_ptr(),
                    self.rows.len(),
                    self.row_count(),
                    self.terms.as_ptr(),
                    self.terms.len(),
                    self.term_count(),
                    self.store.as_ptr(),
                    self.store.len(),
                    self.store.len() as u32,
                    right.rows.as_ptr(),
                    right.rows.len(),
                    right.row_count(),
                    right.terms.as_ptr(),
                    right.terms.len(),
                    right.term_count(),
                    right.store.as_ptr(),
                    right.store.len(),
                    right.store.len() as u32,
                    words.as_ptr(),
                    words.len(),
                    left_list.as_mut_ptr(),
                    left_list.len(),
                    right_list.as_mut_ptr(),
                    right_list.len(),
                    index.as_mut_ptr(),
                    index.len(),
                )
            }
        })
    }

    /// What a comparison answers with lists that have room for every row.
    fn changes(&self, right: &Dataset, compare: impl FnOnce(&mut [u32], &mut [u32]) -> Compared) -> Result<Changes, Refusal> {
        let (mut left_list, mut right_list) = (vec![0; self.len()], vec![0; right.len()]);
        let c = compare(&mut left_list, &mut right_list);
        if c.number != 0 {
            return Err(Refusal { number: c.number, position: 0 });
        }
        left_list.truncate(c.left as usize);
        right_list.truncate(c.right as usize);
        Ok(Changes { same: c.same == 1, left: left_list, right: right_list })
    }
}

/// What two editions do not have in common: the statements only in the left, and only in the right, each by the number of its first row, from
/// 0 and in row order; they are the same where there are none.
#[derive(Clone, Debug, PartialEq, Eq)]
pub struct Changes {
    pub same: bool,
    pub left: Vec<u32>,
    pub right: Vec<u32>,
}

/// The rows of a subject: how many there are, and the number of the first, from 0. Both are 0 for a subject that is not there.
#[derive(Clone, Copy, Debug, PartialEq, Eq)]
pub struct Rows {
    pub count: u32,
    pub first: u32,
}

/// Looks a subject up by its address, in an index of subjects; the dataset need not be there. The records are read up to the first whose
/// text is not smaller, and what is behind that one is not looked at.
pub fn look_up(address: &[u8], index: &[u8]) -> Result<Rows, Refusal> {
    // SAFETY: both pointers come from slices of those lengths.
    let f = unsafe { library::sycamoot_look_up(address.as_ptr(), address.len(), index.as_ptr(), index.len()) };
    if f.number != 0 {
        return Err(Refusal { number: f.number, position: 0 });
    }
    Ok(Rows { count: f.rows, first: f.first })
}
