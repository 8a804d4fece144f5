//! `cases`: the calls with answers of shared/cases, by the independent reader and by the library.

use crate::call;
use crate::json::{self, Value};
use crate::reader::long_form::Given;
use crate::reader::read::{self, Answer, Request};
use crate::reader::tables::{Group, TAGGED};

struct Case {
    name: String,
    document: Vec<u8>,
    base: Vec<u8>,
    mode: u32,
    sizes: [usize; 4],
    answer: Answer,
    counts: Vec<usize>,
}

impl Case {
    fn parse(line: &str) -> Result<Self, String> {
        let value = json::parse(line)?;
        let size = |name: &str| value.field(name)?.number();
        let answer = value.field("answer")?;
        Ok(Case {
            name: value.field("name")?.string()?.to_string(),
            document: value.field("doc")?.bytes()?,
            base: value.field("base")?.bytes()?,
            mode: u32::try_from(size("mode")?).map_err(|e| e.to_string())?,
            sizes: [size("work")?, size("rows")?, size("terms")?, size("store")?],
            counts: answer.field("counts")?.numbers()?,
            answer: Answer {
                number: u32::try_from(answer.field("code")?.number()?).map_err(|e| e.to_string())?,
                position: answer.field("position")?.number()?,
                rows: groups(answer.field("rows")?)?,
                terms: groups(answer.field("terms")?)?,
                store: answer.field("store")?.bytes()?,
            },
        })
    }

    fn request(&self) -> Request<'_> {
        let [work, row_words, term_words, store] = self.sizes;
        Request { document: &self.document, base: &self.base, mode: self.mode, work, row_words, term_words, store }
    }

    fn is_answer(&self, answer: &Answer) -> bool {
        *answer == self.answer && self.counts == [answer.rows.len(), answer.terms.len(), answer.store.len()]
    }
}

fn groups(value: &Value) -> Result<Vec<Group>, String> {
    let group = |item: &Value| {
        let words: Result<Vec<u32>, _> = item.numbers()?.into_iter().map(u32::try_from).collect();
        let words = words.map_err(|e| e.to_string())?;
        Group::try_from(words).map_err(|_| "no group of five words".to_string())
    };
    value.items()?.iter().map(group).collect()
}

pub fn word(value: &Value) -> Result<u32, String> {
    u32::try_from(value.number()?).map_err(|e| e.to_string())
}

pub fn words(value: &Value) -> Result<Vec<u32>, String> {
    value.items()?.iter().map(word).collect()
}

/// The tables that a case gives to a call.
pub fn tables(value: &Value) -> Result<Given, String> {
    Ok(Given {
        rows: words(value.field("rows")?)?,
        row_count: word(value.field("row_count")?)?,
        terms: words(value.field("terms")?)?,
        term_count: word(value.field("term_count")?)?,
        store: value.field("store")?.bytes()?,
        store_count: word(value.field("store_count")?)?,
    })
}

/// Has a term up to the count a tag that C-15 changes? The requests' answers are those after C-15, where a capital is not usable, and `base` and
/// `prefix` are; both are the other way round today. With C-15 this function goes.
pub fn hinges_on_c_15(given: &Given) -> bool {
    let changed = |tag: &[u8]| tag.iter().any(u8::is_ascii_uppercase) || tag == b"base" || tag == b"prefix";
    let tag = |term: &[u32]| given.store.get(term[3] as usize..term[3] as usize + term[4] as usize);
    given.terms.chunks_exact(5).take(given.term_count as usize).any(|term| term[0] == TAGGED && tag(term).is_some_and(changed))
}

/// True where all agree.
pub fn run(path: &str) -> Result<bool, String> {
    let text = std::fs::read_to_string(path).map_err(|e| format!("{path}: {e}"))?;
    let (mut count, mut reader_faults, mut library_faults) = (0, 0, 0);
    for line in text.lines() {
        let case = Case::parse(line)?;
        count += 1;
        let answer = read::read(&case.request());
        if !case.is_answer(&answer) {
            reader_faults += 1;
            println!("{}: \"{}\"\n  reader: {answer:?}\n  wanted: {:?}", case.name, case.document.escape_ascii(), case.answer);
        }
        if let Err(difference) = call::compare(&case.request(), count) {
            library_faults += 1;
            println!("{}: \"{}\"\n{difference}", case.name, case.document.escape_ascii());
        }
    }
    println!("cases                                   {count}");
    println!("the independent reader differs          {reader_faults}");
    println!("the library differs from the reader     {library_faults}");
    Ok(reader_faults + library_faults == 0)
}
