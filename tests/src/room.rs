//! Room for a page document, token by token: what each token writes stands here by hand, from "Rows and terms".

use crate::known::{known, Known};

const TYPE: &str = "http://www.w3.org/1999/02/22-rdf-syntax-ns#type";
const FIRST: &str = "http://www.w3.org/1999/02/22-rdf-syntax-ns#first";
const REST: &str = "http://www.w3.org/1999/02/22-rdf-syntax-ns#rest";
const NIL: &str = "http://www.w3.org/1999/02/22-rdf-syntax-ns#nil";
const STRING: &str = "http://www.w3.org/2001/XMLSchema#string";
const INTEGER: &str = "http://www.w3.org/2001/XMLSchema#integer";
const DECIMAL: &str = "http://www.w3.org/2001/XMLSchema#decimal";
const BOOLEAN: &str = "http://www.w3.org/2001/XMLSchema#boolean";

/// The text of a node that has none: a bracket or a list cell.
const NODE: &str = "";

/// What a token writes: a number of rows, and for each new term its bytes in the store.
#[derive(Clone, Copy)]
struct Writes {
    rows: usize,
    terms: &'static [&'static str],
}

struct Step {
    token: &'static str,
    writes: Writes,
    /// Where it differs: what the token writes as the last of the document. A string is complete then.
    as_last: Option<Writes>,
    /// Whether a document may end here.
    complete: bool,
}

const fn step(token: &'static str, rows: usize, terms: &'static [&'static str]) -> Step {
    Step { token, writes: Writes { rows, terms }, as_last: None, complete: false }
}

/// A string that a tag or ^^ follows.
const fn begun(token: &'static str, writes: Writes, as_last: Writes) -> Step {
    Step { token, writes, as_last: Some(as_last), complete: false }
}

const fn end(token: &'static str) -> Step {
    Step { token, writes: Writes { rows: 0, terms: &[] }, as_last: None, complete: true }
}

const PAGE: &[Step] = &[
    step("@prefix", 0, &[]),
    step("m:", 0, &[]),
    step("<x:m#>", 0, &[]),
    end("."),
    step("m:41", 0, &["x:m#41"]),
    step("m:stop", 0, &["x:m#stop"]),
    begun("\"open\"", Writes { rows: 0, terms: &[] }, Writes { rows: 1, terms: &[STRING, "open"] }),
    step("@en", 1, &["openen"]),
    step(",", 0, &[]),
    begun("\"7\"", Writes { rows: 0, terms: &[] }, Writes { rows: 1, terms: &[STRING, "7"] }),
    step("^^", 0, &[]),
    step("m:t", 1, &["x:m#t", "7"]),
    step(";", 0, &[]),
    step("a", 0, &[TYPE]),
    step("[", 1, &[NODE]),
    step("m:at", 0, &["x:m#at"]),
    // The list's node is known at the next token, which writes the row that holds it.
    step("(", 0, &[]),
    step("7", 2, &[NODE, INTEGER, "7", FIRST]),
    step("\"a\"", 2, &[NODE, REST, STRING, "a"]),
    // An element's cell and the row to it come at the string, the literal at its tag.
    begun("\"b\"", Writes { rows: 1, terms: &[NODE] }, Writes { rows: 2, terms: &[NODE, "b"] }),
    step("@de", 1, &["bde"]),
    step("(", 1, &[NODE]),
    step(")", 1, &[NIL]),
    step("(", 1, &[NODE]),
    step("m:41", 2, &[NODE]),
    step(")", 1, &[]),
    step("[", 2, &[NODE, NODE]),
    step("]", 0, &[]),
    step(")", 1, &[]),
    step("]", 0, &[]),
    end("."),
    step("m:g", 0, &["x:m#g"]),
    step("{", 0, &[]),
    step("_:n", 0, &["n"]),
    step("m:side", 0, &["x:m#side"]),
    step("true", 1, &[BOOLEAN, "true"]),
    step(",", 0, &[]),
    step("\"c\"", 1, &["c"]),
    step(".", 0, &[]),
    // A list as subject has no row that holds it.
    step("(", 0, &[]),
    step("1.5", 1, &[NODE, DECIMAL, "1.5"]),
    step(")", 1, &[]),
    step("m:p", 0, &["x:m#p"]),
    step("(", 0, &[]),
    step(")", 1, &[]),
    end("}"),
];

/// Rows, terms, store bytes.
type Sizes = [usize; 3];

/// The page up to some token: its text, and for each token its place and the sizes of the tables after it.
struct Cut {
    document: String,
    tokens: Vec<(usize, Sizes)>,
    complete: bool,
}

fn cut(count: usize) -> Cut {
    let mut document = String::new();
    let mut tokens = Vec::new();
    let mut sizes = [0; 3];
    for (i, step) in PAGE[..count].iter().enumerate() {
        let writes = step.as_last.filter(|_| i + 1 == count).unwrap_or(step.writes);
        let bytes: usize = writes.terms.iter().map(|text| text.len()).sum();
        sizes = [sizes[0] + writes.rows, sizes[1] + writes.terms.len(), sizes[2] + bytes];
        document += " ";
        tokens.push((document.len(), sizes));
        document += step.token;
    }
    Cut { document, tokens, complete: count == 0 || PAGE[count - 1].complete }
}

impl Cut {
    fn sizes(&self) -> Sizes {
        self.tokens.last().map_or([0; 3], |&(_, sizes)| sizes)
    }

    /// The call with some room, and its answer: at the first token that does not fit, the first table that is too small.
    fn call(&self, room: Sizes) -> Known {
        let over = |sizes: &Sizes| (0..3).find(|&table| sizes[table] > room[table]);
        let refusal = self.tokens.iter().find_map(|(place, sizes)| over(sizes).map(|table| (14 + table as u32, *place)));
        let end = (if self.complete { 0 } else { 8 }, self.document.len());
        let (number, position) = refusal.unwrap_or(end);
        let name = format!("room {room:?} for {} tokens", self.tokens.len());
        known(name, self.document.as_bytes(), number, position).rows(5 * room[0]).terms(5 * room[1]).store(room[2])
    }

    /// The same with four words more, which make no group.
    fn call_with_loose_words(&self, room: Sizes) -> Known {
        self.call(room).rows(5 * room[0] + 4).terms(5 * room[1] + 4)
    }
}

/// For the page cut behind each of its tokens: exactly enough room, and one less in each table.
pub fn exact() -> Vec<Known> {
    let mut calls = Vec::new();
    for count in 0..=PAGE.len() {
        let cut = cut(count);
        let enough = cut.sizes();
        calls.extend([cut.call(enough), cut.call_with_loose_words(enough)]);
        for table in (0..3).filter(|&table| enough[table] > 0) {
            let mut less = enough;
            less[table] -= 1;
            calls.extend([cut.call(less), cut.call_with_loose_words(less)]);
        }
    }
    calls
}

/// For the whole page: every room of each table, alone and with another table too small by then.
pub fn every() -> Vec<Known> {
    let page = cut(PAGE.len());
    let enough = page.sizes();
    let mut calls = Vec::new();
    for table in 0..3 {
        for some in 0..enough[table] {
            let mut less = enough;
            less[table] = some;
            calls.push(page.call(less));
            // The last sizes under this one: two tables are too small at one token, or nearly so.
            let before = page.tokens.iter().rev().find(|(_, sizes)| sizes[table] <= some).map_or([0; 3], |&(_, sizes)| sizes);
            for other in (0..3).filter(|&other| other != table) {
                let mut both = less;
                both[other] = before[other];
                calls.push(page.call(both));
            }
        }
    }
    calls
}
