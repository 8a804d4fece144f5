//! A call whose answer is known from the papers: the library must give it, and do all else as the independent reader does.

use crate::call::{self, Difference};
use crate::generate::Subject;
use crate::reader::read::{Request, LEAST_WORK};
use crate::statements::{self, Naming, Node};

pub struct Known {
    pub name: String,
    pub subject: Subject,
    work: usize,
    rows: Option<usize>,
    terms: Option<usize>,
    store: Option<usize>,
    number: u32,
    position: usize,
    object: Option<Node>,
}

/// Mode 0, no base, and ample room, unless said.
pub fn known(name: impl Into<String>, document: impl Into<Vec<u8>>, number: u32, position: usize) -> Known {
    Known {
        name: name.into(),
        subject: Subject { document: document.into(), base: Vec::new(), mode: 0 },
        work: LEAST_WORK,
        rows: None,
        terms: None,
        store: None,
        number,
        position,
        object: None,
    }
}

/// A document that is accepted.
pub fn accepted(name: impl Into<String>, document: impl Into<Vec<u8>>) -> Known {
    let document = document.into();
    let length = document.len();
    known(name, document, 0, length)
}

impl Known {
    pub fn mode(mut self, mode: u32) -> Self {
        self.subject.mode = mode;
        self
    }

    pub fn base(mut self, base: &[u8]) -> Self {
        self.subject.base = base.to_vec();
        self
    }

    pub fn work(mut self, bytes: usize) -> Self {
        self.work = bytes;
        self
    }

    pub fn rows(mut self, words: usize) -> Self {
        self.rows = Some(words);
        self
    }

    pub fn terms(mut self, words: usize) -> Self {
        self.terms = Some(words);
        self
    }

    pub fn store(mut self, bytes: usize) -> Self {
        self.store = Some(bytes);
        self
    }

    /// The last row's object.
    pub fn object(mut self, node: Node) -> Self {
        self.object = Some(node);
        self
    }

    pub fn check(&self) -> Result<(), Difference> {
        let length = self.subject.document.len();
        let request = Request {
            document: &self.subject.document,
            base: &self.subject.base,
            mode: self.subject.mode,
            work: self.work,
            row_words: self.rows.unwrap_or(10_000),
            term_words: self.terms.unwrap_or(10_000),
            store: self.store.unwrap_or(length + 10_000),
        };
        let answer = call::compare(&request, length as u64)?;
        let differs = |got: String, wanted: String| Err(Difference { call: call::describe(&request), library: got, wanted });
        if (answer.number, answer.position) != (self.number, self.position) {
            return differs(format!("{} at {}", answer.number, answer.position), format!("{} at {}", self.number, self.position));
        }
        let object = statements::quads(&answer, Naming::Number).pop().map(|[_, _, _, object]| object);
        if self.object.is_some() && self.object != object {
            return differs(format!("{object:?}"), format!("{:?}", self.object));
        }
        Ok(())
    }
}
