//! What each token does: directives, terms and rows in the order of "Rows and terms". The grammar has already agreed to the token.

use super::iri;
use super::lexer::{self, Kind, Next, Token};
use super::tables::Tables;
use super::text;
use std::collections::HashMap;

const DEEPEST: usize = 64;
const LONGEST_PREFIX: usize = 64;
const MOST_PREFIXES: usize = 32;

const RDF: &str = "http://www.w3.org/1999/02/22-rdf-syntax-ns#";
const XSD: &str = "http://www.w3.org/2001/XMLSchema#";

/// A number of the table "Numbers returned", for the token at hand.
pub type Refusal = u32;

/// What the next terms belong to. The first level is the statement's.
#[derive(Clone, Copy)]
enum Level {
    /// A statement or a bracket: the next term is its subject, then its predicate, then its objects.
    Properties { subject: Option<u32>, predicate: Option<u32> },
    /// A list, with the place of its ( and its last cell.
    List { open: usize, cell: Option<u32> },
}

const NEW_STATEMENT: Level = Level::Properties { subject: None, predicate: None };

/// What a directive still waits for.
enum Directive {
    None,
    PrefixName,
    PrefixIri(Vec<u8>),
    BaseIri,
}

/// A string that a tag or ^^ follows.
struct Begun {
    text: Vec<u8>,
    position: usize,
}

pub struct Machine<'a> {
    document: &'a [u8],
    base: Vec<u8>,
    prefixes: HashMap<Vec<u8>, Vec<u8>>,
    directive: Directive,
    graph: u32,
    levels: Vec<Level>,
    begun: Option<Begun>,
    pub tables: Tables,
}

impl<'a> Machine<'a> {
    pub fn new(document: &'a [u8], base: &[u8]) -> Self {
        Machine {
            document,
            base: base.to_vec(),
            prefixes: HashMap::new(),
            directive: Directive::None,
            graph: 0,
            levels: vec![NEW_STATEMENT],
            begun: None,
            tables: Tables::default(),
        }
    }

    /// Does what a token asks for, or gives 9 to 13. All that a token writes is written here; 14 to 16 are the caller's.
    pub fn take(&mut self, token: Token) -> Result<(), Refusal> {
        match token.kind {
            Kind::AtPrefix | Kind::Prefix => self.directive = Directive::PrefixName,
            Kind::AtBase | Kind::Base => self.directive = Directive::BaseIri,
            Kind::IriRef | Kind::PnameNs | Kind::PnameLn => match std::mem::replace(&mut self.directive, Directive::None) {
                Directive::None => self.iri(token)?,
                Directive::PrefixName => self.prefix_name(token)?,
                Directive::PrefixIri(name) => self.prefix_iri(name, token)?,
                Directive::BaseIri => self.base = self.reference(token)?,
            },
            Kind::A => self.node(token.start, |tables| rdf(tables, "type")),
            Kind::BlankNodeLabel => {
                let label = &self.document[token.start + 2..token.end];
                self.node(token.start, |tables| tables.labelled_blank(label));
            }
            Kind::Integer => self.plain(token, "integer"),
            Kind::Decimal => self.plain(token, "decimal"),
            Kind::Double => self.plain(token, "double"),
            Kind::True | Kind::False => self.plain(token, "boolean"),
            Kind::String => self.string(token),
            Kind::LangTag => self.tag(token),
            Kind::OpenBracket => self.open_bracket(token.start)?,
            Kind::OpenParen => self.open_paren(token.start)?,
            Kind::CloseBracket => drop(self.levels.pop()),
            Kind::CloseParen => self.close_paren(token.start),
            Kind::OpenBrace => self.open_graph(),
            Kind::CloseBrace => {
                self.graph = 0;
                self.levels = vec![NEW_STATEMENT];
            }
            Kind::Dot => self.levels = vec![NEW_STATEMENT],
            Kind::Semicolon => self.next_predicate(),
            Kind::Comma | Kind::Carets | Kind::Graph => {}
        }
        Ok(())
    }

    fn prefix_name(&mut self, token: Token) -> Result<(), Refusal> {
        let name = &self.document[token.start..token.end - 1];
        if name.len() > LONGEST_PREFIX {
            return Err(11);
        }
        self.directive = Directive::PrefixIri(name.to_vec());
        Ok(())
    }

    fn prefix_iri(&mut self, name: Vec<u8>, token: Token) -> Result<(), Refusal> {
        let namespace = self.reference(token)?;
        if self.prefixes.len() == MOST_PREFIXES && !self.prefixes.contains_key(&name) {
            return Err(12);
        }
        self.prefixes.insert(name, namespace);
        Ok(())
    }

    /// The IRI of an IRIREF: as written if it has a scheme, else resolved against the base in force.
    fn reference(&self, token: Token) -> Result<Vec<u8>, Refusal> {
        let written = text::unescaped(self.document, token);
        let has_scheme = iri::scheme(&written).is_some();
        if !has_scheme && self.base.is_empty() {
            return Err(10);
        }
        if written.len() > iri::LONGEST {
            return Err(11);
        }
        if has_scheme {
            return Ok(written);
        }
        let resolved = iri::resolve(&self.base, &written);
        if resolved.length_with_dots > iri::LONGEST {
            return Err(11);
        }
        Ok(resolved.text)
    }

    /// The IRI of a prefixed name: joined, and not resolved again.
    fn joined(&self, token: Token) -> Result<Vec<u8>, Refusal> {
        let (prefix, local) = text::prefix_and_local(&self.document[token.start..token.end]);
        let namespace = self.prefixes.get(prefix).ok_or(9u32)?;
        let whole = [&namespace[..], &local].concat();
        if whole.len() > iri::LONGEST {
            return Err(11);
        }
        Ok(whole)
    }

    /// An IRI outside a directive: a string's datatype, or a node or predicate.
    fn iri(&mut self, token: Token) -> Result<(), Refusal> {
        let text = if token.kind == Kind::IriRef { self.reference(token)? } else { self.joined(token)? };
        if let Some(string) = self.begun.take() {
            let datatype = self.tables.iri(&text);
            let literal = self.tables.literal(&string.text, datatype);
            self.settle(self.top(), literal, string.position);
        } else {
            self.node(token.start, |tables| tables.iri(&text));
        }
        Ok(())
    }

    /// A number or boolean.
    fn plain(&mut self, token: Token, datatype: &str) {
        let text = &self.document[token.start..token.end];
        self.node(token.start, |tables| typed(tables, text, datatype));
    }

    /// A string: complete here, unless a tag or ^^ follows.
    fn string(&mut self, token: Token) {
        let text = text::unescaped(self.document, token);
        let position = token.start;
        match lexer::next(self.document, token.end) {
            Next::Token(Token { kind: Kind::LangTag | Kind::Carets, .. }) => {
                self.begin_element(position);
                self.begun = Some(Begun { text, position });
            }
            _ => self.node(position, |tables| typed(tables, &text, "string")),
        }
    }

    fn tag(&mut self, token: Token) {
        let string = self.begun.take().expect("the grammar puts a tag behind a string only");
        let literal = self.tables.tagged_literal(&string.text, &self.document[token.start + 1..token.end]);
        self.settle(self.top(), literal, string.position);
    }

    fn open_bracket(&mut self, position: usize) -> Result<(), Refusal> {
        self.may_open()?;
        self.begin_element(position);
        let node = self.tables.new_blank();
        self.settle(self.top(), node, position);
        self.levels.push(Level::Properties { subject: Some(node), predicate: None });
        Ok(())
    }

    /// "The node of ( is known at the next token": here only the cell of a list around it is made.
    fn open_paren(&mut self, open: usize) -> Result<(), Refusal> {
        self.may_open()?;
        self.begin_element(open);
        self.levels.push(Level::List { open, cell: None });
        Ok(())
    }

    fn may_open(&self) -> Result<(), Refusal> {
        if self.top() == DEEPEST {
            Err(13)
        } else {
            Ok(())
        }
    }

    fn close_paren(&mut self, position: usize) {
        match self.levels.pop() {
            Some(Level::List { cell: Some(cell), .. }) => {
                let rest = rdf(&mut self.tables, "rest");
                let nil = rdf(&mut self.tables, "nil");
                self.tables.row(self.graph, cell, rest, nil, position);
            }
            Some(Level::List { open, cell: None }) => {
                let nil = rdf(&mut self.tables, "nil");
                self.settle(self.top(), nil, open);
            }
            _ => unreachable!("the grammar pairs brackets"),
        }
    }

    /// The term before a brace, if any, was its label.
    fn open_graph(&mut self) {
        if let Level::Properties { subject, .. } = self.levels[0] {
            self.graph = subject.unwrap_or(0);
        }
        self.levels = vec![NEW_STATEMENT];
    }

    fn next_predicate(&mut self) {
        if let Some(Level::Properties { predicate, .. }) = self.levels.last_mut() {
            *predicate = None;
        }
    }

    fn top(&self) -> usize {
        self.levels.len() - 1
    }

    /// A term that is complete at its token: cell and link first, then its number, then its row.
    fn node(&mut self, position: usize, number: impl FnOnce(&mut Tables) -> u32) {
        self.begin_element(position);
        let node = number(&mut self.tables);
        self.settle(self.top(), node, position);
    }

    /// In a list, at an element's first token: the new cell, then the row that leads to it.
    fn begin_element(&mut self, position: usize) {
        let top = self.top();
        let Level::List { open, cell: old } = self.levels[top] else { return };
        let new = self.tables.new_blank();
        self.levels[top] = Level::List { open, cell: Some(new) };
        match old {
            None => self.settle(top - 1, new, open),
            Some(old) => {
                let rest = rdf(&mut self.tables, "rest");
                self.tables.row(self.graph, old, rest, new, position);
            }
        }
    }

    /// Gives a numbered term its part in a level: subject, predicate, or the object of a row.
    fn settle(&mut self, level: usize, node: u32, position: usize) {
        match &mut self.levels[level] {
            Level::Properties { subject: subject @ None, .. } => *subject = Some(node),
            Level::Properties { predicate: predicate @ None, .. } => *predicate = Some(node),
            Level::Properties { subject: Some(subject), predicate: Some(predicate) } => {
                self.tables.row(self.graph, *subject, *predicate, node, position);
            }
            Level::List { cell, .. } => {
                let cell = cell.expect("an element's cell is made at its first token");
                let first = rdf(&mut self.tables, "first");
                self.tables.row(self.graph, cell, first, node, position);
            }
        }
    }
}

fn rdf(tables: &mut Tables, name: &str) -> u32 {
    tables.iri(format!("{RDF}{name}").as_bytes())
}

/// A literal with one of XML Schema's types, the type numbered first.
fn typed(tables: &mut Tables, text: &[u8], name: &str) -> u32 {
    let datatype = tables.iri(format!("{XSD}{name}").as_bytes());
    tables.literal(text, datatype)
}
