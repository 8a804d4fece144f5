//! The published productions as data, and a recogniser of token lists that begin a grammatical text.
//!
//! Production numbers are those of the TriG and Turtle Recommendations. The recogniser follows every derivation at once, so no
//! production had to be rewritten, and it fails at "the first token with which the tokens so far begin no grammatical text".

use super::lexer::Kind;
use std::rc::Rc;
use Part::{Alt, Opt, Ref, Seq, Star, T};

/// A right-hand side, or a part of one.
enum Part {
    T(Kind),
    Ref(&'static Part),
    Seq(&'static [Part]),
    Alt(&'static [Part]),
    Star(&'static Part),
    Opt(&'static Part),
}

/// Turtle [1] turtleDoc ::= statement*
static TURTLE_DOC: Part = Star(&STATEMENT);
/// Turtle [2] statement ::= directive | triples '.'
static STATEMENT: Part = Alt(&[Ref(&DIRECTIVE), Seq(&[Ref(&TRIPLES), T(Kind::Dot)])]);
/// [1g] trigDoc ::= (directive | block)*
static TRIG_DOC: Part = Star(&Alt(&[Ref(&DIRECTIVE), Ref(&BLOCK)]));
/// [2g] block ::= triplesOrGraph | wrappedGraph | triples2 | "GRAPH" labelOrSubject wrappedGraph
static BLOCK: Part =
    Alt(&[Ref(&TRIPLES_OR_GRAPH), Ref(&WRAPPED_GRAPH), Ref(&TRIPLES2), Seq(&[T(Kind::Graph), Ref(&LABEL_OR_SUBJECT), Ref(&WRAPPED_GRAPH)])]);
/// [3g] triplesOrGraph ::= labelOrSubject (wrappedGraph | predicateObjectList '.')
static TRIPLES_OR_GRAPH: Part = Seq(&[Ref(&LABEL_OR_SUBJECT), Alt(&[Ref(&WRAPPED_GRAPH), Seq(&[Ref(&PREDICATE_OBJECT_LIST), T(Kind::Dot)])])]);
/// [4g] triples2 ::= blankNodePropertyList predicateObjectList? '.' | collection predicateObjectList '.'
static TRIPLES2: Part = Alt(&[
    Seq(&[Ref(&BLANK_NODE_PROPERTY_LIST), Opt(&PREDICATE_OBJECT_LIST), T(Kind::Dot)]),
    Seq(&[Ref(&COLLECTION), Ref(&PREDICATE_OBJECT_LIST), T(Kind::Dot)]),
]);
/// [5g] wrappedGraph ::= '{' triplesBlock? '}'
static WRAPPED_GRAPH: Part = Seq(&[T(Kind::OpenBrace), Opt(&TRIPLES_BLOCK), T(Kind::CloseBrace)]);
/// [6g] triplesBlock ::= triples ('.' triplesBlock?)?
static TRIPLES_BLOCK: Part = Seq(&[Ref(&TRIPLES), Opt(&Seq(&[T(Kind::Dot), Opt(&TRIPLES_BLOCK)]))]);
/// [7g] labelOrSubject ::= iri | BlankNode
static LABEL_OR_SUBJECT: Part = Alt(&[Ref(&IRI), Ref(&BLANK_NODE)]);
/// [3] directive ::= prefixID | base | sparqlPrefix | sparqlBase, with [4], [5], [5s] and [6s]
static DIRECTIVE: Part = Alt(&[
    Seq(&[T(Kind::AtPrefix), T(Kind::PnameNs), T(Kind::IriRef), T(Kind::Dot)]),
    Seq(&[T(Kind::AtBase), T(Kind::IriRef), T(Kind::Dot)]),
    Seq(&[T(Kind::Prefix), T(Kind::PnameNs), T(Kind::IriRef)]),
    Seq(&[T(Kind::Base), T(Kind::IriRef)]),
]);
/// [6] triples ::= subject predicateObjectList | blankNodePropertyList predicateObjectList?
static TRIPLES: Part =
    Alt(&[Seq(&[Ref(&SUBJECT), Ref(&PREDICATE_OBJECT_LIST)]), Seq(&[Ref(&BLANK_NODE_PROPERTY_LIST), Opt(&PREDICATE_OBJECT_LIST)])]);
/// [7] predicateObjectList ::= verb objectList (';' (verb objectList)?)*
static PREDICATE_OBJECT_LIST: Part =
    Seq(&[Ref(&VERB), Ref(&OBJECT_LIST), Star(&Seq(&[T(Kind::Semicolon), Opt(&Seq(&[Ref(&VERB), Ref(&OBJECT_LIST)]))]))]);
/// [8] objectList ::= object (',' object)*
static OBJECT_LIST: Part = Seq(&[Ref(&OBJECT), Star(&Seq(&[T(Kind::Comma), Ref(&OBJECT)]))]);
/// [9] verb ::= predicate | 'a', with [11] predicate ::= iri
static VERB: Part = Alt(&[Ref(&IRI), T(Kind::A)]);
/// [10] subject ::= iri | blank
static SUBJECT: Part = Alt(&[Ref(&IRI), Ref(&BLANK)]);
/// [12] object ::= iri | blank | blankNodePropertyList | literal
static OBJECT: Part = Alt(&[Ref(&IRI), Ref(&BLANK), Ref(&BLANK_NODE_PROPERTY_LIST), Ref(&LITERAL)]);
/// [13] literal ::= RDFLiteral | NumericLiteral | BooleanLiteral, with [17] and [133s]
static LITERAL: Part = Alt(&[Ref(&RDF_LITERAL), T(Kind::Integer), T(Kind::Decimal), T(Kind::Double), T(Kind::True), T(Kind::False)]);
/// [14] blank ::= BlankNode | collection
static BLANK: Part = Alt(&[Ref(&BLANK_NODE), Ref(&COLLECTION)]);
/// [15] blankNodePropertyList ::= '[' predicateObjectList ']'
static BLANK_NODE_PROPERTY_LIST: Part = Seq(&[T(Kind::OpenBracket), Ref(&PREDICATE_OBJECT_LIST), T(Kind::CloseBracket)]);
/// [16] collection ::= '(' object* ')'
static COLLECTION: Part = Seq(&[T(Kind::OpenParen), Star(&OBJECT), T(Kind::CloseParen)]);
/// [128s] RDFLiteral ::= String (LANGTAG | '^^' iri)?
static RDF_LITERAL: Part = Seq(&[T(Kind::String), Opt(&Alt(&[T(Kind::LangTag), Seq(&[T(Kind::Carets), Ref(&IRI)])]))]);
/// [135s] iri ::= IRIREF | PrefixedName, with [136s] PrefixedName ::= PNAME_LN | PNAME_NS
static IRI: Part = Alt(&[T(Kind::IriRef), T(Kind::PnameLn), T(Kind::PnameNs)]);
/// [137s] BlankNode ::= BLANK_NODE_LABEL | ANON; ANON is two tokens
static BLANK_NODE: Part = Alt(&[T(Kind::BlankNodeLabel), Seq(&[T(Kind::OpenBracket), T(Kind::CloseBracket)])]);

/// What has still to come in one derivation, the next part on top. Stacks share their tails.
type Stack = Option<Rc<Cell>>;

struct Cell {
    part: &'static Part,
    below: Stack,
}

fn push(part: &'static Part, below: Stack) -> Stack {
    Some(Rc::new(Cell { part, below }))
}

/// All derivations that agree with the tokens taken so far.
pub struct Recogniser {
    stacks: Vec<Stack>,
}

impl Recogniser {
    pub fn new(mode: u32) -> Self {
        Recogniser { stacks: vec![push(if mode == 0 { &TRIG_DOC } else { &TURTLE_DOC }, None)] }
    }

    /// Takes a token; false where no derivation goes on with it.
    pub fn take(&mut self, kind: Kind) -> bool {
        let mut after = Vec::new();
        for stack in &self.stacks {
            advance(stack, kind, &mut after);
        }
        self.stacks = after;
        !self.stacks.is_empty()
    }

    /// Whether the tokens taken have a derivation.
    pub fn is_complete(&self) -> bool {
        self.stacks.iter().any(can_end)
    }
}

/// Every stack that a token leaves. No production is left-recursive, so this ends.
fn advance(stack: &Stack, kind: Kind, after: &mut Vec<Stack>) {
    let Some(cell) = stack else { return };
    let below = || cell.below.clone();
    match cell.part {
        T(terminal) => {
            if *terminal == kind {
                after.push(below());
            }
        }
        Ref(part) => advance(&push(part, below()), kind, after),
        Seq(parts) => advance(&parts.iter().rev().fold(below(), |tail, part| push(part, tail)), kind, after),
        Alt(parts) => parts.iter().for_each(|part| advance(&push(part, below()), kind, after)),
        Star(part) => {
            advance(&cell.below, kind, after);
            advance(&push(part, Some(cell.clone())), kind, after);
        }
        Opt(part) => {
            advance(&cell.below, kind, after);
            advance(&push(part, below()), kind, after);
        }
    }
}

fn can_end(stack: &Stack) -> bool {
    stack.as_ref().is_none_or(|cell| can_be_empty(cell.part) && can_end(&cell.below))
}

fn can_be_empty(part: &Part) -> bool {
    match part {
        T(_) => false,
        Ref(part) => can_be_empty(part),
        Seq(parts) => parts.iter().all(can_be_empty),
        Alt(parts) => parts.iter().any(can_be_empty),
        Star(_) | Opt(_) => true,
    }
}
