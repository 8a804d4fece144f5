//! `w3c`: the W3C Turtle and TriG suites through the library.

use crate::call;
use crate::reader::lexer::{self, Kind, Token};
use crate::reader::read::{Answer, Request, LEAST_WORK};
use crate::reader::text;
use crate::statements::{self, Naming, Node, Quad};
use std::collections::{BTreeMap, BTreeSet};
use std::path::Path;

/// The list of tests where a rule of the scope differs, with the answers given here.
const DOCS: &str = include_str!("../../docs/W3C.md");

/// A line of index.tsv.
struct Test<'a> {
    suite: &'a str,
    name: &'a str,
    kind: &'a str,
    action: &'a str,
    result: &'a str,
    base: &'a str,
}

impl<'a> Test<'a> {
    fn parse(line: &'a str) -> Self {
        let mut fields = line.split('\t');
        let mut next = || fields.next().unwrap_or("");
        Test { suite: next(), name: next(), kind: next(), action: next(), result: next(), base: next() }
    }
}

/// Suite and test name of each line of the table in docs/W3C.md, and the answer it tells.
fn explained() -> BTreeMap<(String, String), String> {
    let mut tests = BTreeMap::new();
    for line in DOCS.lines() {
        let cells: Vec<&str> = line.trim_matches('|').split('|').map(str::trim).collect();
        if let [suite @ ("Turtle" | "TriG"), test, _, answer, _] = cells[..] {
            let name = test.split(' ').next().expect("a split has a first part");
            tests.insert((suite.to_lowercase(), name.to_string()), answer.to_string());
        }
    }
    tests
}

/// True where every test passes or is explained.
pub fn run(directory: &str) -> Result<bool, String> {
    let directory = Path::new(directory);
    let index = String::from_utf8(file(&directory.join("index.tsv"))?).map_err(|e| e.to_string())?;
    let mut explained = explained();
    // Passed, explained, unexplained.
    let mut counts: BTreeMap<(&str, &str), [usize; 3]> = BTreeMap::new();
    for test in index.lines().skip(1).map(Test::parse) {
        let document = file(&directory.join(test.action))?;
        let answer = read(&document, &test)?;
        let told = explained.remove(&(test.suite.to_string(), test.name.to_string()));
        let passed = passes(&test, &answer, directory)?;
        let given = format!("{} at {}", answer.number, answer.position);
        let column = match told {
            None if passed => 0,
            Some(told) if !passed && told == given => 1,
            _ => {
                println!("UNEXPLAINED {} {} {}: {given}", test.suite, test.kind, test.name);
                2
            }
        };
        counts.entry((test.suite, test.kind)).or_default()[column] += 1;
    }
    for test in explained.keys() {
        println!("UNEXPLAINED {test:?} is listed in docs/W3C.md and not in the index");
    }
    println!("{:8} {:16} {:>7} {:>10} {:>12}", "suite", "kind", "passed", "explained", "unexplained");
    for ((suite, kind), [passed, explained, unexplained]) in &counts {
        println!("{suite:8} {kind:16} {passed:>7} {explained:>10} {unexplained:>12}");
    }
    Ok(explained.is_empty() && counts.values().all(|count| count[2] == 0))
}

fn file(path: &Path) -> Result<Vec<u8>, String> {
    std::fs::read(path).map_err(|e| format!("{}: {e}", path.display()))
}

/// The library's answer, which must be the independent reader's too.
fn read(document: &[u8], test: &Test) -> Result<Answer, String> {
    let request = Request {
        document,
        base: test.base.as_bytes(),
        mode: u32::from(test.action.ends_with(".ttl")),
        work: LEAST_WORK,
        row_words: 10 * document.len(),
        term_words: 10 * document.len() + 100,
        store: 100 * document.len() + 1000,
    };
    call::compare(&request, 1).map_err(|difference| format!("{}\n{difference}", test.name))
}

fn passes(test: &Test, answer: &Answer, directory: &Path) -> Result<bool, String> {
    let accepted = answer.number == 0;
    Ok(match test.kind {
        "eval" => {
            let wanted = n_quads(&file(&directory.join(test.result))?)?;
            let quads = statements::quads(answer, Naming::Number).into_iter().collect();
            accepted && statements::same_up_to_renaming(&quads, &wanted)
        }
        kind if kind.starts_with("negative") => !accepted,
        _ => accepted,
    })
}

/// The statements of a result file in N-Triples or N-Quads, whose tokens are Turtle's.
fn n_quads(document: &[u8]) -> Result<BTreeSet<Quad>, String> {
    let tokens = lexer::tokens(document);
    let fault = || "no N-Quads".to_string();
    if lexer::next(document, tokens.last().map_or(0, |t| t.end)) != lexer::Next::End {
        return Err(fault());
    }
    let mut quads = BTreeSet::new();
    for statement in tokens.split_inclusive(|token| token.kind == Kind::Dot) {
        let mut nodes = nodes(document, &statement[..statement.len() - 1]).ok_or_else(fault)?.into_iter();
        let mut next = || nodes.next();
        match [next(), next(), next(), next(), next()] {
            [Some(subject), Some(predicate), Some(object), graph, None] => {
                quads.insert([graph.unwrap_or(Node::DefaultGraph), subject, predicate, object])
            }
            _ => return Err(fault()),
        };
    }
    Ok(quads)
}

fn nodes(document: &[u8], tokens: &[Token]) -> Option<Vec<Node>> {
    let written = |token: Token, skip: usize| document[token.start + skip..token.end].to_vec();
    let unescaped = |token: Token| text::unescaped(document, token);
    let mut nodes = Vec::new();
    let mut rest = tokens;
    while let [token, after @ ..] = rest {
        rest = after;
        nodes.push(match token.kind {
            Kind::IriRef => Node::Iri(unescaped(*token)),
            Kind::BlankNodeLabel => Node::Blank(written(*token, 2)),
            Kind::String => match after {
                [tag, after @ ..] if tag.kind == Kind::LangTag => {
                    rest = after;
                    Node::Tagged { text: unescaped(*token), tag: written(*tag, 1) }
                }
                [carets, datatype, after @ ..] if carets.kind == Kind::Carets => {
                    rest = after;
                    Node::Literal { text: unescaped(*token), datatype: unescaped(*datatype) }
                }
                _ => Node::Literal { text: unescaped(*token), datatype: b"http://www.w3.org/2001/XMLSchema#string".to_vec() },
            },
            _ => return None,
        });
    }
    Some(nodes)
}
