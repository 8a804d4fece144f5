//! Comparisons with their known answers (C-21): the readings' examples, 18 on either side, what tells two statements apart, each reason for
//! 25, lists and indexes of every length.

use crate::call::Difference;
use crate::changes::{compare, Listed, Room};
use crate::examine;
use crate::library::Compared;
use crate::made::tables_of_trig;
use crate::random::Random;
use crate::reader::long_form::Given;
use crate::reader::read::Answer;
use crate::reader::tables::Tables;
use crate::statements::Node;
use crate::written::{expect, tables, Change, CHANGES};

/// The number, and the rows listed of the left and of the right.
type Answered<'a> = (u32, &'a [u32], &'a [u32]);

const SAME: Answered = (0, &[], &[]);
const REFUSED_18: Answered = (18, &[], &[]);
const REFUSED_25: Answered = (25, &[], &[]);
const REFUSED_26: Answered = (26, &[], &[]);

/// The answer in these lists, with indexes of several lengths.
fn check(
    name: &str,
    [left, right]: [&Given; 2],
    pairing: &[u32],
    lists: [usize; 2],
    (number, only_left, only_right): Answered,
) -> Result<(), Difference> {
    let same = number == 0 && only_left.is_empty() && only_right.is_empty();
    let answer = Compared::of((number, same, only_left.len() as u32, only_right.len() as u32));
    let wanted = Listed { answer, left: only_left.to_vec(), right: only_right.to_vec() };
    for index in [0, 1, 10, 100] {
        let listed = compare(left, right, pairing, Room { left: lists[0], right: lists[1], index }, &mut Random(index as u64))?;
        expect(&format!("{name}, pairing {pairing:?}, index {index}"), listed, &wanted)?;
    }
    Ok(())
}

/// Lists that are longer than need be.
const AMPLE: [usize; 2] = [9, 9];

/// Two documents, pairing, lists, and the answer.
type Example<'a> = (&'a str, &'a str, &'a [u32], [usize; 2], Answered<'a>);

/// The readings' example lines, and what else they say of empty graphs, repeats and order.
const EXAMPLES: &[Example] = &[
    ("<x:s> a 1, 2, 2 .", "<x:s> a 2, 3 .", &[], AMPLE, (0, &[0], &[1])),
    ("<x:s> a 1, 2, 2 .", "<x:s> a 2, 3 .", &[], [0, 1], REFUSED_26),
    ("<x:s> a 1, 2, 2 .", "<x:s> a 2, 3 .", &[], [1, 0], REFUSED_26),
    ("<x:s> a 1, 2, 2 .", "<x:s> a 2, 3 .", &[], [1, 1], (0, &[0], &[1])),
    ("<x:s> a 2, 1, 2, 1 .", "", &[], AMPLE, (0, &[0, 1], &[])),
    ("<x:g> { <x:s> a 1 }", "<x:s> a 1 .", &[], AMPLE, (0, &[0], &[0])),
    ("_:a a _:b .", "_:a a _:b .", &[], AMPLE, (0, &[0], &[0])),
    ("_:a a _:b .", "_:b a _:a .", &[0, 0, 1, 1], AMPLE, SAME),
    ("_:a a _:b .", "_:b a _:a .", &[0, 1, 1, 0], AMPLE, (0, &[0], &[0])),
    ("_:a a 1 .", "_:a a 1 .", &[0], AMPLE, REFUSED_25),
    ("_:a a 1 .", "_:a a 1 .", &[0, 0, 0, 0], AMPLE, REFUSED_25),
    ("_:a a 1 .", "_:a a 1 .", &[1, 0], AMPLE, REFUSED_25),
    ("_:a a 1 .", "_:a {}", &[0, 0], AMPLE, (0, &[0], &[])),
    ("", "", &[], [0, 0], SAME),
    ("<x:g> {}", "", &[], [0, 0], SAME),
    ("<x:s> a 1, 1, 1 .", "<x:s> a 1 .", &[], [0, 0], SAME),
    ("<x:s> a 1 . # and on another line:\n<x:t> a 1 .", "<x:t> a 1 . <x:s> a 1 .", &[], [0, 0], SAME),
];

/// Each, and with its sides exchanged.
pub fn examples() -> Vec<Result<(), Difference>> {
    let look = |&(left, right, pairing, lists, answer): &Example| {
        let name = format!("\"{left}\", \"{right}\"");
        let [left, right] = [left, right].map(|document| tables_of_trig(document.as_bytes()));
        let exchanged: Vec<u32> = pairing.chunks(2).flat_map(|pair| pair.iter().rev()).copied().collect();
        check(&name, [&left, &right], pairing, lists, answer)?;
        check(&name, [&right, &left], &exchanged, [lists[1], lists[0]], (answer.0, answer.2, answer.1))
    };
    EXAMPLES.iter().map(look).collect()
}

/// Each change on either side and on both: 18 goes before 25, and 25 before 26.
pub fn refused() -> Vec<Result<(), Difference>> {
    let look = |&(name, change, number): &Change| {
        let (given, mut changed) = (tables(), tables());
        change(&mut changed);
        for editions in [[&changed, &given], [&given, &changed], [&changed, &changed]] {
            if number == 18 {
                for (pairing, lists) in [(&[0, 0][..], AMPLE), (&[], AMPLE), (&[5], AMPLE), (&[5], [0, 0])] {
                    check(name, editions, pairing, lists, REFUSED_18)?;
                }
                continue;
            }
            check(name, editions, &[5, 0], [0, 0], REFUSED_25)?;
            // in no pair, the second row's blank node makes it another statement
            let any_rows = editions.iter().any(|given| given.row_count > 0);
            check(name, editions, &[], [0, 0], if any_rows { REFUSED_26 } else { SAME })?;
        }
        Ok(())
    };
    CHANGES.iter().map(look).collect()
}

/// What the object of a statement may be; no two are the same. Texts, tags and datatypes are such that their bytes in a row are the same, and
/// until C-15 a tag is as written.
fn values() -> Vec<Node> {
    let iri = |text: &str| Node::Iri(text.into());
    let literal = |text: &str, datatype: &str| Node::Literal { text: text.into(), datatype: datatype.into() };
    let tagged = |text: &str, tag: &str| Node::Tagged { text: text.into(), tag: tag.into() };
    vec![
        iri("x:"),
        iri("x:a"),
        iri("X:a"),
        iri("x:A"),
        iri("x:ax:"),
        iri("x:é"),
        iri("x:e\u{301}"),
        iri("x:%61"),
        iri("x:aen"),
        literal("", "x:"),
        literal("", "x:a"),
        literal("", "x:ax:"),
        literal("x:a", "x:"),
        literal("x:", "x:a"),
        literal("x:a", "x:a"),
        literal("x:ax:", "x:"),
        literal("1", "x:"),
        literal("01", "x:"),
        literal("1 ", "x:"),
        literal("1", "X:"),
        literal("x:a", "http://www.w3.org/2001/XMLSchema#string"),
        literal("x:a", "http://www.w3.org/1999/02/22-rdf-syntax-ns#langString"),
        tagged("", "en"),
        tagged("x:a", "en"),
        tagged("x:ae", "n"),
        tagged("x:aen", "en"),
        tagged("x:a", "en-us"),
        tagged("x:a", "en-u"),
        tagged("x:a", "EN"),
        tagged("1", "en"),
    ]
}

/// The number of a node's term in tables.
fn add(node: &Node, tables: &mut Tables) -> u32 {
    match node {
        Node::DefaultGraph => 0,
        Node::Iri(text) => tables.iri(text),
        Node::Blank(label) => tables.labelled_blank(label),
        Node::Literal { text, datatype } => {
            let datatype = tables.iri(datatype);
            tables.literal(text, datatype)
        }
        Node::Tagged { text, tag } => tables.tagged_literal(text, tag),
    }
}

/// The tables of statements, behind some terms that move all numbers.
fn of(statements: &[[Node; 4]], before: &[Node]) -> Given {
    let mut tables = Tables::default();
    for node in before {
        add(node, &mut tables);
    }
    for (position, statement) in statements.iter().enumerate() {
        let [graph, subject, predicate, object] = statement.each_ref().map(|node| add(node, &mut tables));
        tables.row(graph, subject, predicate, object, position);
    }
    examine::given(&Answer { rows: tables.rows, terms: tables.terms, store: tables.store, ..Answer::default() }, &mut Random(1))
}

/// A statement that all editions have, and one with this part in the place of its own.
fn with_part(place: usize, part: Node) -> [[Node; 4]; 2] {
    let iri = |text: &str| Node::Iri(text.into());
    let common = [Node::DefaultGraph, iri("x:s"), iri("x:p"), iri("x:o")];
    let mut other = common.clone();
    other[place] = part;
    [common, other]
}

/// Each value beside each other one, as an object, and IRIs in each place too.
pub fn values_apart() -> Vec<Result<(), Difference>> {
    let mut results = Vec::new();
    let values = values();
    for (number, value) in values.iter().enumerate() {
        for (other_number, other) in values.iter().enumerate() {
            let both_iris = matches!((value, other), (Node::Iri(_), Node::Iri(_)));
            for place in if both_iris { 0..4 } else { 3..4 } {
                let left = of(&with_part(place, value.clone()), &[]);
                let right = of(&with_part(place, other.clone()), &values);
                let answer = if number == other_number { SAME } else { (0, &[1][..], &[1][..]) };
                results.push(check(&format!("{value:?}, {other:?} in place {place}"), [&left, &right], &[], AMPLE, answer));
            }
        }
    }
    results
}

/// Statements of the same nodes in other places, of which each is itself alone; the default graph is none of the nodes.
pub fn places_apart() -> Vec<Result<(), Difference>> {
    let nodes = ["x:a", "x:b", "x:c", "x:d"].map(|text| Node::Iri(text.into()));
    let mut all = Vec::new();
    for places in 0..256usize {
        let mut statement = [0, 2, 4, 6].map(|shift| nodes[places >> shift & 3].clone());
        if statement[0] == nodes[3] {
            statement[0] = Node::DefaultGraph;
        }
        all.push(statement);
    }
    let right = of(&all, &nodes);
    let look = |(row, statement): (usize, &[Node; 4])| {
        let only_right: Vec<u32> = (0..all.len() as u32).filter(|&other| other as usize != row).collect();
        check("one of all", [&of(std::slice::from_ref(statement), &[]), &right], &[], [0, all.len()], (0, &[], &only_right))
    };
    all.iter().enumerate().map(look).collect()
}

/// Terms 1 and 2 are IRIs, the others blank nodes with these numbers, of which the first is the one row's object.
fn with_blanks(numbers: &[u32]) -> Given {
    let mut terms = vec![[1, 0, 3, 0, 0], [1, 3, 3, 0, 0]];
    terms.extend(numbers.iter().map(|&number| [2, 0, 0, number, 0]));
    let rows = vec![[0, 1, 2, 3, 0]];
    examine::given(&Answer { rows, terms, store: b"x:sx:p".to_vec(), ..Answer::default() }, &mut Random(1))
}

const MAX: u32 = u32::MAX;

/// Left blank nodes are 0, 7 (of two terms) and 2^32 - 1, right ones 7, 0 and 5; the first of each is an object.
const PAIRINGS: &[(&[u32], Answered)] = &[
    (&[], (0, &[0], &[0])),
    (&[0, 7], SAME),
    (&[0, 0], (0, &[0], &[0])),
    (&[7, 7], (0, &[0], &[0])),
    (&[7, 0, 0, 7], SAME),
    (&[0, 7, 7, 0, MAX, 5], SAME),
    (&[MAX, 5, 7, 0, 0, 7], SAME),
    (&[MAX, 7], (0, &[0], &[0])),
    (&[0], REFUSED_25),
    (&[MAX], REFUSED_25),
    (&[0, 7, 7], REFUSED_25),
    (&[0, 7, 7, 0, MAX], REFUSED_25),
    (&[1, 7], REFUSED_25),
    (&[0, 1], REFUSED_25),
    (&[5, 7], REFUSED_25),
    (&[0, MAX], REFUSED_25),
    (&[0, 3], REFUSED_25),
    (&[3, 7], REFUSED_25),
    (&[0, 7, 0, 7], REFUSED_25),
    (&[0, 7, 0, 0], REFUSED_25),
    (&[0, 7, 7, 7], REFUSED_25),
    (&[0, 7, 7, 0, 0, 5], REFUSED_25),
    (&[0, 7, 7, 0, MAX, 7], REFUSED_25),
    (&[0, 7, 7, 0, MAX, 6], REFUSED_25),
    (&[MAX - 1, 5, 0, 7], REFUSED_25),
];

/// Each with room, and with none: 25 goes before 26.
pub fn pairings() -> Vec<Result<(), Difference>> {
    let (left, right) = (with_blanks(&[0, 7, 7, MAX]), with_blanks(&[7, 0, 5]));
    let look = |&(pairing, answer): &(&[u32], Answered)| {
        check("pairing", [&left, &right], pairing, AMPLE, answer)?;
        let refused = if answer == SAME || answer == REFUSED_25 { answer } else { REFUSED_26 };
        check("pairing, without lists", [&left, &right], pairing, [0, 0], refused)?;
        check("pairing, without a right list", [&left, &right], pairing, [1, 0], refused)?;
        check("pairing, without a left list", [&left, &right], pairing, [0, 1], refused)
    };
    PAIRINGS.iter().map(look).collect()
}

/// Lists of every length up to those that are enough and over, and indexes of every length.
pub fn lengths() -> Vec<Result<(), Difference>> {
    let left = tables_of_trig(b"<x:s> a 1, 1, 2, 3, 2, 4, 5, 3 .");
    let right = tables_of_trig(b"<x:s> a 2, 6, 1, 7, 6 .");
    let wanted: Answered = (0, &[3, 5, 6], &[1, 3]);
    let lists = (0..6).flat_map(|l| (0..5).map(move |r| [l, r]));
    let lists = lists.map(|lists| check("lists", [&left, &right], &[], lists, if lists[0] < 3 || lists[1] < 2 { REFUSED_26 } else { wanted }));
    let indexes = (0..130).map(|index| {
        let listed = compare(&left, &right, &[], Room { left: 3, right: 2, index }, &mut Random(index as u64))?;
        expect(&format!("index {index}"), (listed.left, listed.right), ([3, 5, 6], [1, 3]))
    });
    lists.chain(indexes).collect()
}

/// Many rows: one statement again and again, all of them others, and each in both.
pub fn many_rows() -> Vec<Result<(), Difference>> {
    let count = 1500;
    let statement = |number: u32| {
        let [_, statement] = with_part(3, Node::Iri(format!("x:{number}").into()));
        statement
    };
    let tables = |numbers: &mut dyn Iterator<Item = u32>| of(&numbers.map(statement).collect::<Vec<_>>(), &[]);
    let (one, all, backwards) = (tables(&mut (0..count).map(|_| 7)), tables(&mut (0..count)), tables(&mut (0..count).rev()));
    let every: Vec<u32> = (0..count).collect();
    let but_seven: Vec<u32> = (0..count).filter(|&row| row != 7).collect();
    let lists = [count as usize; 2];
    vec![
        check("one and one", [&one, &one], &[], [0, 0], SAME),
        check("one and none", [&one, &of(&[], &[])], &[], lists, (0, &[0], &[])),
        check("one and all", [&one, &all], &[], lists, (0, &[], &but_seven)),
        check("all and one", [&all, &one], &[], lists, (0, &but_seven, &[])),
        check("all and all", [&all, &backwards], &[], [0, 0], SAME),
        check("all and none", [&all, &of(&[], &[])], &[], lists, (0, &every, &[])),
        check("none and all, a list that is too short", [&of(&[], &[]), &all], &[], [0, count as usize - 1], REFUSED_26),
    ]
}
