//! Statements with their terms written out, and their equality up to renaming of blank nodes.

use crate::reader::read::Answer;
use crate::reader::tables::{BLANK, IRI, LITERAL};
use std::collections::hash_map::DefaultHasher;
use std::collections::{BTreeMap, BTreeSet};
use std::hash::{Hash, Hasher};

#[derive(Clone, PartialEq, Eq, PartialOrd, Ord, Hash, Debug)]
pub enum Node {
    DefaultGraph,
    Iri(Vec<u8>),
    Blank(Vec<u8>),
    Literal { text: Vec<u8>, datatype: Vec<u8> },
    Tagged { text: Vec<u8>, tag: Vec<u8> },
}

/// Graph, subject, predicate, object.
pub type Quad = [Node; 4];

/// How a blank node is named: by its blank number, or by its label.
#[derive(Clone, Copy)]
pub enum Naming {
    Number,
    Label,
}

/// The rows of an answer, in order.
pub fn quads(answer: &Answer, naming: Naming) -> Vec<Quad> {
    let node = |number: u32| node(answer, number, naming);
    answer.rows.iter().map(|row| [node(row[0]), node(row[1]), node(row[2]), node(row[3])]).collect()
}

fn node(answer: &Answer, number: u32, naming: Naming) -> Node {
    if number == 0 {
        return Node::DefaultGraph;
    }
    let part = |start: u32, length: u32| answer.store[start as usize..][..length as usize].to_vec();
    let term = |number: u32| answer.terms[number as usize - 1];
    let [kind, start, length, fourth, fifth] = term(number);
    let text = part(start, length);
    match (kind, naming) {
        (IRI, _) => Node::Iri(text),
        (BLANK, Naming::Label) => Node::Blank(text),
        (BLANK, Naming::Number) => Node::Blank(format!("b{fourth}").into_bytes()),
        (LITERAL, _) => Node::Literal { text, datatype: part(term(fourth)[1], term(fourth)[2]) },
        _ => Node::Tagged { text, tag: part(fourth, fifth) },
    }
}

/// Whether some renaming of blank nodes makes one set of quads the other.
pub fn same_up_to_renaming(left: &BTreeSet<Quad>, right: &BTreeSet<Quad>) -> bool {
    let (left_colours, right_colours) = (colours(left), colours(right));
    if left.len() != right.len() || sorted(&left_colours) != sorted(&right_colours) {
        return false;
    }
    let blanks: Vec<&Node> = left_colours.keys().copied().collect();
    extend(&blanks, &left_colours, &right_colours, &mut BTreeMap::new(), left, right)
}

fn sorted(colours: &BTreeMap<&Node, u64>) -> Vec<u64> {
    let mut all: Vec<u64> = colours.values().copied().collect();
    all.sort_unstable();
    all
}

/// A colour for each blank node that no renaming changes: refined by the quads it stands in.
fn colours(quads: &BTreeSet<Quad>) -> BTreeMap<&Node, u64> {
    let blanks: BTreeSet<&Node> = quads.iter().flatten().filter(|node| matches!(node, Node::Blank(_))).collect();
    let mut colours: BTreeMap<&Node, u64> = blanks.iter().map(|&node| (node, 0)).collect();
    for _ in 0..blanks.len() {
        colours = blanks.iter().map(|&node| (node, colour(node, quads, &colours))).collect();
    }
    colours
}

fn colour(blank: &Node, quads: &BTreeSet<Quad>, colours: &BTreeMap<&Node, u64>) -> u64 {
    let seen = |node: &Node| match (node == blank, colours.get(node)) {
        (true, _) => hash(&"itself"),
        (false, Some(colour)) => hash(&(1, colour)),
        (false, None) => hash(&(2, node)),
    };
    let mut around: Vec<u64> = quads.iter().filter(|quad| quad.contains(blank)).map(|quad| hash(&quad.each_ref().map(seen))).collect();
    around.sort_unstable();
    hash(&around)
}

fn hash(value: &impl Hash) -> u64 {
    let mut hasher = DefaultHasher::new();
    value.hash(&mut hasher);
    hasher.finish()
}

/// Tries every renaming that keeps colours.
fn extend<'a>(
    blanks: &[&'a Node],
    left_colours: &BTreeMap<&'a Node, u64>,
    right_colours: &BTreeMap<&'a Node, u64>,
    renamed: &mut BTreeMap<&'a Node, &'a Node>,
    left: &BTreeSet<Quad>,
    right: &BTreeSet<Quad>,
) -> bool {
    let Some((&blank, rest)) = blanks.split_first() else {
        let rename = |node: &Node| renamed.get(node).map_or_else(|| node.clone(), |&new| new.clone());
        return left.iter().map(|quad| quad.each_ref().map(rename)).collect::<BTreeSet<_>>() == *right;
    };
    right_colours.iter().any(|(&new, colour)| {
        if left_colours[blank] != *colour || renamed.values().any(|&taken| taken == new) {
            return false;
        }
        renamed.insert(blank, new);
        extend(rest, left_colours, right_colours, renamed, left, right) || {
            renamed.remove(blank);
            false
        }
    })
}

#[cfg(test)]
mod tests {
    use super::*;

    fn edges(pairs: &[(&str, &str)]) -> BTreeSet<Quad> {
        let blank = |name: &str| Node::Blank(name.into());
        pairs.iter().map(|(from, to)| [Node::DefaultGraph, blank(from), Node::Iri(b"x:p".to_vec()), blank(to)]).collect()
    }

    #[test]
    fn renaming_is_found_where_there_is_one() {
        let ring = edges(&[("a", "b"), ("b", "c"), ("c", "a")]);
        assert!(same_up_to_renaming(&ring, &edges(&[("y", "x"), ("z", "y"), ("x", "z")])));
        assert!(same_up_to_renaming(&edges(&[]), &edges(&[])));
    }

    /// Six nodes with one edge in and out each: colours agree, and no renaming does.
    #[test]
    fn equal_colours_are_not_enough() {
        let one_ring = edges(&[("a", "b"), ("b", "c"), ("c", "d"), ("d", "e"), ("e", "f"), ("f", "a")]);
        let two_rings = edges(&[("a", "b"), ("b", "c"), ("c", "a"), ("d", "e"), ("e", "f"), ("f", "d")]);
        assert!(!same_up_to_renaming(&one_ring, &two_rings));
        assert!(!same_up_to_renaming(&edges(&[("a", "a")]), &edges(&[("a", "b")])));
    }
}
