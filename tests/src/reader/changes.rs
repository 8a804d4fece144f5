//! "What did the office change?" (document 02, C-21): two editions of a file, compared as sets of statements.

use super::long_form::{Checked, Given};
use std::collections::{BTreeMap, BTreeSet};

/// What a term stands for. A blank node is known by its number in its own table alone.
#[derive(Clone, Copy, PartialEq, Eq, PartialOrd, Ord)]
pub enum Value<'a> {
    DefaultGraph,
    Iri(&'a [u8]),
    Blank(u32),
    Literal { text: &'a [u8], datatype: &'a [u8] },
    Tagged { text: &'a [u8], tag: &'a [u8] },
}

/// Graph, subject, predicate, object.
pub type Statement<'a> = [Value<'a>; 4];

/// The right blank number of each left one that has one.
type Pairs = BTreeMap<u32, u32>;

/// The number, whether the editions are the same, and how many statements are only in the left, and only in the right. Lists are changed on 0 alone.
pub fn compare(left: &Given, right: &Given, pairing: &[u32], left_list: &mut [u32], right_list: &mut [u32]) -> (u32, bool, u32, u32) {
    let (only_left, only_right) = match changes(left, right, pairing) {
        Ok(lists) => lists,
        Err(number) => return (number, false, 0, 0),
    };
    let (left_count, right_count) = (only_left.len(), only_right.len());
    if left_count > left_list.len() || right_count > right_list.len() {
        return (26, false, 0, 0);
    }
    left_list[..left_count].copy_from_slice(&only_left);
    right_list[..right_count].copy_from_slice(&only_right);
    (0, left_count == 0 && right_count == 0, left_count as u32, right_count as u32)
}

/// The first rows of the statements only in the left, and only in the right; or 18 or 25.
fn changes(left: &Given, right: &Given, pairing: &[u32]) -> Result<(Vec<u32>, Vec<u32>), u32> {
    let (left, left_statements) = statements(left).ok_or(18u32)?;
    let (right, right_statements) = statements(right).ok_or(18u32)?;
    let pairs = pairs(pairing, &left.blank_numbers(), &right.blank_numbers()).ok_or(25u32)?;
    let in_right: BTreeSet<&Statement> = right_statements.iter().collect();
    let carried_over: BTreeSet<Statement> = left_statements.iter().filter_map(|statement| carried(statement, &pairs)).collect();
    let only_left = first_rows(&left_statements, |statement| !carried(statement, &pairs).is_some_and(|over| in_right.contains(&over)));
    let only_right = first_rows(&right_statements, |statement| !carried_over.contains(statement));
    Ok((only_left, only_right))
}

/// The tables, and the statement of each row; or none for 18.
pub fn statements(given: &Given) -> Option<(Checked<'_>, Vec<Statement<'_>>)> {
    let (tables, rows) = Checked::usable(given)?;
    let statements = rows.map(|row| [0, 1, 2, 3].map(|part| tables.value(row[part]))).collect();
    Some((tables, statements))
}

/// "25, an odd word, a blank number missing from its table or paired twice": then none.
fn pairs(pairing: &[u32], left_blanks: &BTreeSet<u32>, right_blanks: &BTreeSet<u32>) -> Option<Pairs> {
    let (mut pairs, mut rights) = (Pairs::new(), BTreeSet::new());
    for pair in pairing.chunks(2) {
        let &[left, right] = pair else { return None };
        let there = left_blanks.contains(&left) && right_blanks.contains(&right);
        let paired_before = pairs.insert(left, right).is_some() || !rights.insert(right);
        if !there || paired_before {
            return None;
        }
    }
    Some(pairs)
}

/// The right statement to which the pairing carries a left one, or none where a blank node is in no pair.
fn carried<'a>(statement: &Statement<'a>, pairs: &Pairs) -> Option<Statement<'a>> {
    let mut carried = *statement;
    for part in &mut carried {
        if let Value::Blank(number) = part {
            *number = *pairs.get(number)?;
        }
    }
    Some(carried)
}

/// The rows of the statements that are chosen, "each once, as the number of its first row (from 0)".
fn first_rows<'a>(statements: &[Statement<'a>], chosen: impl Fn(&Statement<'a>) -> bool) -> Vec<u32> {
    let mut seen = BTreeSet::new();
    (0..).zip(statements).filter(|(_, statement)| seen.insert(*statement) && chosen(statement)).map(|(row, _)| row).collect()
}
