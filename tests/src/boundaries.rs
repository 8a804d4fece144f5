//! `boundaries`: what document 01 has "run and compared", each call with its known answer.

use crate::call::Difference;
use crate::changed;
use crate::indexed;
use crate::known::{accepted, known, Known};
use crate::limits;
use crate::looked_up;
use crate::readings;
use crate::room;
use crate::statements::Node;
use crate::written;

const S: &str = "<x:s> <x:p> ";
const RFC_BASE: &str = "http://a/b/c/d;p?q";

/// RFC 3986, 5.4.1, and 5.4.2 with its strict answer to the last one.
const RFC_EXAMPLES: [(&str, &str); 42] = [
    ("g:h", "g:h"),
    ("g", "http://a/b/c/g"),
    ("./g", "http://a/b/c/g"),
    ("g/", "http://a/b/c/g/"),
    ("/g", "http://a/g"),
    ("//g", "http://g"),
    ("?y", "http://a/b/c/d;p?y"),
    ("g?y", "http://a/b/c/g?y"),
    ("#s", "http://a/b/c/d;p?q#s"),
    ("g#s", "http://a/b/c/g#s"),
    ("g?y#s", "http://a/b/c/g?y#s"),
    (";x", "http://a/b/c/;x"),
    ("g;x", "http://a/b/c/g;x"),
    ("g;x?y#s", "http://a/b/c/g;x?y#s"),
    ("", "http://a/b/c/d;p?q"),
    (".", "http://a/b/c/"),
    ("./", "http://a/b/c/"),
    ("..", "http://a/b/"),
    ("../", "http://a/b/"),
    ("../g", "http://a/b/g"),
    ("../..", "http://a/"),
    ("../../", "http://a/"),
    ("../../g", "http://a/g"),
    ("../../../g", "http://a/g"),
    ("../../../../g", "http://a/g"),
    ("/./g", "http://a/g"),
    ("/../g", "http://a/g"),
    ("g.", "http://a/b/c/g."),
    (".g", "http://a/b/c/.g"),
    ("g..", "http://a/b/c/g.."),
    ("..g", "http://a/b/c/..g"),
    ("./../g", "http://a/b/g"),
    ("./g/.", "http://a/b/c/g/"),
    ("g/./h", "http://a/b/c/g/h"),
    ("g/../h", "http://a/b/c/h"),
    ("g;x=1/./y", "http://a/b/c/g;x=1/y"),
    ("g;x=1/../y", "http://a/b/c/y"),
    ("g?y/./x", "http://a/b/c/g?y/./x"),
    ("g?y/../x", "http://a/b/c/g?y/../x"),
    ("g#s/./x", "http://a/b/c/g#s/./x"),
    ("g#s/../x", "http://a/b/c/g#s/../x"),
    ("http:g", "http:g"),
];

/// Readings 5.1 to 5.7: base, reference, result.
const RESOLVED: [(&str, &str, &str); 20] = [
    ("x:y", "x:a/../b", "x:a/../b"),
    ("x:y", "1a:b", "x:1a:b"),
    ("x:y", ":b", "x::b"),
    ("x:y", "_:b", "x:_:b"),
    ("x:y", "a_b:c", "x:a_b:c"),
    ("x:y", "a\\u003Ab", "a:b"),
    ("x:y", "\\u0023f", "x:y#f"),
    ("x:/a/b", "\\u002E\\u002E", "x:/"),
    ("x:/a/../b#f", "", "x:/a/../b"),
    ("x:/a/../b#f", "c", "x:/c"),
    ("x:y", "g", "x:g"),
    ("x:y/z", "..", "x:/"),
    ("x:y/z", "../g", "x:/g"),
    ("http://h", "g", "http://h/g"),
    ("x:", "g", "x:g"),
    ("x:/a", "/.//b", "x://b"),
    ("x:/a", "?", "x:/a?"),
    ("x:/a", "#", "x:/a#"),
    ("x:/a", "//", "x://"),
    ("x:/a/b", "..//c", "x://c"),
];

fn object_iri(base: &str, reference: &str, result: &str) -> Known {
    accepted(format!("<{reference}> against {base}"), format!("{S}<{reference}> .")).base(base.as_bytes()).object(Node::Iri(result.into()))
}

/// In both modes.
fn rfc_3986() -> Vec<Known> {
    RFC_EXAMPLES.iter().flat_map(|(reference, result)| [0, 1].map(|mode| object_iri(RFC_BASE, reference, result).mode(mode))).collect()
}

fn resolved() -> Vec<Known> {
    RESOLVED.iter().map(|(base, reference, result)| object_iri(base, reference, result)).collect()
}

/// "Bench cases", line by line.
fn bench() -> Vec<Known> {
    let number = |text: &str, datatype: &str| Node::Literal {
        text: text.into(),
        datatype: format!("http://www.w3.org/2001/XMLSchema#{datatype}").into_bytes(),
    };
    vec![
        accepted("empty", "").rows(0).terms(0).store(0),
        accepted("S 1.", format!("{S}1.")).object(number("1", "integer")),
        accepted("S 1.e0.", format!("{S}1.e0.")).object(number("1.e0", "double")),
        known("S 1", format!("{S}1"), 8, 13),
        accepted("{ S 1 }", format!("{{ {S}1 }}")).object(number("1", "integer")),
        known("{ S 1 } in mode 1", format!("{{ {S}1 }}"), 8, 0).mode(1),
        known("(1) .", "(1) .", 8, 4),
        known("S \"Z\"@base .", format!("{S}\"Z\"@base ."), 8, 15),
        known("S true.ex:t .", format!("{S}true.ex:t ."), 9, 12),
        known("PREFIX: <x:n#>", "PREFIX: <x:n#>", 9, 0),
        known("S <g> .", format!("{S}<g> ."), 10, 12),
        known("S \"\\uD800\" .", format!("{S}\"\\uD800\" ."), 7, 12),
        accepted("S \"\\uD7FF\" .", format!("{S}\"\\uD7FF\" .")).object(number("\u{d7ff}", "string")),
        known("S 1, 2 . with room for one row", format!("{S}1, 2 ."), 14, 15).rows(5),
    ]
}

/// True where every call has its known answer.
pub fn run() -> bool {
    let groups = [
        ("bench table of 01", bench()),
        ("limits", limits::all()),
        ("longer work slices", limits::work_lengths()),
        ("room, cut behind each token", room::exact()),
        ("room, every size", room::every()),
        ("RFC 3986, 5.4", rfc_3986()),
        ("resolution, readings 5", resolved()),
        ("example lines of the readings", readings::all()),
    ];
    let made_by_hand = [
        ("writer, 18 and what passes", written::changes()),
        ("writer, every length of output", written::lengths()),
        ("writer, characters", written::shown()),
        ("term texts", written::texts()),
        ("index, 18 and what passes", indexed::changes()),
        ("index, records", indexed::records()),
        ("index, every length", indexed::lengths()),
        ("index, every bit changed", indexed::bits()),
        ("look-up, the readings' examples", looked_up::examples()),
        ("look-up, every cut", looked_up::cuts()),
        ("look-up, each reason for 23", looked_up::refused()),
        ("look-up, order of texts", looked_up::order()),
        ("look-up, lengths of texts", looked_up::lengths()),
        ("look-up, numbers of a record", looked_up::numbers()),
        ("changes, the readings' examples", changed::examples()),
        ("changes, 18 on either side", changed::refused()),
        ("changes, values told apart", changed::values_apart()),
        ("changes, places told apart", changed::places_apart()),
        ("changes, pairings and 25", changed::pairings()),
        ("changes, every length", changed::lengths()),
        ("changes, many rows", changed::many_rows()),
    ];
    let checked = groups.map(|(group, calls)| (group, calls.iter().map(check).collect()));
    let mut all_good = true;
    println!("{:32} {:>6} {:>6}", "group", "calls", "wrong");
    for (group, results) in checked.into_iter().chain(made_by_hand) {
        let wrong: Vec<&Difference> = results.iter().filter_map(|result| result.as_ref().err()).collect();
        for difference in &wrong {
            println!("WRONG {group}\n{difference}");
        }
        println!("{group:32} {:>6} {:>6}", results.len(), wrong.len());
        all_good &= wrong.is_empty();
    }
    all_good
}

/// A call and what it is, where its answer is another.
fn check(known: &Known) -> Result<(), Difference> {
    known.check().map_err(|difference| {
        let start = &known.subject.document[..known.subject.document.len().min(400)];
        Difference { call: format!("{}: {}, document \"{}\"", known.name, difference.call, start.escape_ascii()), ..difference }
    })
}
