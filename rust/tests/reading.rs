use sycamoot::{look_up, Changes, Dataset, Mode, Refusal, Room, Rows, Term};

const ROOM: Room = Room { rows: 100, terms: 100, store: 10_000 };

fn read(document: &str) -> Result<Dataset, Refusal> {
    Dataset::read(document.as_bytes(), b"", Mode::TriG, ROOM)
}

#[test]
fn names_are_read_under_the_latest_directive() {
    let d = read("@prefix m: <x:m#> . m:41 m:stop \"open\" . @prefix m: <x:n#> . m:41 { m:41 m:side \"links\"@de }").unwrap();
    let quads: Vec<_> = d.quads().collect();
    assert_eq!(quads.len(), 2);
    assert_eq!(quads[0].graph, None);
    assert_eq!(quads[0].subject, Term::Iri("x:m#41"));
    assert_eq!(quads[0].object, Term::Literal { text: "open", datatype: "http://www.w3.org/2001/XMLSchema#string" });
    assert_eq!(quads[1].graph, Some(Term::Iri("x:n#41")));
    assert_eq!(quads[1].object, Term::Tagged { text: "links", tag: "de" });
}

#[test]
fn a_refusal_says_its_number_and_place() {
    let r = read("<x:s> <x:p> 1").err().unwrap();
    assert_eq!(r, Refusal { number: 8, position: 13 });
    assert_eq!(r.to_string(), "refused 8 at 13: the grammar allows no such token here");
}

#[test]
fn turtle_has_no_braces() {
    let r = Dataset::read(b"{ <x:s> <x:p> 1 }", b"", Mode::Turtle, ROOM).err().unwrap();
    assert_eq!(r, Refusal { number: 8, position: 0 });
}

#[test]
fn the_long_form_is_read_again() {
    let d = read("_:a <x:p> [ <x:q> ( 1 _:a ) ] .").unwrap();
    let long = d.long_form(10_000).unwrap();
    let again = read(&long).unwrap();
    assert_eq!(again.len(), d.len());
    assert_eq!(again.long_form(10_000).unwrap(), long);
    assert_eq!(d.long_form(long.len() - 1).err(), Some(Refusal { number: 17, position: 0 }));
}

#[test]
fn the_index_has_a_record_for_each_subject() {
    let d = read("<x:b> <x:p> 1, 1 . <x:a> <x:p> 1 . _:a <x:p> 2 . <x:g> { <x:b> <x:p> 1 }").unwrap();
    let index = d.index(1000).unwrap();
    assert_eq!(index, [&b"GX\x03\0\x01\0\0\0\x02\0\0\0x:a"[..], b"GX\x03\0\x03\0\0\0\0\0\0\0x:b"].concat());
    assert!(d.is_index(&index));
    assert!(!d.is_index(&index[..index.len() - 1]));
    assert_eq!(d.index(index.len() - 1).err(), Some(Refusal { number: 22, position: 0 }));
}

#[test]
fn a_subject_is_looked_up_in_the_index_alone() {
    let index = read("<x:b> <x:p> 1, 1 . <x:a> <x:p> 1 . _:a <x:p> 2 . <x:g> { <x:b> <x:p> 1 }").unwrap().index(1000).unwrap();
    assert_eq!(look_up(b"x:a", &index), Ok(Rows { count: 1, first: 2 }));
    assert_eq!(look_up(b"x:b", &index), Ok(Rows { count: 3, first: 0 }));
    assert_eq!(look_up(b"x:g", &index), Ok(Rows { count: 0, first: 0 }));
    let cut = &index[..index.len() - 1];
    assert_eq!(look_up(b"x:a", cut), Ok(Rows { count: 1, first: 2 }));
    let r = look_up(b"x:b", cut).err().unwrap();
    assert_eq!(r, Refusal { number: 23, position: 0 });
    assert_eq!(r.to_string(), "refused 23 at 0: a record of the index lacks its mark, is cut short, has a length over 1,024 or does not rise");
}

/// What changed, by both calls.
fn changes(left: &Dataset, right: &Dataset, pairing: &[[u32; 2]]) -> Result<Changes, Refusal> {
    let changes = left.compare(right, pairing);
    assert_eq!(left.compare_indexed(right, pairing), changes);
    changes
}

#[test]
fn a_statement_of_one_edition_is_listed_by_its_first_row() {
    let left = read("<x:s> <x:p> 1, 2, 2, 3 . <x:g> { <x:s> <x:p> 1 }").unwrap();
    let right = read("<x:g> { <x:s> <x:p> 1 } <x:s> <x:p> \"2\"@en, 3, \"2\"@en, 1 .").unwrap();
    assert_eq!(changes(&left, &right, &[]), Ok(Changes { same: false, left: vec![1], right: vec![1] }));
    assert_eq!(changes(&left, &left, &[]), Ok(Changes { same: true, left: vec![], right: vec![] }));
    assert_eq!(left.long_form_of(&[1], 100).unwrap(), "<x:s> <x:p> \"2\"^^<http://www.w3.org/2001/XMLSchema#integer> .\n");
    assert_eq!(right.long_form_of(&[1, 0], 10), Err(Refusal { number: 17, position: 0 }));
}

#[test]
fn blank_nodes_are_the_same_by_the_pairing_alone() {
    let left = read("_:a <x:p> _:b . [] <x:p> 1 .").unwrap();
    let right = read("_:c <x:p> 1 . _:b <x:q> _:a . _:a <x:p> _:b .").unwrap();
    assert_eq!(left.pair_labels(&right), [[0, 2], [1, 1]]);
    assert_eq!(changes(&left, &right, &left.pair_labels(&right)).unwrap().left, [1]);
    assert_eq!(changes(&left, &right, &[[0, 2], [1, 1], [2, 0]]).unwrap().left, []);
    assert_eq!(changes(&left, &right, &[[0, 2], [1, 1], [2, 0]]).unwrap().right, [1]);
    assert_eq!(changes(&left, &right, &[]).unwrap().right, [0, 1, 2]);
    let r = changes(&left, &right, &[[0, 2], [1, 2]]).err().unwrap();
    assert_eq!(r, Refusal { number: 25, position: 0 });
    assert_eq!(r.to_string(), "refused 25 at 0: the pairing has an odd word, or a blank number that is missing or paired twice");
    assert_eq!(changes(&left, &right, &[[3, 0]]), Err(Refusal { number: 25, position: 0 }));
}

#[test]
fn tables_grow_with_what_a_document_fills() {
    let rows = format!("<x:s> <x:p> 1{} .", ", 1".repeat(3000));
    let terms = (0..3000).map(|n| format!("_:{n:x} a 1 . ")).collect::<String>();
    let store = format!("@base <x:/{}/> . {}", "a".repeat(1000), (0..100).map(|n| format!("<{n}> a 1 . ")).collect::<String>());
    for (document, count) in [(rows, 3001), (terms, 3000), (store, 100), (String::new(), 0)] {
        assert_eq!(Dataset::read_growing(document.as_bytes(), b"", Mode::Turtle).unwrap().len(), count);
    }
    let too_long = vec![b' '; sycamoot::DOCUMENT_BYTES + 1];
    assert_eq!(Dataset::read_growing(&too_long, b"", Mode::TriG).err(), Some(Refusal { number: 1, position: 0 }));
}
