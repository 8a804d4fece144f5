//! `look-up`: the look-up in an index (C-17), in those of random tables, in the same damaged, and the cases.

use crate::call::{Difference, MOST_DIFFERENCES};
use crate::cases::word;
use crate::examine::Shown;
use crate::index::{any_bytes, records, with_bit_changed, with_two_swapped};
use crate::json;
use crate::library::{self, Found};
use crate::made::{iri_text, usable_at_random};
use crate::random::Random;
use crate::reader::index::{self, Rows};
use crate::reader::iri::LONGEST;
use crate::reader::long_form::{Checked, Given};
use crate::reader::look_up;
use std::collections::BTreeSet;

/// What was found, where that is what is wanted.
pub fn expect(address: &[u8], index: &[u8], found: Found, wanted: Found) -> Result<Found, Difference> {
    if found == wanted {
        Ok(found)
    } else {
        let call = format!("look \"{}\" up in \"{}\"", address.escape_ascii(), index.escape_ascii());
        Err(Difference { call, library: format!("{found:?}"), wanted: format!("{wanted:?}") })
    }
}

/// Looks an address up by both, and gives the answer they agree on.
pub fn look_up(address: &[u8], index: &[u8]) -> Result<Found, Difference> {
    expect(address, index, library::look_up(address, index), Found::of(look_up::look_up(address, index)))
}

/// The answer of a walk over all rows, whose subjects are given; only an IRI has a text here.
fn walk(subjects: &[Option<&[u8]>], address: &[u8]) -> Found {
    let mut rows = (0..).zip(subjects).filter(|(_, subject)| **subject == Some(address)).map(|(row, _)| row);
    let first = rows.next();
    Found { number: 0, rows: first.map_or(0, |_| 1 + rows.count() as u32), first: first.unwrap_or(0) }
}

/// Texts beside one: a byte less, a byte more, and its last byte one down or up.
fn beside(text: &[u8]) -> Vec<Vec<u8>> {
    let (last, less) = text.split_last().expect("an IRI has a scheme");
    vec![
        less.to_vec(),
        [text, b"\0"].concat(),
        [text, b"\xff"].concat(),
        [less, &[last.wrapping_sub(1)]].concat(),
        [less, &[last.wrapping_add(1)]].concat(),
    ]
}

/// A text made longer, so that it goes right behind what it was; or cut.
fn resized(text: &[u8], length: usize) -> Vec<u8> {
    let mut resized = text.to_vec();
    resized.resize(length, 0);
    resized
}

/// Before and behind all, at random, and for each IRI of the tables, subject or not: itself, beside it, as long as an IRI may be, and over.
fn addresses(iris: BTreeSet<&[u8]>, random: &mut Random) -> Vec<Vec<u8>> {
    let mut addresses = vec![Vec::new(), b"\xff".to_vec(), iri_text(random).into_bytes(), any_bytes(random)];
    for text in iris {
        addresses.extend([text.to_vec(), resized(text, LONGEST), resized(text, LONGEST + 1)]);
        addresses.extend(beside(text));
    }
    addresses
}

/// A record with any numbers.
fn record(text: &[u8], random: &mut Random) -> Vec<u8> {
    index::record(text, &Rows { count: random.next() as u32, first: random.next() as u32 })
}

/// A record's text.
fn text(record: &[u8]) -> &[u8] {
    &record[12..]
}

/// The index with one record changed, or none where it is empty.
fn with_one(records: &[&[u8]], random: &mut Random, change: impl Fn(&[u8], &mut Random) -> Vec<u8>) -> Option<Vec<u8>> {
    if records.is_empty() {
        return None;
    }
    let place = random.below(records.len());
    let changed = change(records[place], random);
    Some([records[..place].concat(), changed, records[place + 1..].concat()].concat())
}

fn with_other_mark(record: &[u8], random: &mut Random) -> Vec<u8> {
    let mut other = record.to_vec();
    other[random.below(2)] ^= 1 + random.below(255) as u8;
    other
}

/// The index with one text of another length.
fn with_text_of(records: &[&[u8]], random: &mut Random, length: usize) -> Option<Vec<u8>> {
    with_one(records, random, |old, random| record(&resized(text(old), length), random))
}

/// Records of texts beside those of the index, in order once in two times.
fn with_other_texts(records: &[&[u8]], random: &mut Random) -> Vec<u8> {
    let mut texts: Vec<Vec<u8>> = records.iter().flat_map(|record| beside(text(record))).filter(|_| random.once_in(2)).collect();
    if random.once_in(2) {
        texts.sort();
        texts.dedup();
    }
    texts.iter().flat_map(|text| record(text, random)).collect()
}

/// Bytes of which many are a mark's, or make small numbers.
const PARTS: &[&[u8]] = &[b"GX", b"GX", b"G", b"X", b"\0", b"\0", b"\0\0\0\0", b"\x01", b"\x02", b"\x04", b"x:", b"\xff"];

/// What is done to the records of an index; none where it has too few for that.
type Damage = fn(&[&[u8]], &mut Random) -> Option<Vec<u8>>;

const DAMAGES: [(&str, Damage); 14] = [
    ("nothing", |records, _| Some(records.concat())),
    ("a bit changed", |records, random| with_bit_changed(&records.concat(), random)),
    ("cut", |records, random| {
        let index = records.concat();
        (!index.is_empty()).then(|| index[..random.below(index.len())].to_vec())
    }),
    ("two records swapped", with_two_swapped),
    ("a record repeated", |records, random| with_one(records, random, |record, _| record.repeat(2))),
    ("junk behind", |records, random| Some([records.concat(), any_bytes(random)].concat())),
    ("another mark", |records, random| with_one(records, random, with_other_mark)),
    ("an empty text", |records, random| with_text_of(records, random, 0)),
    ("a text of the limit", |records, random| with_text_of(records, random, LONGEST)),
    ("a byte over the limit", |records, random| with_text_of(records, random, LONGEST + 1)),
    ("any length over it", |records, random| {
        let length = LONGEST + 1 + random.below(usize::from(u16::MAX) - LONGEST);
        with_text_of(records, random, length)
    }),
    ("other texts", |records, random| Some(with_other_texts(records, random))),
    ("parts of records", |_, random| Some((0..random.below(30)).flat_map(|_| random.pick(PARTS).to_vec()).collect())),
    ("any bytes", |_, random| Some(any_bytes(random))),
];

/// What was compared, by damage.
#[derive(Default)]
struct Tally {
    indexes: u64,
    found: u64,
    absent: u64,
    refused: u64,
}

impl Tally {
    fn look_up(&mut self, address: &[u8], index: &[u8]) -> Result<Found, Difference> {
        let found = look_up(address, index)?;
        match found {
            Found { number: 0, rows: 0, first: 0 } => self.absent += 1,
            Found { number: 0, .. } => self.found += 1,
            _ => self.refused += 1,
        }
        Ok(found)
    }
}

/// The index of one set of tables, whole and with each damage, and every address in each.
fn look(given: &Given, random: &mut Random, tallies: &mut [Tally]) -> Result<(), Difference> {
    let (tables, rows) = Checked::usable(given).expect("tables read, or made at random, are usable");
    let subjects: Vec<Option<&[u8]>> = rows.map(|row| tables.iri(row[1])).collect();
    let addresses = addresses((1..=given.term_count).filter_map(|number| tables.iri(number)).collect(), random);
    let whole = index::index(given).expect("the tables are usable");
    let records = records(&whole);
    for ((_, damage), tally) in DAMAGES.iter().zip(tallies) {
        let Some(index) = damage(&records, random) else { continue };
        tally.indexes += 1;
        for address in &addresses {
            let found = tally.look_up(address, &index)?;
            if index == whole {
                expect(address, &index, found, walk(&subjects, address))?;
            }
        }
    }
    Ok(())
}

/// Indexes of random tables; true where none makes a difference.
pub fn run(seed: u64, count: u64) -> bool {
    println!("seed {seed}, {count} indexes");
    let (mut random, mut tallies, mut differences) = (Random(seed), DAMAGES.map(|_| Tally::default()), 0);
    while tallies[0].indexes < count && differences < MOST_DIFFERENCES {
        let given = usable_at_random(&mut random);
        if let Err(difference) = look(&given, &mut random, &mut tallies) {
            differences += 1;
            println!("DIFFERENCE\n  tables:  {:?}\n{difference}", Shown(&given));
        }
    }
    println!("{:22} {:>9} {:>9} {:>9} {:>9}", "damage", "indexes", "found", "absent", "23");
    let mut calls = 0;
    for ((damage, _), Tally { indexes, found, absent, refused }) in DAMAGES.iter().zip(&tallies) {
        println!("{damage:22} {indexes:>9} {found:>9} {absent:>9} {refused:>9}");
        calls += found + absent + refused;
    }
    println!("calls        {calls}");
    println!("differences  {differences}");
    differences == 0 && tallies[0].indexes >= count
}

struct Case {
    name: String,
    address: Vec<u8>,
    index: Vec<u8>,
    answer: Found,
}

impl Case {
    fn parse(line: &str) -> Result<Self, String> {
        let value = json::parse(line)?;
        let answer = value.field("answer")?;
        Ok(Case {
            name: value.field("name")?.string()?.to_string(),
            address: value.field("address")?.bytes()?,
            index: value.field("index")?.bytes()?,
            answer: Found { number: word(answer.field("code")?)?, rows: word(answer.field("rows")?)?, first: word(answer.field("first")?)? },
        })
    }
}

/// The calls of C-17.jsonl; true where all agree.
pub fn run_cases(path: &str) -> Result<bool, String> {
    let text = std::fs::read_to_string(path).map_err(|e| format!("{path}: {e}"))?;
    let (mut count, mut reader_faults, mut library_faults) = (0, 0, 0);
    for line in text.lines() {
        let Case { name, address, index, answer } = Case::parse(line)?;
        count += 1;
        let found = Found::of(look_up::look_up(&address, &index));
        if found != answer {
            reader_faults += 1;
            println!("{name}: the independent look-up differs: {found:?}, not {answer:?}");
        }
        if let Err(difference) = look_up(&address, &index) {
            library_faults += 1;
            println!("{name}\n{difference}");
        }
    }
    println!("cases                                   {count}");
    println!("the independent look-up differs         {reader_faults}");
    println!("the library differs from it             {library_faults}");
    Ok(reader_faults + library_faults == 0)
}
