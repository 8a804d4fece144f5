//! `index`: the index beside the file and its check (C-16), of random tables and of the cases.

use crate::call::{Difference, Guarded, MOST_DIFFERENCES};
use crate::cases::{hinges_on_c_15, tables, word};
use crate::examine::{self, Shown};
use crate::json;
use crate::library::{self, Checked, Written};
use crate::made::usable_at_random;
use crate::random::Random;
use crate::reader::index;
use crate::reader::long_form::Given;

/// What stands in an output before the call, and around it.
const PATTERN: &[u8] = b"pattern";

/// Writes the index by both into an output of some length, and gives the answer they agree on with the bytes written.
pub fn write(given: &Given, length: usize) -> Result<(Written, Vec<u8>), Difference> {
    let mut theirs = Guarded::new(length, PATTERN);
    let mut ours = theirs.clone();
    let wanted = Written::of(index::write(given, ours.lent()));
    let written = library::write_index(given, theirs.lent());
    let differs = |library: String| Difference { call: format!("write the index into {length} bytes"), library, wanted: format!("{wanted:?}") };
    if written != wanted {
        return Err(differs(format!("{written:?}")));
    }
    match theirs.difference(&ours) {
        Some(place) => Err(differs(format!("{written:?}, but bytes differ at {place}"))),
        None => Ok((written, ours.lent()[..written.position as usize].to_vec())),
    }
}

/// Checks bytes by both, and gives the answer they agree on.
pub fn check(given: &Given, bytes: &[u8]) -> Result<Checked, Difference> {
    let wanted = Checked::of(index::check(given, bytes));
    let checked = library::check_index(given, bytes);
    if checked == wanted {
        Ok(checked)
    } else {
        let call = format!("check the index \"{}\"", bytes.escape_ascii());
        Err(Difference { call, library: format!("{checked:?}"), wanted: format!("{wanted:?}") })
    }
}

/// The records of an index: twelve bytes each, and the text.
pub fn records(mut index: &[u8]) -> Vec<&[u8]> {
    let mut records = Vec::new();
    while let [_, _, low, high, ..] = *index {
        let (record, rest) = index.split_at(12 + usize::from(u16::from_le_bytes([low, high])));
        records.push(record);
        index = rest;
    }
    records
}

pub fn any_bytes(random: &mut Random) -> Vec<u8> {
    (0..random.below(40)).map(|_| random.next() as u8).collect()
}

/// The index with one bit changed, or none where it is empty.
pub fn with_bit_changed(index: &[u8], random: &mut Random) -> Option<Vec<u8>> {
    if index.is_empty() {
        return None;
    }
    let mut changed = index.to_vec();
    changed[random.below(index.len())] ^= 1 << random.below(8);
    Some(changed)
}

/// The index with two records in each other's place, or none where it has fewer.
pub fn with_two_swapped(records: &[&[u8]], random: &mut Random) -> Option<Vec<u8>> {
    if records.len() < 2 {
        return None;
    }
    let first = random.below(records.len() - 1);
    let second = first + 1 + random.below(records.len() - 1 - first);
    let mut swapped = records.to_vec();
    swapped.swap(first, second);
    Some(swapped.concat())
}

/// Bytes that are not the index, unless it is empty: some of it, more than it, some of it changed or in another order, and any bytes.
fn others(index: &[u8], random: &mut Random) -> Vec<Vec<u8>> {
    let any = any_bytes(random);
    let mut others = vec![Vec::new(), [index, &[random.next() as u8]].concat(), [b"GX", &any[..]].concat(), any];
    others.extend(index.split_last().map(|(_, less)| less.to_vec()));
    others.extend(with_bit_changed(index, random));
    others.extend(with_two_swapped(&records(index), random));
    others
}

/// What was compared.
#[derive(Default)]
struct Tally {
    tables: u64,
    usable: u64,
    /// Calls by their answer; 18 is the builder's and the check's.
    refused_18: u64,
    refused_22: u64,
    written: u64,
    yes: u64,
    no: u64,
}

impl Tally {
    fn write(&mut self, given: &Given, length: usize) -> Result<(), Difference> {
        match write(given, length)?.0.number {
            0 => self.written += 1,
            18 => self.refused_18 += 1,
            _ => self.refused_22 += 1,
        }
        Ok(())
    }

    fn check(&mut self, given: &Given, bytes: &[u8]) -> Result<Checked, Difference> {
        let checked = check(given, bytes)?;
        match (checked.number, checked.yes) {
            (0, 0) => self.no += 1,
            (0, _) => self.yes += 1,
            _ => self.refused_18 += 1,
        }
        Ok(checked)
    }
}

/// One set of tables; where they are not usable, with the index of those they were made of.
fn look(given: &Given, before: Vec<u8>, random: &mut Random, tally: &mut Tally) -> Result<(), Difference> {
    tally.tables += 1;
    let index = index::index(given);
    let right = Checked::of(if index.is_some() { (0, true) } else { (18, false) });
    tally.usable += u64::from(index.is_some());
    let index = index.unwrap_or(before);
    for length in [0, index.len().saturating_sub(1), index.len(), index.len() + 1 + random.below(20)] {
        tally.write(given, length)?;
    }
    let checked = tally.check(given, &index)?;
    if checked != right {
        return Err(Difference { call: "check the index itself".into(), library: format!("{checked:?}"), wanted: format!("{right:?}") });
    }
    for bytes in others(&index, random) {
        tally.check(given, &bytes)?;
    }
    Ok(())
}

/// Random tables, one in three damaged; true where none makes a difference.
pub fn run(seed: u64, count: u64) -> bool {
    println!("seed {seed}, {count} tables");
    let (mut random, mut tally, mut differences) = (Random(seed), Tally::default(), 0);
    while tally.tables < count && differences < MOST_DIFFERENCES {
        let mut given = usable_at_random(&mut random);
        let before = index::index(&given).expect("tables read, or made here, are usable");
        if random.once_in(3) {
            examine::damage(&mut random, &mut given);
        }
        if let Err(difference) = look(&given, before, &mut random, &mut tally) {
            differences += 1;
            println!("DIFFERENCE\n  tables:  {:?}\n{difference}", Shown(&given));
        }
    }
    let Tally { tables, usable, refused_18, refused_22, written, yes, no } = tally;
    println!("tables       {tables} ({usable} usable)");
    let calls = written + refused_22 + yes + no + refused_18;
    println!("calls        {calls} (written: {written}, 22: {refused_22}, yes: {yes}, no: {no}, 18: {refused_18})");
    println!("differences  {differences}");
    differences == 0 && tables >= count
}

/// A call with its answer: the number, and the position or the check's word.
enum Call {
    Write { length: usize, answer: (u32, usize), out: Vec<u8> },
    Check { index: Vec<u8>, answer: (u32, bool) },
}

struct Case {
    name: String,
    given: Given,
    call: Call,
}

impl Case {
    fn parse(line: &str) -> Result<Self, String> {
        let value = json::parse(line)?;
        let given = tables(value.field("tables")?)?;
        let answer = value.field("answer")?;
        let number = word(answer.field("code")?)?;
        let call = match value.field("call")?.string()? {
            "write-index" => Call::Write {
                length: value.field("out")?.number()?,
                answer: (number, answer.field("position")?.number()?),
                out: answer.field("out")?.bytes()?,
            },
            "check-index" => Call::Check { index: value.field("index")?.bytes()?, answer: (number, answer.field("yes")?.boolean()?) },
            other => return Err(format!("no call {other}")),
        };
        Ok(Case { name: value.field("name")?.string()?.to_string(), given, call })
    }

    /// Does the independent builder do what the file says, and leave the rest of the output as it was?
    fn is_answer(&self) -> bool {
        match &self.call {
            Call::Write { length, answer, out } => {
                let mut ours = Guarded::new(*length, PATTERN);
                let mut wanted = ours.clone();
                wanted.lent()[..out.len()].copy_from_slice(out);
                index::write(&self.given, ours.lent()) == *answer && ours == wanted
            }
            Call::Check { index, answer } => index::check(&self.given, index) == *answer,
        }
    }

    fn compare(&self) -> Result<(), Difference> {
        match &self.call {
            Call::Write { length, .. } => write(&self.given, *length).map(drop),
            Call::Check { index, .. } => check(&self.given, index).map(drop),
        }
    }
}

/// The calls of C-16.jsonl; true where all agree.
pub fn run_cases(path: &str) -> Result<bool, String> {
    let text = std::fs::read_to_string(path).map_err(|e| format!("{path}: {e}"))?;
    let (mut count, mut set_aside, mut builder_faults, mut library_faults) = (0, 0, 0, 0);
    for line in text.lines() {
        let case = Case::parse(line)?;
        count += 1;
        if hinges_on_c_15(&case.given) {
            set_aside += 1;
        } else if !case.is_answer() {
            builder_faults += 1;
            println!("{}: the independent builder differs\n  tables:  {:?}", case.name, Shown(&case.given));
        }
        if let Err(difference) = case.compare() {
            library_faults += 1;
            println!("{}\n  tables:  {:?}\n{difference}", case.name, Shown(&case.given));
        }
    }
    println!("cases                                   {count}");
    println!("not compared with the file before C-15  {set_aside}");
    println!("the independent builder differs         {builder_faults}");
    println!("the library differs from the builder    {library_faults}");
    Ok(builder_faults + library_faults == 0)
}
