//! `changes`: two editions of a file compared (C-21), with and without an index: random ones, and the cases.

use crate::call::{Difference, Guarded, MOST_DIFFERENCES};
use crate::cases::{hinges_on_c_15, tables, word, words};
use crate::editions::{self, blank_numbers, shuffle, Editions};
use crate::examine::{self, Shown};
use crate::json::{self, Value as Json};
use crate::library::{self, Compared};
use crate::random::Random;
use crate::reader::changes::{self, Statement, Value};
use crate::reader::long_form::Given;
use std::collections::BTreeSet;

/// How many words of each list and of the index are lent.
#[derive(Clone, Copy, Debug)]
pub struct Room {
    pub left: usize,
    pub right: usize,
    pub index: usize,
}

/// An answer, with what was listed of the left and of the right.
#[derive(Clone, PartialEq, Eq, Debug)]
pub struct Listed {
    pub answer: Compared,
    pub left: Vec<u32>,
    pub right: Vec<u32>,
}

#[derive(Clone)]
struct Memory {
    left: Guarded<u32>,
    right: Guarded<u32>,
    index: Guarded<u32>,
}

impl Memory {
    fn difference(&self, other: &Self) -> Option<String> {
        let tell = |slice: &str, place: Option<isize>| place.map(|at| format!("the {slice} differs at {at}"));
        tell("left list", self.left.difference(&other.left))
            .or_else(|| tell("right list", self.right.difference(&other.right)))
            .or_else(|| tell("index", self.index.difference(&other.index)))
    }
}

/// Compares by both calls and by the independent comparison, and gives the answer they agree on. All that is lent is looked at.
pub fn compare(left: &Given, right: &Given, pairing: &[u32], room: Room, random: &mut Random) -> Result<Listed, Difference> {
    let pattern: Vec<u32> = (0..61).map(|_| random.next() as u32).collect();
    let lists = |length: usize| Guarded::new(length, &pattern);
    // an index may hold anything: words like any others, like row numbers, or zeros
    let bound = *random.pick(&[u32::MAX, 20, 1]);
    let in_index: Vec<u32> = pattern.iter().map(|word| word % bound).collect();
    let before = Memory { left: lists(room.left), right: lists(room.right), index: Guarded::new(room.index, &in_index) };
    let mut wanted = before.clone();
    let answer = Compared::of(changes::compare(left, right, pairing, wanted.left.lent(), wanted.right.lent()));

    let given = (left.clone(), right.clone(), pairing.to_vec());
    let agree = |call: &str, theirs: Compared, memory: &Memory, wanted: &Memory| {
        let fault = match memory.difference(wanted) {
            _ if theirs != answer => String::new(),
            Some(place) => format!(", but {place}"),
            None if (left, right, pairing) != (&given.0, &given.1, &given.2[..]) => ", but what was given is changed".into(),
            None => return Ok(()),
        };
        let call = format!("{call}, pairing {pairing:?}, lent {room:?}");
        Err(Difference { call, library: format!("{theirs:?}{fault}"), wanted: format!("{answer:?}") })
    };
    let mut memory = before.clone();
    let theirs = library::compare(left, right, pairing, memory.left.lent(), memory.right.lent());
    agree("compare", theirs, &memory, &wanted)?;

    let mut memory = before;
    let theirs = library::compare_indexed(left, right, pairing, memory.left.lent(), memory.right.lent(), memory.index.lent());
    wanted.index.lent().fill(0);
    agree("compare with an index", theirs, &memory, &wanted)?;
    Ok(Listed { answer, left: wanted.left.lent()[..answer.left as usize].to_vec(), right: wanted.right.lent()[..answer.right as usize].to_vec() })
}

/// Are both the same, or a pair?
fn alike(left: Value, right: Value, pairing: &[u32]) -> bool {
    match (left, right) {
        (Value::Blank(left), Value::Blank(right)) => pairing.chunks_exact(2).any(|pair| pair == [left, right]),
        _ => left == right,
    }
}

fn carries(left: &Statement, right: &Statement, pairing: &[u32]) -> bool {
    left.iter().zip(right).all(|(left, right)| alike(*left, *right, pairing))
}

/// The lists by a walk over all rows for each.
fn walk(left: &[Statement], right: &[Statement], pairing: &[u32]) -> [Vec<u32>; 2] {
    let is_first = |statements: &[Statement], row: usize| !statements[..row].contains(&statements[row]);
    let only_left = |&row: &usize| is_first(left, row) && !right.iter().any(|other| carries(&left[row], other, pairing));
    let only_right = |&row: &usize| is_first(right, row) && !left.iter().any(|other| carries(other, &right[row], pairing));
    let numbers = |rows: Vec<usize>| rows.into_iter().map(|row| row as u32).collect();
    [numbers((0..left.len()).filter(only_left).collect()), numbers((0..right.len()).filter(only_right).collect())]
}

/// A blank number that a side does not have.
fn missing(given: &Given, random: &mut Random) -> u32 {
    let there = blank_numbers(given);
    loop {
        let number = if random.once_in(2) { random.below(there.len() + 2) as u32 } else { random.next() as u32 };
        if !there.contains(&number) {
            return number;
        }
    }
}

/// A blank number of a side, or any where it has none.
fn some_blank(given: &Given, random: &mut Random) -> u32 {
    let there: Vec<u32> = blank_numbers(given).into_iter().collect();
    if there.is_empty() {
        random.next() as u32
    } else {
        *random.pick(&there)
    }
}

/// The right pairs and one more among them.
fn with_pair(pairs: &[[u32; 2]], pair: [u32; 2], random: &mut Random) -> Vec<u32> {
    let mut more = pairs.to_vec();
    more.insert(random.below(pairs.len() + 1), pair);
    more.concat()
}

/// What is made of the right pairs, or none where there are too few for that.
type Pairing = fn(&Editions, &mut Random) -> Option<Vec<u32>>;

const PAIRINGS: [(&str, Pairing); 12] = [
    ("right", |editions, random| {
        let mut pairs = editions.pairs.clone();
        shuffle(&mut pairs, random);
        Some(pairs.concat())
    }),
    ("none", |_, _| Some(Vec::new())),
    ("some", |editions, random| Some(editions.pairs.iter().filter(|_| random.once_in(2)).flatten().copied().collect())),
    ("wrong", |editions, random| {
        let mut rights: Vec<u32> = editions.pairs.iter().map(|pair| pair[1]).collect();
        shuffle(&mut rights, random);
        (rights.len() > 1).then(|| editions.pairs.iter().zip(rights).flat_map(|(pair, right)| [pair[0], right]).collect())
    }),
    ("sides exchanged", |editions, _| Some(editions.pairs.iter().flat_map(|&[left, right]| [right, left]).collect())),
    ("an odd word", |editions, random| {
        let mut words = editions.pairs.concat();
        if words.is_empty() || random.once_in(2) {
            words.push(some_blank(&editions.left, random));
        } else {
            words.pop();
        }
        Some(words)
    }),
    ("a pair twice", |editions, random| {
        let pairs = &editions.pairs;
        (!pairs.is_empty()).then(|| with_pair(pairs, *random.pick(pairs), random))
    }),
    ("a left number twice", |editions, random| {
        let pairs = &editions.pairs;
        (!pairs.is_empty()).then(|| with_pair(pairs, [random.pick(pairs)[0], some_blank(&editions.right, random)], random))
    }),
    ("a right number twice", |editions, random| {
        let pairs = &editions.pairs;
        (!pairs.is_empty()).then(|| with_pair(pairs, [some_blank(&editions.left, random), random.pick(pairs)[1]], random))
    }),
    ("a left number missing", |editions, random| {
        Some(with_pair(&editions.pairs, [missing(&editions.left, random), some_blank(&editions.right, random)], random))
    }),
    ("a right number missing", |editions, random| {
        Some(with_pair(&editions.pairs, [some_blank(&editions.left, random), missing(&editions.right, random)], random))
    }),
    ("any words", |_, random| Some((0..random.below(7)).map(|_| random.below(4) as u32).collect())),
];

/// What was compared, by pairing.
#[derive(Clone, Copy, Default)]
struct Tally {
    calls: u64,
    accepted: u64,
    same: u64,
    refused_18: u64,
    refused_25: u64,
    refused_26: u64,
}

impl Tally {
    fn count(&mut self, answer: Compared) {
        self.calls += 1;
        self.same += u64::from(answer.same);
        match answer.number {
            0 => self.accepted += 1,
            18 => self.refused_18 += 1,
            25 => self.refused_25 += 1,
            _ => self.refused_26 += 1,
        }
    }
}

/// What was met in the editions, by their right pairing, and how long the indexes were.
#[derive(Default)]
struct Met {
    editions: u64,
    usable: u64,
    unchanged: u64,
    rows: u64,
    repeated: u64,
    in_both: u64,
    with_blanks_in_both: u64,
    listed: u64,
    paired: u64,
    short_indexes: u64,
    long_indexes: u64,
}

impl Met {
    fn count(&mut self, left: &[Statement], right: &[Statement], listed: &Listed) {
        let distinct: BTreeSet<&Statement> = left.iter().collect();
        let only_left: BTreeSet<&Statement> = listed.left.iter().map(|&row| &left[row as usize]).collect();
        let in_both = distinct.difference(&only_left);
        let is_blank = |value: &Value| matches!(value, Value::Blank(_));
        self.usable += 1;
        self.rows += (left.len() + right.len()) as u64;
        self.repeated += (left.len() - distinct.len() + right.len() - right.iter().collect::<BTreeSet<_>>().len()) as u64;
        self.with_blanks_in_both += in_both.clone().filter(|statement| statement.iter().any(is_blank)).count() as u64;
        self.in_both += in_both.count() as u64;
        self.listed += (listed.left.len() + listed.right.len()) as u64;
    }
}

/// A length of the index: none, a few words, about two for each row and pair, or more.
fn index_length(editions: &Editions, pairing: &[u32], random: &mut Random) -> usize {
    let enough = enough(editions, pairing);
    match random.below(8) {
        0 => 0,
        1 => 1,
        2 => 2 + random.below(8),
        3 => random.below(enough + 1),
        4 => enough.saturating_sub(1),
        5 => enough,
        6 => 2 * enough,
        _ => enough + random.below(2000),
    }
}

/// Two words for every row that the slices have, and for every pair.
fn enough(editions: &Editions, pairing: &[u32]) -> usize {
    2 * (editions.left.rows.len() / 5 + editions.right.rows.len() / 5) + pairing.len()
}

/// Up to so many pairs of rows the lists are made by a walk too.
const MOST_WALKED: usize = 20_000;

/// One pair of editions with each pairing: with lists that are longer than need be, exactly long enough, and too short.
fn look(editions: &Editions, random: &mut Random, tallies: &mut [Tally], met: &mut Met) -> Result<(), Difference> {
    let Editions { left, right, pairs, unchanged } = editions;
    met.editions += 1;
    met.paired += pairs.len() as u64;
    let rows = changes::statements(left).map(|(_, rows)| rows).zip(changes::statements(right).map(|(_, rows)| rows));
    for (number, ((_, make), tally)) in PAIRINGS.iter().zip(tallies).enumerate() {
        let Some(pairing) = make(editions, random) else { continue };
        let [left_less, right_less] = *random.pick(&[[0, 0], [0, 1], [1, 0], [1, 1]]);
        let mut call = |lists: [usize; 2]| {
            let room = Room { left: lists[0], right: lists[1], index: index_length(editions, &pairing, random) };
            let listed = compare(left, right, &pairing, room, random)?;
            *(if room.index < enough(editions, &pairing) { &mut met.short_indexes } else { &mut met.long_indexes }) += 1;
            tally.count(listed.answer);
            Ok(listed)
        };
        let ample = [left, right].map(|given| given.rows.len() / 5 + 3);
        let listed = call(ample)?;
        let [l, r] = [listed.left.len(), listed.right.len()];
        if number == 0 {
            for lists in [[l, r], [l.saturating_sub(1), r], [l, r.saturating_sub(1)], [l + 2, r + 1], [0, r], [0, 0]] {
                call(lists)?;
            }
        } else {
            call([l.saturating_sub(left_less), r.saturating_sub(right_less)])?;
        }
        let (Some((left_rows, right_rows)), 0) = (&rows, listed.answer.number) else { continue };
        if left_rows.len() * right_rows.len() <= MOST_WALKED {
            let walked = walk(left_rows, right_rows, &pairing);
            if walked != [listed.left.clone(), listed.right.clone()] {
                return Err(Difference { call: format!("walk, pairing {pairing:?}"), library: format!("{listed:?}"), wanted: format!("{walked:?}") });
            }
        }
        if number == 0 {
            met.count(left_rows, right_rows, &listed);
            met.unchanged += u64::from(*unchanged);
            if *unchanged && listed.answer.same == 0 {
                return Err(Difference { call: "compare what is not changed".into(), library: format!("{listed:?}"), wanted: "the same".into() });
            }
        }
    }
    Ok(())
}

/// Random editions, one in six with a side damaged; true where none makes a difference.
pub fn run(seed: u64, count: u64) -> bool {
    println!("seed {seed}, {count} pairs of editions");
    let (mut random, mut tallies, mut met, mut differences) = (Random(seed), PAIRINGS.map(|_| Tally::default()), Met::default(), 0);
    while met.editions < count && differences < MOST_DIFFERENCES {
        let mut editions = editions::at_random(&mut random);
        if random.once_in(6) {
            editions.unchanged = false;
            let side = if random.once_in(2) { &mut editions.left } else { &mut editions.right };
            examine::damage(&mut random, side);
        }
        if let Err(difference) = look(&editions, &mut random, &mut tallies, &mut met) {
            differences += 1;
            println!("DIFFERENCE\n  left:    {:?}\n  right:   {:?}\n{difference}", Shown(&editions.left), Shown(&editions.right));
        }
    }
    println!("{:22} {:>9} {:>9} {:>9} {:>9} {:>9} {:>9}", "pairing", "calls", "0", "the same", "18", "25", "26");
    for ((pairing, _), Tally { calls, accepted, same, refused_18, refused_25, refused_26 }) in PAIRINGS.iter().zip(&tallies) {
        println!("{pairing:22} {calls:>9} {accepted:>9} {same:>9} {refused_18:>9} {refused_25:>9} {refused_26:>9}");
    }
    let calls: u64 = tallies.iter().map(|tally| tally.calls).sum();
    let Met { editions, usable, unchanged, rows, repeated, in_both, with_blanks_in_both, listed, paired, short_indexes, long_indexes } = met;
    println!("editions     {editions} pairs ({usable} usable, {unchanged} of them unchanged)");
    println!(
        "rows         {rows} ({repeated} repeat a statement; {in_both} statements in both, {with_blanks_in_both} with blank nodes; {listed} listed)"
    );
    println!("blank nodes  {paired} pairs");
    println!("calls        {calls}, each without an index and with one (of less than two words for a row and a pair: {short_indexes}, of more: {long_indexes})");
    println!("differences  {differences}");
    differences == 0 && editions >= count
}

struct Case {
    name: String,
    left: Given,
    right: Given,
    pairing: Vec<u32>,
    room: Room,
    answer: Listed,
}

/// Tables in today's words: a row of C-19 has the places of its four terms, of which the object's is kept.
fn tables_before_c_19(value: &Json) -> Result<Given, String> {
    let given = tables(value)?;
    let rows = given.rows.chunks_exact(8).flat_map(|row| [row[0], row[1], row[2], row[3], row[7]]).collect();
    Ok(Given { rows, ..given })
}

impl Case {
    fn parse(line: &str) -> Result<Self, String> {
        let value = json::parse(line)?;
        let answer = value.field("answer")?;
        let (left, right) = (words(answer.field("left")?)?, words(answer.field("right")?)?);
        let same = answer.field("same")?.boolean()?;
        let number = word(answer.field("code")?)?;
        Ok(Case {
            name: value.field("name")?.string()?.to_string(),
            left: tables_before_c_19(value.field("left")?)?,
            right: tables_before_c_19(value.field("right")?)?,
            pairing: words(value.field("pairing")?)?,
            room: Room { left: value.field("left_room")?.number()?, right: value.field("right_room")?.number()?, index: 0 },
            answer: Listed { answer: Compared::of((number, same, left.len() as u32, right.len() as u32)), left, right },
        })
    }

    /// The independent comparison's answer.
    fn answered(&self) -> Listed {
        let (mut left, mut right) = (vec![0; self.room.left], vec![0; self.room.right]);
        let answer = Compared::of(changes::compare(&self.left, &self.right, &self.pairing, &mut left, &mut right));
        left.truncate(answer.left as usize);
        right.truncate(answer.right as usize);
        Listed { answer, left, right }
    }
}

/// Indexes of so many words are lent to each case.
const INDEXES: [usize; 5] = [0, 1, 7, 64, 1000];

/// The calls of C-21.jsonl; true where all agree.
pub fn run_cases(path: &str) -> Result<bool, String> {
    let text = std::fs::read_to_string(path).map_err(|e| format!("{path}: {e}"))?;
    let (mut count, mut set_aside, mut comparison_faults, mut library_faults) = (0, 0, 0, 0);
    for line in text.lines() {
        let case = Case::parse(line)?;
        count += 1;
        if hinges_on_c_15(&case.left) || hinges_on_c_15(&case.right) {
            set_aside += 1;
        } else if case.answered() != case.answer {
            comparison_faults += 1;
            println!("{}: the independent comparison differs: {:?}, not {:?}", case.name, case.answered(), case.answer);
        }
        for index in INDEXES {
            if let Err(difference) = compare(&case.left, &case.right, &case.pairing, Room { index, ..case.room }, &mut Random(count)) {
                library_faults += 1;
                println!("{}\n  left:    {:?}\n  right:   {:?}\n{difference}", case.name, Shown(&case.left), Shown(&case.right));
            }
        }
    }
    println!("cases                                   {count}");
    println!("not compared with the file before C-15  {set_aside}");
    println!("the independent comparison differs      {comparison_faults}");
    println!("the library differs from it             {library_faults}");
    Ok(comparison_faults + library_faults == 0)
}
