//! `compare`: the library and the independent reader on many documents; a difference is shrunk and printed.

use crate::call::{Difference, MOST_DIFFERENCES};
use crate::examine::{examine, Tally};
use crate::generate::{self, Subject};
use crate::limits;
use crate::random::Random;
use std::time::{Duration, Instant};

/// Every size of the tables is lent to one document in so many.
const EVERY_ROOM_ONCE_IN: u64 = 16;
const SHRINKING: Duration = Duration::from_secs(20);

/// True where no document makes a difference.
pub fn run(seed: u64, count: u64, seconds: u64) -> bool {
    println!("seed {seed}, {count} documents, at most {seconds} seconds");
    let started = Instant::now();
    let mut tally = Tally::default();
    let mut differences = 0;
    let mut look = |subject: &Subject, seed: u64, every_room: bool, tally: &mut Tally| {
        if let Err(first) = examine(subject, seed, every_room, tally) {
            differences += 1;
            report(subject, seed, every_room, first);
        }
        differences < MOST_DIFFERENCES
    };
    for limit in limits::all() {
        let small = limit.subject.document.len() < 2000;
        if !look(&limit.subject, seed, small, &mut tally) {
            break;
        }
    }
    let mut random = Random(seed);
    let mut in_time = true;
    while in_time && tally.documents < count {
        let subject = generate::subject(&mut random);
        let every_room = tally.documents % EVERY_ROOM_ONCE_IN == 0;
        in_time = look(&subject, random.next(), every_room, &mut tally) && started.elapsed().as_secs() < seconds;
    }
    table(&tally, started.elapsed());
    println!("differences  {differences}");
    if tally.documents < count {
        println!("stopped before all documents were read");
    }
    differences == 0 && tally.documents >= count
}

fn table(tally: &Tally, time: Duration) {
    println!("documents    {} ({} accepted, {} with every room) in {} s", tally.documents, tally.accepted, tally.every_room, time.as_secs());
    for (name, numbers) in [("reads", &tally.reads[..]), ("writes", &tally.writes), ("term texts", &tally.texts)] {
        let answers: Vec<String> =
            numbers.iter().enumerate().filter(|(_, &count)| count > 0).map(|(number, count)| format!("{number}: {count}")).collect();
        println!("{name:12} {} ({})", numbers.iter().sum::<u64>(), answers.join(", "));
    }
}

/// Prints a small document that still makes a difference.
fn report(subject: &Subject, seed: u64, every_room: bool, first: Difference) {
    let started = Instant::now();
    let mut found = (subject.clone(), first);
    let mut chunk = found.0.document.len().div_ceil(2);
    while chunk > 0 && started.elapsed() < SHRINKING {
        match smaller(&found.0, chunk, seed, every_room, started) {
            Some(less) => found = less,
            None => chunk /= 2,
        }
    }
    let (subject, difference) = found;
    println!("DIFFERENCE, examined with seed {seed}, every room {every_room}");
    println!("  document \"{}\" ({} bytes), mode {}", subject.document.escape_ascii(), subject.document.len(), subject.mode);
    println!("{difference}");
}

/// The document without one chunk, if the difference stays.
fn smaller(subject: &Subject, chunk: usize, seed: u64, every_room: bool, started: Instant) -> Option<(Subject, Difference)> {
    let length = subject.document.len();
    (0..length).step_by(chunk).take_while(|_| started.elapsed() < SHRINKING).find_map(|start| {
        let mut less = subject.clone();
        less.document.drain(start..length.min(start + chunk));
        let difference = examine(&less, seed, every_room, &mut Tally::default()).err()?;
        Some((less, difference))
    })
}
