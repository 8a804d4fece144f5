//! One read by both readers: answers and every lent slice are compared whole, with guards on both sides of each.

use crate::library;
use crate::random::Random;
use crate::reader::read::{self, Lent, Request};
use std::fmt;

/// Values that stand before and behind each lent slice. The number is odd, so lent bytes lie at odd addresses too.
const GUARD: usize = 13;
/// After so many differences the rest is not looked for.
pub const MOST_DIFFERENCES: u64 = 10;

/// A lent slice between its guards.
#[derive(Clone, PartialEq)]
pub struct Guarded<T>(Vec<T>);

impl<T: Copy + PartialEq> Guarded<T> {
    /// A slice and its guards, full of a pattern that is repeated as often as needed.
    pub fn new(length: usize, pattern: &[T]) -> Self {
        let whole = length + 2 * GUARD;
        let mut all = Vec::with_capacity(whole);
        while all.len() < whole {
            all.extend_from_slice(&pattern[..pattern.len().min(whole - all.len())]);
        }
        Guarded(all)
    }

    pub fn lent(&mut self) -> &mut [T] {
        let end = self.0.len() - GUARD;
        &mut self.0[GUARD..end]
    }

    /// Where two first differ, counted from the slice's first value.
    pub fn difference(&self, other: &Self) -> Option<isize> {
        (self.0 != other.0).then(|| {
            let place = self.0.iter().zip(&other.0).position(|(a, b)| a != b).unwrap_or(self.0.len());
            place as isize - GUARD as isize
        })
    }
}

/// The four slices lent to a read, full of a pattern without zeros.
#[derive(Clone, PartialEq)]
pub struct Memory {
    pub work: Guarded<u8>,
    pub rows: Guarded<u32>,
    pub terms: Guarded<u32>,
    pub store: Guarded<u8>,
}

impl Memory {
    fn new(request: &Request, seed: u64) -> Self {
        let mut random = Random(seed);
        let words: Vec<u32> = (0..251).map(|_| random.next() as u32 | 0x0101_0101).collect();
        let bytes: Vec<u8> = words.iter().flat_map(|word| word.to_le_bytes()).collect();
        Memory {
            work: Guarded::new(request.work, &bytes),
            rows: Guarded::new(request.row_words, &words),
            terms: Guarded::new(request.term_words, &words),
            store: Guarded::new(request.store, &bytes),
        }
    }

    pub fn lent(&mut self) -> Lent<'_> {
        Lent { work: self.work.lent(), rows: self.rows.lent(), terms: self.terms.lent(), store: self.store.lent() }
    }

    fn difference(&self, other: &Self) -> Option<String> {
        let tell = |slice: &str, place: Option<isize>| place.map(|at| format!("the {slice} slice differs at {at}"));
        tell("work", self.work.difference(&other.work))
            .or_else(|| tell("row", self.rows.difference(&other.rows)))
            .or_else(|| tell("term", self.terms.difference(&other.terms)))
            .or_else(|| tell("store", self.store.difference(&other.store)))
    }
}

/// A difference between what the library did and what it should have done.
#[derive(Clone, Debug)]
pub struct Difference {
    pub call: String,
    pub library: String,
    pub wanted: String,
}

impl fmt::Display for Difference {
    fn fmt(&self, f: &mut fmt::Formatter) -> fmt::Result {
        write!(f, "  call:    {}\n  library: {}\n  wanted:  {}", self.call, self.library, self.wanted)
    }
}

pub fn describe(request: &Request) -> String {
    format!(
        "read, mode {}, base \"{}\", work {}, rows {} words, terms {} words, store {}",
        request.mode,
        request.base.escape_ascii(),
        request.work,
        request.row_words,
        request.term_words,
        request.store
    )
}

/// Reads by both, and gives the answer they agree on.
pub fn compare(request: &Request, seed: u64) -> Result<read::Answer, Difference> {
    let wanted = read::read(request);
    let mut theirs = Memory::new(request, seed);
    let mut ours = theirs.clone();
    let answer = library::read(request.document, request.base, request.mode, theirs.lent());
    wanted.leave(ours.lent());
    let differs = |library: String| Difference { call: describe(request), library, wanted: format!("{:?}", library::Answer::of(&wanted)) };
    if answer != library::Answer::of(&wanted) {
        return Err(differs(format!("{answer:?}")));
    }
    match theirs.difference(&ours) {
        Some(place) => Err(differs(format!("{answer:?}, but {place}"))),
        None => Ok(wanted),
    }
}
