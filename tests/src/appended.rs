//! `appended`: a document, and the same document with a line feed and further text behind it (C-22).

use crate::call::{self, Difference, MOST_DIFFERENCES};
use crate::generate::{self, Subject};
use crate::json::{self, Value};
use crate::random::Random;
use crate::reader::lexer::{self, Kind};
use crate::reader::read::{Answer, Request, LEAST_WORK};
use crate::reader::tables::Group;

/// The document, a line feed, and the text.
fn with_text_added(document: &[u8], more: &[u8]) -> Vec<u8> {
    [document, b"\n", more].concat()
}

/// A read by both readers, with room for all that a document of this length can write.
fn ample(subject: &Subject, document: &[u8], random: &mut Random) -> Result<Answer, Difference> {
    let words = 5 * (2 * document.len() + 9) + random.below(12);
    let store = 1025 * document.len() + 386 + random.below(12);
    read(subject, document, (words, words, store), random)
}

fn read(
    subject: &Subject,
    document: &[u8],
    (row_words, term_words, store): (usize, usize, usize),
    random: &mut Random,
) -> Result<Answer, Difference> {
    let request = Request { document, base: &subject.base, mode: subject.mode, work: LEAST_WORK + random.below(100), row_words, term_words, store };
    call::compare(&request, random.next())
}

fn fault(call: &str, library: impl std::fmt::Debug, wanted: impl std::fmt::Debug) -> Difference {
    Difference { call: call.to_string(), library: format!("{library:?}"), wanted: format!("{wanted:?}") }
}

/// The tables of the first are the beginning of those of the second.
fn begins(first: &Answer, second: &Answer) -> Result<(), Difference> {
    if second.rows.starts_with(&first.rows) && second.terms.starts_with(&first.terms) && second.store.starts_with(&first.store) {
        Ok(())
    } else {
        Err(fault("read, with text added", second, first))
    }
}

/// The directives of a document that has a derivation.
fn directives(document: &[u8]) -> Vec<u8> {
    let mut out = Vec::new();
    let mut tokens = lexer::tokens(document).into_iter();
    while let Some(token) = tokens.next() {
        let more = match token.kind {
            Kind::AtPrefix => 3,
            Kind::AtBase | Kind::Prefix => 2,
            Kind::Base => 1,
            _ => continue,
        };
        for part in std::iter::once(token).chain(tokens.by_ref().take(more)) {
            out.extend_from_slice(&document[part.start..part.end]);
            out.push(b' ');
        }
    }
    out
}

/// What was compared.
#[derive(Default)]
struct Tally {
    pairs: u64,
    first_accepted: u64,
    both_accepted: u64,
    refused: [u64; 17],
}

/// One pair. Behind an accepted document a text is answered as behind its directives alone.
fn examine(subject: &Subject, more: &[u8], random: &mut Random, tally: &mut Tally) -> Result<(), Difference> {
    tally.pairs += 1;
    let document = &subject.document;
    let first = ample(subject, document, random)?;
    if first.number != 0 {
        return Ok(());
    }
    tally.first_accepted += 1;
    let second = ample(subject, &with_text_added(document, more), random)?;
    let declared = directives(document);
    let behind = ample(subject, &with_text_added(&declared, more), random)?;
    let further = |answer: &Answer, before: &[u8]| answer.position as isize - before.len() as isize;
    if (second.number, further(&second, document)) != (behind.number, further(&behind, &declared)) {
        return Err(fault("read, behind the directives alone", &behind, &second));
    }
    if second.number != 0 {
        tally.refused[second.number as usize] += 1;
        return Ok(());
    }
    tally.both_accepted += 1;
    begins(&first, &second)?;
    // the first call may be lent just what it needs
    let least = read(subject, document, (5 * first.rows.len(), 5 * first.terms.len(), first.store.len()), random)?;
    begins(&least, &second)
}

fn report(subject: &Subject, more: &[u8], difference: &Difference) {
    println!("DIFFERENCE, mode {}, base \"{}\"", subject.mode, subject.base.escape_ascii());
    println!("  document \"{}\"\n  further text \"{}\"\n{difference}", subject.document.escape_ascii(), more.escape_ascii());
}

/// Random pairs; true where none makes a difference.
pub fn run(seed: u64, count: u64) -> bool {
    println!("seed {seed}, {count} pairs");
    let (mut random, mut tally, mut differences) = (Random(seed), Tally::default(), 0);
    while tally.pairs < count && differences < MOST_DIFFERENCES {
        let (subject, more) = generate::pair(&mut random);
        if let Err(difference) = examine(&subject, &more, &mut random, &mut tally) {
            differences += 1;
            report(&subject, &more, &difference);
        }
    }
    let refused: Vec<String> =
        tally.refused.iter().enumerate().filter(|(_, &count)| count > 0).map(|(number, count)| format!("{number}: {count}")).collect();
    println!("pairs        {} ({} with an accepted document, {} accepted together)", tally.pairs, tally.first_accepted, tally.both_accepted);
    println!("refused      {} ({})", tally.refused.iter().sum::<u64>(), refused.join(", "));
    println!("differences  {differences}");
    differences == 0 && tally.pairs >= count
}

/// A case's answer for the document, in today's words: a row of C-19 has the places of its four terms, of which the object's is kept.
fn wanted(answer: &Value, document: &[u8]) -> Result<Answer, String> {
    let groups = |name: &str, places: [usize; 5]| -> Result<Vec<Group>, String> {
        let group = |item: &Value| -> Result<Group, String> {
            let words = item.numbers()?;
            let word = |place: usize| words.get(place).and_then(|&word| u32::try_from(word).ok()).ok_or("too few words");
            let [a, b, c, d, e] = places;
            Ok([word(a)?, word(b)?, word(c)?, word(d)?, word(e)?])
        };
        answer.field(name)?.items()?.iter().map(group).collect()
    };
    Ok(Answer {
        number: 0,
        position: document.len(),
        rows: groups("rows", [0, 1, 2, 3, 7])?,
        terms: groups("terms", [0, 1, 2, 3, 4])?,
        store: answer.field("store")?.bytes()?,
    })
}

/// Has the document a tag with a capital, which C-15 stores in lower case?
fn has_capital_tag(document: &[u8]) -> bool {
    let capital = |token: &lexer::Token| token.kind == Kind::LangTag && document[token.start..token.end].iter().any(u8::is_ascii_uppercase);
    lexer::tokens(document).iter().any(capital)
}

/// The pairs of C-22.jsonl; true where all agree. Their answers are those after C-12 to C-20: the graph list is left out, and where a tag
/// has a capital the terms are not compared.
pub fn run_cases(path: &str) -> Result<bool, String> {
    let text = std::fs::read_to_string(path).map_err(|e| format!("{path}: {e}"))?;
    let (mut random, mut tally) = (Random(1), Tally::default());
    let (mut differ, mut lowered) = (0, 0);
    for line in text.lines() {
        let case = json::parse(line)?;
        let mode = u32::try_from(case.field("mode")?.number()?).map_err(|e| e.to_string())?;
        let subject = Subject { document: case.field("first")?.bytes()?, base: case.field("base")?.bytes()?, mode };
        let more = case.field("second")?.bytes()?;
        let whole = with_text_added(&subject.document, &more);
        let mut agree = || -> Result<(), Difference> {
            examine(&subject, &more, &mut random, &mut tally)?;
            for (document, name) in [(&subject.document, "first"), (&whole, "whole")] {
                let answer = ample(&subject, document, &mut random)?;
                let wanted = case.field("answer").and_then(|answer| wanted(answer.field(name)?, document)).map_err(|e| fault(name, e, "a case"))?;
                if answer.number != 0 || !(answer == wanted || has_capital_tag(document)) {
                    return Err(fault(name, answer, wanted));
                }
            }
            Ok(())
        };
        if let Err(difference) = agree() {
            differ += 1;
            report(&subject, &more, &difference);
        }
        lowered += u64::from(has_capital_tag(&whole));
    }
    println!("cases                                   {}", tally.pairs);
    println!("of them with a tag that C-15 changes    {lowered}");
    println!("both accepted                           {}", tally.both_accepted);
    println!("differ                                  {differ}");
    Ok(differ == 0 && tally.both_accepted == tally.pairs)
}
