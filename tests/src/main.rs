//! Evidence from outside: see USAGE.

mod appended;
mod boundaries;
mod call;
mod cases;
mod changed;
mod changes;
mod compare;
mod editions;
mod examine;
mod exhaustive;
mod generate;
mod index;
mod indexed;
mod json;
mod known;
mod library;
mod limits;
mod look_up;
mod looked_up;
mod made;
mod random;
mod reader;
mod readings;
mod room;
mod statements;
mod w3c;
mod written;

const USAGE: &str = "\
evidence cases PATH                                calls with answers (base.jsonl)
evidence compare --seed N --count N --seconds S    random documents, and documents at the limits
evidence exhaustive                                all small documents of several kinds, every character
evidence boundaries                                limits, room, RFC 3986 5.4, readings, bench table, writer, index, look-up, changes
evidence appended --seed N --count N               random documents with text added behind a line feed (C-22)
evidence appended PATH                             the pairs of C-22.jsonl
evidence index --seed N --count N                  random tables, their index and its check (C-16)
evidence index PATH                                the calls of C-16.jsonl
evidence look-up --seed N --count N                random indexes, whole and damaged, and look-ups in them (C-17)
evidence look-up PATH                              the calls of C-17.jsonl
evidence changes --seed N --count N                random pairs of editions, and their comparison (C-21)
evidence changes PATH                              the calls of C-21.jsonl
evidence w3c PATH                                  the W3C suites (the directory with index.tsv)";

fn main() -> std::process::ExitCode {
    if cfg!(not(feature = "library")) {
        println!("WITHOUT THE LIBRARY: the independent reader stands in for it");
    }
    let arguments: Vec<String> = std::env::args().skip(1).collect();
    let words: Vec<&str> = arguments.iter().map(String::as_str).collect();
    let good = match words[..] {
        ["cases", path] => cases::run(path),
        ["compare", "--seed", seed, "--count", count, "--seconds", seconds] => {
            number(seed).and_then(|seed| Ok(compare::run(seed, number(count)?, number(seconds)?)))
        }
        ["exhaustive"] => Ok(exhaustive::run()),
        ["boundaries"] => Ok(boundaries::run()),
        ["appended", "--seed", seed, "--count", count] => number(seed).and_then(|seed| Ok(appended::run(seed, number(count)?))),
        ["appended", path] => appended::run_cases(path),
        ["index", "--seed", seed, "--count", count] => number(seed).and_then(|seed| Ok(index::run(seed, number(count)?))),
        ["index", path] => index::run_cases(path),
        ["look-up", "--seed", seed, "--count", count] => number(seed).and_then(|seed| Ok(look_up::run(seed, number(count)?))),
        ["look-up", path] => look_up::run_cases(path),
        ["changes", "--seed", seed, "--count", count] => number(seed).and_then(|seed| Ok(changes::run(seed, number(count)?))),
        ["changes", path] => changes::run_cases(path),
        ["w3c", path] => w3c::run(path),
        _ => Err(USAGE.to_string()),
    };
    match good {
        Ok(true) => std::process::ExitCode::SUCCESS,
        Ok(false) => std::process::ExitCode::FAILURE,
        Err(fault) => {
            eprintln!("{fault}");
            std::process::ExitCode::from(2)
        }
    }
}

fn number(text: &str) -> Result<u64, String> {
    text.parse().map_err(|_| format!("{text} is no number"))
}
