//! The command as it is run: what it prints, and its exit status.
use std::path::PathBuf;
use std::process::{Command, Output};

const LEFT: &str = "tests/data/left.trig";
const RIGHT: &str = "tests/data/right.trig";

fn sycamoot(arguments: &[&str]) -> Command {
    let mut command = Command::new(env!("CARGO_BIN_EXE_sycamoot"));
    command.args(arguments).current_dir(env!("CARGO_MANIFEST_DIR"));
    command
}

fn run(arguments: &[&str]) -> (Option<i32>, String, String) {
    let Output { status, stdout, stderr } = sycamoot(arguments).output().unwrap();
    (status.code(), String::from_utf8(stdout).unwrap(), String::from_utf8(stderr).unwrap())
}

/// What is printed and told, where the command ends with this status.
fn expect(status: i32, arguments: &[&str]) -> (String, String) {
    let (code, out, told) = run(arguments);
    assert_eq!(code, Some(status), "{out}{told}");
    (out, told)
}

/// A file with this name, for the time of the tests.
fn file(name: &str, text: impl AsRef<[u8]>) -> String {
    let path = PathBuf::from(env!("CARGO_TARGET_TMPDIR")).join(name);
    std::fs::write(&path, text).unwrap();
    path.to_str().unwrap().to_string()
}

#[test]
fn what_changed_is_printed_line_by_line() {
    let stored = include_str!("data/changes.txt");
    assert_eq!(expect(1, &["changes", LEFT, RIGHT]), (stored.to_string(), String::new()));
}

#[test]
fn editions_are_the_same_whatever_their_layout() {
    let left = file("same_left.trig", "@prefix m: <x:m#> . _:n m:at 1, 2 ; m:of m:g . m:g { _:n m:at \"é\"@en } m:empty {}");
    let right = file("same_right.trig", "<x:m#g> { _:n <x:m#at> '''\\u00E9'''@en }\n_:n <x:m#of> <x:m#g> ; <x:m#at> 2, 1, 2 .");
    for right in [&left, &right] {
        assert_eq!(expect(0, &["changes", &left, right]), (String::new(), String::new()));
    }
}

#[test]
fn a_refused_file_is_told_by_line_and_column() {
    let bad = file("bad.trig", "<x:s> <x:p> 1 .\r\n# a line\r<x:s>\n  <x:é> <x:o> | .");
    let unfinished = file("unfinished.TTL", "{ <x:s> <x:p> 1 }");
    let (out, told) = expect(2, &["changes", &bad, &unfinished]);
    assert_eq!(out, "");
    assert_eq!(told, format!("{bad}:4:15: refused 6: no token can be read\n{unfinished}:1:1: refused 8: the grammar allows no such token here\n"));
    let long = file("long.trig", " ".repeat(sycamoot::DOCUMENT_BYTES + 1));
    assert_eq!(expect(2, &["changes", LEFT, &long]).1, format!("{long}:1:1: refused 1: the document has over 1,048,576 bytes\n"));
}

#[test]
fn a_file_that_is_not_there_is_told_by_its_name() {
    let (out, told) = expect(2, &["changes", "tests/data/none.trig", RIGHT]);
    assert_eq!(out, "");
    assert!(told.starts_with("tests/data/none.trig: ") && told.lines().count() == 1, "{told}");
    assert!(expect(2, &["changes", LEFT, "tests/data"]).1.starts_with("tests/data: "));
}

#[test]
fn other_words_are_answered_with_the_usage() {
    for arguments in [&[][..], &["changes"], &["changes", LEFT], &["changes", LEFT, RIGHT, RIGHT], &["nothing", LEFT, RIGHT], &["--help", LEFT]] {
        let (out, told) = expect(2, arguments);
        assert_eq!((out.as_str(), &told[..6]), ("", "usage:"));
    }
    assert!(expect(0, &["--help"]).0.starts_with("usage: sycamoot changes LEFT RIGHT\n"));
    assert_eq!(expect(0, &["--version"]).0, concat!("sycamoot ", env!("CARGO_PKG_VERSION"), "\n"));
}

#[test]
fn an_output_that_is_closed_is_no_panic() {
    let (reader, writer) = std::io::pipe().unwrap();
    drop(reader);
    let Output { status, stderr, .. } = sycamoot(&["changes", LEFT, RIGHT]).stdout(writer).output().unwrap();
    assert_eq!((status.code(), &stderr[..]), (Some(2), &b""[..]));
    let (reader, writer) = std::io::pipe().unwrap();
    drop(reader);
    assert_eq!(sycamoot(&["changes", LEFT]).stderr(writer).status().unwrap().code(), Some(2));
}

#[test]
fn large_files_are_compared() {
    let statements = |range: std::ops::Range<u32>| range.map(|n| format!("_:n{n} <x:p> _:n{}, \"{n}\" .\n", n / 2)).collect::<String>();
    let left = file("large_left.ttl", statements(0..2000));
    let right = file("large_right.ttl", statements(1..2002));
    let (out, _) = expect(1, &["changes", &left, &right]);
    assert_eq!(out.lines().filter(|line| line.starts_with("- ")).count(), 2);
    assert_eq!(out.lines().filter(|line| line.starts_with("+ ")).count(), 4);
    assert_eq!(out.lines().count(), 6);
}
