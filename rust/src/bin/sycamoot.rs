//! The command: see HELP. What is decided is decided by the library; here are files, lines and exit statuses.
use std::ffi::OsString;
use std::fs::File;
use std::io::{self, Read, Write};
use std::path::Path;
use std::process::ExitCode;
use sycamoot::{Dataset, Mode, Refusal, DOCUMENT_BYTES};

const HELP: &str = "\
usage: sycamoot changes LEFT RIGHT
       sycamoot --help | --version

changes   prints what changed from the edition LEFT of a file to the edition RIGHT: each statement that is
          only in LEFT behind a minus, then each that is only in RIGHT behind a plus. Order, repeats,
          layout and prefixes make no difference. Blank nodes with the same label are taken for one node;
          a node without a label, of brackets or a list, is in one edition alone. The exit status is 0
          where the editions are the same, 1 where they differ.

A file whose name ends in .ttl is Turtle, any other TriG. What is wrong with a file is told on standard
error as FILE:LINE:COLUMN, and the exit status is 2 then, as after any other trouble.
";

const SAME: u8 = 0;
const DIFFERENT: u8 = 1;
const TROUBLE: u8 = 2;

/// Why a word did not come to its end: lines for standard error, or none where nobody listens any more.
struct Trouble(Vec<String>);

impl From<Refusal> for Trouble {
    fn from(refusal: Refusal) -> Self {
        Trouble(vec![format!("sycamoot: {refusal}")])
    }
}

fn main() -> ExitCode {
    let arguments: Vec<OsString> = std::env::args_os().skip(1).collect();
    let words: Vec<&str> = arguments.iter().map(|argument| argument.to_str().unwrap_or_default()).collect();
    let done = match (&words[..], &arguments[..]) {
        (["changes", _, _], [_, left, right]) => changes(Path::new(left), Path::new(right)),
        (["--help"], _) => print(HELP).map(|()| SAME),
        (["--version"], _) => print(concat!("sycamoot ", env!("CARGO_PKG_VERSION"), "\n")).map(|()| SAME),
        _ => Err(Trouble(vec!["usage: sycamoot changes LEFT RIGHT; sycamoot --help says more".into()])),
    };
    ExitCode::from(done.unwrap_or_else(|Trouble(lines)| {
        for line in lines {
            // where standard error is closed there is nobody left to tell
            let _ = writeln!(io::stderr(), "{line}");
        }
        TROUBLE
    }))
}

/// Prints to standard output. A reader that has gone, as `head` does, is no news to anyone.
fn print(text: &str) -> Result<(), Trouble> {
    let mut out = io::stdout().lock();
    out.write_all(text.as_bytes()).and_then(|()| out.flush()).map_err(|error| match error.kind() {
        io::ErrorKind::BrokenPipe => Trouble(Vec::new()),
        _ => Trouble(vec![format!("standard output: {error}")]),
    })
}

/// The statements of a file, or a line that says what is wrong with it.
fn read(path: &Path) -> Result<Dataset, String> {
    let name = path.display();
    let mut document = Vec::new();
    // a byte over the limit is enough to be refused for it
    let file = File::open(path).and_then(|file| file.take(DOCUMENT_BYTES as u64 + 1).read_to_end(&mut document));
    file.map_err(|error| format!("{name}: {error}"))?;
    Dataset::read_growing(&document, b"", mode(path)).map_err(|refusal| {
        let (line, column) = line_and_column(&document, refusal.position as usize);
        format!("{name}:{line}:{column}: refused {}: {}", refusal.number, refusal.meaning())
    })
}

/// By the name's ending, in any case.
fn mode(path: &Path) -> Mode {
    match path.as_os_str().as_encoded_bytes().last_chunk::<4>() {
        Some(ending) if ending.eq_ignore_ascii_case(b".ttl") => Mode::Turtle,
        _ => Mode::TriG,
    }
}

/// A line ends with LF, CR or CR LF; columns count characters; both from 1.
fn line_and_column(document: &[u8], position: usize) -> (usize, usize) {
    let ends_line = |&place: &usize| match document[place] {
        b'\n' => true,
        b'\r' => document.get(place + 1) != Some(&b'\n'),
        _ => false,
    };
    let start = (0..position).rev().find(ends_line).map_or(0, |place| place + 1);
    let characters = document[start..position].iter().filter(|&&byte| byte & 0xC0 != 0x80).count();
    (1 + (0..position).filter(ends_line).count(), 1 + characters)
}

/// The long form of some rows, in a buffer that grows until it fits.
fn long_form(dataset: &Dataset, rows: &[u32]) -> Result<String, Refusal> {
    let mut bytes = 1 << 16;
    loop {
        match dataset.long_form_of(rows, bytes) {
            Err(Refusal { number: 17, .. }) => bytes *= 2,
            answer => return answer,
        }
    }
}

/// Each statement of the long form behind a mark.
fn marked(mark: &str, long_form: &str) -> String {
    long_form.split_inclusive('\n').flat_map(|line| [mark, line]).collect()
}

fn changes(left: &Path, right: &Path) -> Result<u8, Trouble> {
    let (left, right) = match (read(left), read(right)) {
        (Ok(left), Ok(right)) => (left, right),
        (left, right) => return Err(Trouble([left.err(), right.err()].into_iter().flatten().collect())),
    };
    let changes = left.compare_indexed(&right, &left.pair_labels(&right))?;
    let only_left = marked("- ", &long_form(&left, &changes.left)?);
    let only_right = marked("+ ", &long_form(&right, &changes.right)?);
    print(&(only_left + &only_right))?;
    Ok(if changes.same { SAME } else { DIFFERENT })
}
