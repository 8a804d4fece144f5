//! `exhaustive`: all small documents of several kinds, by the library and the independent reader.

use crate::call;
use crate::reader::read::{Answer, Request, LEAST_WORK};

/// A spelling of each token; the prefix `m` is declared before.
const TOKENS: [&str; 28] = [
    "<x:i>", "m:", "m:a", "_:a", "@en", "1", ".5", "1e0", "'s'", "\"\"\"l\"\"\"", "@prefix", "@base", "PREFIX", "base", "Graph", "a", "true",
    "false", ".", ";", ",", "^^", "[", "]", "(", ")", "{", "}",
];
const DECLARED: &str = "@prefix m: <x:m#> .";
const BASES: [&str; 7] = ["", "http://a/b/c/d;p?q", "x:y", "x:/a/../b#f", "http://h", "x:y/z", "x://h?q"];
/// Bytes at the edges of RFC 3629's table.
const EDGES: &[u8] = b"\x00\x41\x7f\x80\x8f\x90\x9f\xa0\xbf\xc0\xc1\xc2\xdf\xe0\xe1\xec\xed\xee\xef\xf0\xf1\xf3\xf4\xf5\xf7\xf8\xff";
/// After so many differences a group prints no more.
const MOST_SHOWN: u64 = 5;

/// What a group looks at.
type Look = fn(&mut Group);

struct Group {
    documents: u64,
    wrong: u64,
}

impl Group {
    /// Reads by both; none where they differ.
    fn look(&mut self, document: &[u8], base: &str, mode: u32) -> Option<Answer> {
        self.documents += 1;
        let request = Request { document, base: base.as_bytes(), mode, work: LEAST_WORK, row_words: 151, term_words: 204, store: 1000 };
        match call::compare(&request, self.documents) {
            Ok(answer) => Some(answer),
            Err(difference) => {
                self.wrong += 1;
                if self.wrong <= MOST_SHOWN {
                    println!("DIFFERENCE, document \"{}\"\n{difference}", document.escape_ascii());
                }
                None
            }
        }
    }

    /// Every list of tokens up to a length, in both modes; one that is refused at a token is not gone on with.
    fn token_lists(&mut self, length: usize) {
        for mode in [0, 1] {
            self.token_list(DECLARED.as_bytes(), length, mode);
        }
    }

    fn token_list(&mut self, document: &[u8], length: usize, mode: u32) {
        let viable = self.look(document, "", mode).is_some_and(|answer| answer.position == document.len());
        if viable && length > 0 {
            for token in TOKENS {
                self.token_list(&[document, b" ", token.as_bytes()].concat(), length - 1, mode);
            }
        }
    }

    /// Every text up to a length, put between two others.
    fn texts(&mut self, before: &str, alphabet: &[u8], length: usize, after: &str, base: &str) {
        self.text(before.as_bytes(), alphabet, length, after.as_bytes(), base);
    }

    fn text(&mut self, before: &[u8], alphabet: &[u8], length: usize, after: &[u8], base: &str) {
        self.look(&[before, after].concat(), base, 0);
        if length > 0 {
            for byte in alphabet {
                self.text(&[before, &[*byte]].concat(), alphabet, length - 1, after, base);
            }
        }
    }

    /// Every character: first and later in a prefix, a local name and a label, in an IRI, in strings, and alone.
    fn characters(&mut self) {
        for c in '\0'..=char::MAX {
            self.look(format!("PREFIX {c}:<x:>{c}:a a 1.").as_bytes(), "", 0);
            self.look(format!("PREFIX a{c}:<x:>a{c}:{c} a _:{c}.").as_bytes(), "", 0);
            self.look(format!("PREFIX :<x:>:a{c}a a _:a{c}.").as_bytes(), "", 0);
            self.look(format!("<x:{c}>a\"{c}\",'''{c}'''@en.#{c}").as_bytes(), "", 0);
        }
    }
}

/// True where no document makes a difference.
pub fn run() -> bool {
    const S: &str = "<x:s><x:p>";
    let groups: [(&str, Look); 10] = [
        ("token lists up to 6", |g| g.token_lists(6)),
        ("characters", Group::characters),
        ("bytes of UTF-8 up to 4", |g| g.texts("#", EDGES, 4, "", "")),
        ("numbers up to 7", |g| g.texts(S, b"+-.1e ", 7, " .", "")),
        ("names up to 6", |g| g.texts("PREFIX a:<x:>PREFIX :<x:>:s :p ", b"a.:_-%1\\", 6, " .", "")),
        ("strings up to 7", |g| g.texts(S, b"\"'\\n\na", 7, "\".", "")),
        ("escapes up to 6 digits", |g| g.texts(&format!("{S}\"\\u"), b"0D8u7\\", 6, "\".", "")),
        ("tags up to 6", |g| g.texts(&format!("{S}\"\"@"), b"a-1Z .", 6, ".", "")),
        ("keywords up to 6", |g| g.texts(S, b"atruefls", 6, ".", "")),
        ("references up to 6, seven bases", |g| BASES.iter().for_each(|base| g.texts(&format!("{S}<"), b"./a?#:", 6, ">.", base))),
    ];
    let mut all_good = true;
    println!("{:32} {:>10} {:>6}", "group", "documents", "wrong");
    for (name, look) in groups {
        let mut group = Group { documents: 0, wrong: 0 };
        look(&mut group);
        println!("{name:32} {:>10} {:>6}", group.documents, group.wrong);
        all_good &= group.wrong == 0;
    }
    all_good
}
