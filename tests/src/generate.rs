//! Random documents: from the grammar, and damaged.

use crate::random::Random;
use crate::reader::lexer;

/// References with a scheme.
const ABSOLUTE: &[&str] = &[
    "x:s", "x:p", "x:o", "x:", "x:/a/b/../c", "http://h/a/b/c/d;p?q", "http://h", "x:y/z", "a+b-c.d:e", "X:s", "x://h?q#f", "x:é", "x:/a/./b#f",
    "http://www.w3.org/1999/02/22-rdf-syntax-ns#first", "http://www.w3.org/1999/02/22-rdf-syntax-ns#type",
    "http://www.w3.org/1999/02/22-rdf-syntax-ns#nil", "http://www.w3.org/2001/XMLSchema#string", "http://www.w3.org/2001/XMLSchema#integer",
];
/// References without one.
const RELATIVE: &[&str] = &[
    "", "g", "./g", "../g", "../../../g", ".", "..", "./", "../", "/", "/g", "/./g", "/../g", "//h", "//h/../g", "//", "?q", "?", "#f", "#", "g?q#f",
    "g;x=1/../y", "g/./h", "g/../h", "1a:b", ":b", "a_b:c", "é:b", ".g", "g.", "..g", "/.//b", "a//../b", "g?y/../x", "g#s/../x", "?a:b", "#a:b",
];
const PREFIXES: &[&str] = &["", "m", "a", "true", "PREFIX", "base", "graph", "é", "m.n", "x-1", "e", "b"];
const LOCALS: &[&str] = &[
    "", "a", "b", "a.b", "a..b", "1", ":", ":a", "%41", "%aF.", "\\-", "\\.", "a\\.", "\\~\\!\\$\\&\\'\\(\\)\\*\\+\\,\\;\\=\\/\\?\\#\\@\\%\\_", "é",
    "a\u{b7}", "a-b", "_", "0e1", "a.", "\\/..\\/",
];
const LABELS: &[&str] = &["a", "b", "b0", "b1", "0", "_", "a.b", "é", "a-b", "a\u{b7}"];
const TAGS: &[&str] = &["en", "EN", "de-CH", "a-1-b2", "base-x", "BASE", "prefix-1", "Prefix"];
const NUMBERS: &[&str] =
    &["1", "01", "+1", "-1", "0", "1.5", ".5", "-.5", "+0.50", "1e0", "1.e0", "1.5E-3", ".5e+1", "-1e10", "123456789012345678901234567890"];
const TEXTS: &[&str] = &[
    "", "a", "b", "open", "a b", "é", "\u{10ffff}", "\u{fffd}", "\\t\\b\\n\\r\\f\\\"\\'\\\\", "\\u0061", "\\U00000061", "\\u00E9", "\\U0001F600",
    "\\\\u0061", "\\\\uD800", "#", "<x:>", "\\u0000", "\\uD7FF", "\\uE000", "\t", "7", "true",
];
/// Texts that long strings alone may have.
const LONG_TEXTS: &[&str] = &["\n", "\r\n", "a\nb"];
const BASES: &[&str] = &["http://a/b/c/d;p?q", "x:y", "x:", "http://h", "x:/a/../b#f", "x://h?q", "x:y/z"];
/// Tokens and scraps to put into a damaged document.
const SCRAPS: &[&str] = &[
    ".", ";", ",", "[", "]", "(", ")", "{", "}", "^^", "a", "true", "false", "GRAPH", "graph ", "PREFIX", "BASE", "@prefix", "@base", "@en", "@",
    "\"", "'", "\"\"\"", "''", "\"a\"", "<", ">", "<x:a>", "<g>", "m:", ":", "_:", "_:a", "1", "1.", ".5", "e", "E1", "+", "-", "#", "\n", "\r", " ",
    "\\", "|", "%", "%4", "\\uD800", "\\uDFFF", "\\U00110000", "\\uE000", "\\u12", "<x:\\uD800>", "\"\\uDC00\"", "\u{feff}", "\u{b7}", "\u{300}",
    "\u{d7}", "\u{2000}", "\u{203f}", "\u{e000}", "\u{c}", "[]", "()", "[ a 1 ]", "( 1 )", "nope:a", "@prefix m: <x:n#> .", "BASE <x:/>", "{}",
    "a a", "true.ex:t",
];

/// A document and what is lent with it, memory aside.
#[derive(Clone)]
pub struct Subject {
    pub document: Vec<u8>,
    pub base: Vec<u8>,
    pub mode: u32,
}

/// A random document, one in two damaged.
pub fn subject(random: &mut Random) -> Subject {
    let mode = u32::from(random.once_in(2));
    let mut base = if random.once_in(2) { random.pick(BASES).as_bytes().to_vec() } else { Vec::new() };
    let mut document = document(random, mode, !base.is_empty());
    match random.below(8) {
        0 | 1 => damage_tokens(random, &mut document),
        2 | 3 => damage_bytes(random, &mut document),
        _ => {}
    }
    if random.once_in(40) {
        damage_bytes(random, &mut base);
    }
    // A document is read in the other mode once in a while, or in none.
    let mode = match random.below(300) {
        0 => no_mode(2 + random.below(254) as u32),
        1..=25 => 1 - mode,
        _ => mode,
    };
    Subject { document, base, mode }
}

/// A mode of one byte; or, of an even one, a larger mode whose lowest byte is that of TriG.
fn no_mode(mode: u32) -> u32 {
    if mode % 2 == 0 {
        mode << 7
    } else {
        mode
    }
}

fn document(random: &mut Random, mode: u32, base: bool) -> Vec<u8> {
    let mut generator = Generator { random, out: Vec::new(), prefixes: Vec::new(), base, depth: 0 };
    generator.statements(mode);
    generator.out
}

/// A document, and text to be put behind it, which uses what the document declares; one text in four is damaged.
pub fn pair(random: &mut Random) -> (Subject, Vec<u8>) {
    let mode = u32::from(random.once_in(2));
    let base = if random.once_in(2) { random.pick(BASES).as_bytes().to_vec() } else { Vec::new() };
    let mut generator = Generator { random, out: Vec::new(), prefixes: Vec::new(), base: !base.is_empty(), depth: 0 };
    generator.statements(mode);
    let document = std::mem::take(&mut generator.out);
    generator.statements(mode);
    let mut more = generator.out;
    match random.below(8) {
        0 => damage_tokens(random, &mut more),
        1 => damage_bytes(random, &mut more),
        _ => {}
    }
    (Subject { document, base, mode }, more)
}

struct Generator<'r> {
    random: &'r mut Random,
    out: Vec<u8>,
    prefixes: Vec<String>,
    base: bool,
    depth: usize,
}

impl Generator<'_> {
    /// Directives, triples and graphs, and sometimes a comment without a line end.
    fn statements(&mut self, mode: u32) {
        if self.random.once_in(100) {
            self.many_prefixes();
        }
        if self.random.once_in(100) {
            self.many_terms();
        }
        for _ in 0..self.random.below(7) {
            match self.random.below(6) {
                0 | 1 => self.directive(),
                2 | 3 if mode == 0 => self.graph(),
                _ => self.triples(true),
            }
        }
        if self.random.once_in(4) {
            self.out.extend(b" # the end");
        }
    }

    /// A token, after blanks, a comment or nothing. Without blanks two tokens may become another one.
    fn token(&mut self, text: &str) {
        match self.random.below(40) {
            0 => self.out.extend(b"\n"),
            1 => self.out.extend(b"\t \r\n"),
            2 => self.out.extend(b"# . \"a\n"),
            3 => self.out.extend("#é\\uD800\r".as_bytes()),
            4 | 5 => {}
            6..=12 if text.len() == 1 => {}
            _ => self.out.push(b' '),
        }
        self.out.extend(text.as_bytes());
    }

    fn keyword(&mut self, word: &str) {
        let text: String = word.chars().map(|c| if self.random.once_in(3) { c.to_ascii_lowercase() } else { c }).collect();
        self.token(&text);
    }

    fn directive(&mut self) {
        let old = self.random.once_in(2);
        let for_prefix = self.random.below(3) > 0;
        match (for_prefix, old) {
            (true, true) => self.token("@prefix"),
            (true, false) => self.keyword("PREFIX"),
            (false, true) => self.token("@base"),
            (false, false) => self.keyword("BASE"),
        }
        let prefix = for_prefix.then(|| self.random.pick(PREFIXES).to_string());
        if let Some(prefix) = &prefix {
            self.token(&format!("{prefix}:"));
        }
        self.reference();
        match prefix {
            Some(prefix) => self.prefixes.push(prefix),
            None => self.base = true,
        }
        if old {
            self.token(".");
        }
    }

    /// About as many prefixes as there may be.
    fn many_prefixes(&mut self) {
        for i in 0..25 + self.random.below(9) {
            self.keyword("PREFIX");
            self.token(&format!("p{i}:"));
            self.token(&format!("<x:{i}>"));
            self.prefixes.push(format!("p{i}"));
        }
    }

    /// So many terms that finding one again takes some search.
    fn many_terms(&mut self) {
        let count = 2 + self.random.below(300);
        for _ in 0..count {
            let term = |random: &mut Random| match random.below(4) {
                0 => format!("_:b{}", random.below(count)),
                _ => format!("<x:{}>", random.below(count)),
            };
            let subject = term(self.random);
            self.token(&subject);
            let predicate = format!("<x:p{}>", self.random.below(4));
            self.token(&predicate);
            let object = match self.random.below(4) {
                0 => format!("\"{}\"", self.random.below(count)),
                1 => format!("\"{}\"@en", self.random.below(count)),
                2 => self.random.below(count).to_string(),
                _ => term(self.random),
            };
            self.token(&object);
            self.token(".");
        }
    }

    fn graph(&mut self) {
        match self.random.below(4) {
            0 => {}
            1 => {
                self.keyword("GRAPH");
                self.label();
            }
            _ => self.label(),
        }
        self.token("{");
        let count = self.random.below(4);
        for i in 0..count {
            let dot = i + 1 < count || self.random.once_in(2);
            self.triples(dot);
        }
        self.token("}");
    }

    fn label(&mut self) {
        match self.random.below(4) {
            0 => self.blank_label(),
            1 => {
                self.token("[");
                self.token("]");
            }
            _ => self.iri(),
        }
    }

    fn triples(&mut self, dot: bool) {
        let alone = match self.random.below(8) {
            0 => self.collection(),
            1 => self.bracket(),
            2 => {
                self.blank_label();
                false
            }
            _ => {
                self.iri();
                false
            }
        };
        if !(alone && self.random.once_in(2)) {
            self.predicate_object_list();
        }
        if dot {
            self.token(".");
        }
    }

    fn predicate_object_list(&mut self) {
        loop {
            if self.random.once_in(5) {
                self.token("a");
            } else {
                self.iri();
            }
            self.object();
            while self.random.once_in(5) {
                self.token(",");
                self.object();
            }
            let mut semicolon = false;
            while self.random.once_in(5) {
                self.token(";");
                semicolon = true;
            }
            if !semicolon || self.random.once_in(3) {
                return;
            }
        }
    }

    fn object(&mut self) {
        let nested = self.depth < 6;
        if nested && self.random.once_in(300) {
            return self.deep();
        }
        match self.random.below(16) {
            0 | 1 if nested => drop(self.collection()),
            2 | 3 if nested => drop(self.bracket()),
            4 => self.blank_label(),
            5..=7 => self.number(),
            8..=11 => self.string(),
            _ => self.iri(),
        }
    }

    /// Lists and brackets about as deep as they may be.
    fn deep(&mut self) {
        let levels = 55 + self.random.below(11);
        let lists: Vec<bool> = (0..levels).map(|_| self.random.once_in(2)).collect();
        for &list in &lists {
            self.token(if list { "(" } else { "[" });
            if !list || self.random.once_in(4) {
                self.iri();
            }
        }
        for &list in lists.iter().rev() {
            if !list && self.out.last() != Some(&b']') && self.out.last() != Some(&b')') {
                self.number();
            }
            self.token(if list { ")" } else { "]" });
        }
    }

    /// A list; false, as it cannot stand alone.
    fn collection(&mut self) -> bool {
        self.token("(");
        self.depth += 1;
        while self.random.below(3) > 0 {
            self.object();
        }
        self.depth -= 1;
        self.token(")");
        false
    }

    /// Brackets; true if they have properties.
    fn bracket(&mut self) -> bool {
        self.token("[");
        let properties = self.random.below(3) > 0;
        if properties {
            self.depth += 1;
            self.predicate_object_list();
            self.depth -= 1;
        }
        self.token("]");
        properties
    }

    fn iri(&mut self) {
        if self.prefixes.is_empty() || self.random.once_in(2) {
            self.reference();
        } else {
            let prefix = if self.random.once_in(60) { "none".to_string() } else { self.random.pick(&self.prefixes).clone() };
            let local = *self.random.pick(LOCALS);
            self.token(&format!("{prefix}:{local}"));
        }
    }

    fn reference(&mut self) {
        let relative = if self.base { self.random.once_in(2) } else { self.random.once_in(60) };
        let text = match (relative, self.random.below(4)) {
            (_, 0) if self.random.once_in(20) => self.long_reference(relative),
            (true, 0) => self.random_reference(),
            (true, _) => self.random.pick(RELATIVE).to_string(),
            (false, _) => self.random.pick(ABSOLUTE).to_string(),
        };
        let escaped = if self.random.once_in(8) { self.with_escapes(&text) } else { text };
        self.token(&format!("<{escaped}>"));
    }

    /// A reference of the characters that resolution looks at.
    fn random_reference(&mut self) -> String {
        const CHARACTERS: &[char] = &['.', '.', '.', '/', '/', '/', '?', '#', ':', 'a', 'b'];
        (0..self.random.below(14)).map(|_| *self.random.pick(CHARACTERS)).collect()
    }

    /// A reference about as long as it may be.
    fn long_reference(&mut self, relative: bool) -> String {
        let part = *self.random.pick(&["a", "./", "../", "a/", "é", "/../a"]);
        let length = 990 + self.random.below(40);
        let scheme = if relative { "" } else { "x:" };
        let parts = part.repeat((length - scheme.len()) / part.len());
        let rest = "b".repeat(length - scheme.len() - parts.len());
        format!("{scheme}{parts}{rest}")
    }

    /// Some characters as numeric escapes, and sometimes one that an IRIREF forbids.
    fn with_escapes(&mut self, text: &str) -> String {
        let mut out = String::new();
        for c in text.chars() {
            match self.random.below(6) {
                0 => out += &format!("\\u{:04x}", c as u32),
                1 => out += &format!("\\U{:08X}", c as u32),
                _ => out.push(c),
            }
        }
        if self.random.once_in(3) {
            out += *self.random.pick(&["\\u0020", "\\u003C", "\\u005C", "\\u0000", "\\u007D", "\\u000A"]);
        }
        out
    }

    fn blank_label(&mut self) {
        let label = *self.random.pick(LABELS);
        self.token(&format!("_:{label}"));
    }

    fn number(&mut self) {
        let text = match self.random.below(6) {
            0 => "true",
            1 => "false",
            _ => *self.random.pick(NUMBERS),
        };
        self.token(text);
    }

    fn string(&mut self) {
        let quotes = *self.random.pick(&["\"", "'", "\"", "\"\"\"", "'''"]);
        let text = if quotes.len() == 3 && self.random.once_in(2) {
            let quote = &quotes[..self.random.below(3)];
            format!("{quote}{}{quote}é", self.random.pick(LONG_TEXTS))
        } else {
            self.random.pick(TEXTS).to_string()
        };
        self.token(&format!("{quotes}{text}{quotes}"));
        match self.random.below(4) {
            0 => {
                let tag = *self.random.pick(TAGS);
                self.token(&format!("@{tag}"));
            }
            1 => {
                self.token("^^");
                self.iri();
            }
            _ => {}
        }
    }
}

/// Tokens taken away, doubled, exchanged or put in.
fn damage_tokens(random: &mut Random, document: &mut Vec<u8>) {
    for _ in 0..=random.below(3) {
        let tokens = lexer::tokens(document);
        if tokens.is_empty() {
            return;
        }
        let token = *random.pick(&tokens);
        let other = *random.pick(&tokens);
        let text = document[token.start..token.end].to_vec();
        let other_text = document[other.start..other.end].to_vec();
        match random.below(5) {
            0 => drop(document.drain(token.start..token.end)),
            1 => drop(document.splice(token.end..token.end, [b" ", &text[..]].concat())),
            2 => drop(document.splice(token.start..token.end, other_text)),
            3 => drop(document.splice(token.start..token.end, random.pick(SCRAPS).bytes())),
            _ => {
                let scrap = *random.pick(SCRAPS);
                drop(document.splice(token.end..token.end, format!(" {scrap} ").into_bytes()));
            }
        }
    }
}

/// Bytes changed, taken away or put in, and the end cut off.
fn damage_bytes(random: &mut Random, document: &mut Vec<u8>) {
    for _ in 0..=random.below(3) {
        if document.is_empty() {
            return;
        }
        let place = random.below(document.len());
        match random.below(6) {
            0 => document[place] = random.next() as u8,
            1 => document[place] ^= 1 << random.below(8),
            2 => drop(document.remove(place)),
            3 => document.insert(place, *random.pick(b"<>\"'#@.:;,\\[](){}_-%^a1 \n\0\x7f\xc3\xe2\xf0\xff\x80")),
            4 => drop(document.splice(place..place, random.pick(SCRAPS).bytes())),
            _ => document.truncate(place),
        }
    }
}
