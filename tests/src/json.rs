//! As much of JSON and base64 as the cases need.

use std::collections::HashMap;

#[derive(Debug)]
pub enum Value {
    Number(u64),
    Boolean(bool),
    String(String),
    Array(Vec<Value>),
    Object(HashMap<String, Value>),
}

/// A value that is a whole line.
pub fn parse(line: &str) -> Result<Value, String> {
    let mut parser = Parser { text: line.as_bytes(), place: 0 };
    let value = parser.value()?;
    parser.blanks();
    if parser.place == line.len() {
        Ok(value)
    } else {
        Err(parser.fault())
    }
}

struct Parser<'a> {
    text: &'a [u8],
    place: usize,
}

impl Parser<'_> {
    fn fault(&self) -> String {
        format!("no JSON at byte {}", self.place)
    }

    fn blanks(&mut self) {
        while self.text.get(self.place).is_some_and(u8::is_ascii_whitespace) {
            self.place += 1;
        }
    }

    /// Skips blanks, and a mark if it stands there.
    fn mark(&mut self, mark: u8) -> bool {
        self.blanks();
        let found = self.text.get(self.place) == Some(&mark);
        self.place += usize::from(found);
        found
    }

    fn expect(&mut self, mark: u8) -> Result<(), String> {
        if self.mark(mark) {
            Ok(())
        } else {
            Err(self.fault())
        }
    }

    fn value(&mut self) -> Result<Value, String> {
        if self.mark(b'{') {
            let mut fields = HashMap::new();
            while !self.mark(b'}') {
                let name = self.string()?;
                self.expect(b':')?;
                fields.insert(name, self.value()?);
                self.mark(b',');
            }
            Ok(Value::Object(fields))
        } else if self.mark(b'[') {
            let mut items = Vec::new();
            while !self.mark(b']') {
                items.push(self.value()?);
                self.mark(b',');
            }
            Ok(Value::Array(items))
        } else if self.text.get(self.place) == Some(&b'"') {
            self.string().map(Value::String)
        } else if self.word(b"true") {
            Ok(Value::Boolean(true))
        } else if self.word(b"false") {
            Ok(Value::Boolean(false))
        } else {
            self.number()
        }
    }

    /// Skips a word if it stands there.
    fn word(&mut self, word: &[u8]) -> bool {
        let found = self.text[self.place..].starts_with(word);
        self.place += if found { word.len() } else { 0 };
        found
    }

    /// A string without escapes: names and base64 have none.
    fn string(&mut self) -> Result<String, String> {
        self.expect(b'"')?;
        let length = self.text[self.place..].iter().position(|&b| b == b'"').ok_or_else(|| self.fault())?;
        let bytes = self.text[self.place..self.place + length].to_vec();
        if bytes.contains(&b'\\') {
            return Err(self.fault());
        }
        self.place += length + 1;
        String::from_utf8(bytes).map_err(|_| self.fault())
    }

    fn number(&mut self) -> Result<Value, String> {
        let digits = self.text[self.place..].iter().take_while(|b| b.is_ascii_digit()).count();
        let text = std::str::from_utf8(&self.text[self.place..self.place + digits]).expect("digits");
        let number = text.parse().map_err(|_| self.fault())?;
        self.place += digits;
        Ok(Value::Number(number))
    }
}

impl Value {
    pub fn field(&self, name: &str) -> Result<&Value, String> {
        match self {
            Value::Object(fields) => fields.get(name).ok_or_else(|| format!("no field {name}")),
            _ => Err(format!("no object with {name}")),
        }
    }

    pub fn number(&self) -> Result<usize, String> {
        match self {
            Value::Number(n) => usize::try_from(*n).map_err(|e| e.to_string()),
            _ => Err("no number".into()),
        }
    }

    pub fn boolean(&self) -> Result<bool, String> {
        match self {
            Value::Boolean(b) => Ok(*b),
            _ => Err("neither true nor false".into()),
        }
    }

    pub fn string(&self) -> Result<&str, String> {
        match self {
            Value::String(s) => Ok(s),
            _ => Err("no string".into()),
        }
    }

    pub fn bytes(&self) -> Result<Vec<u8>, String> {
        base64(self.string()?)
    }

    pub fn items(&self) -> Result<&[Value], String> {
        match self {
            Value::Array(items) => Ok(items),
            _ => Err("no array".into()),
        }
    }

    pub fn numbers(&self) -> Result<Vec<usize>, String> {
        self.items()?.iter().map(Value::number).collect()
    }
}

fn base64(text: &str) -> Result<Vec<u8>, String> {
    let mut out = Vec::new();
    let (mut bits, mut count) = (0u32, 0);
    for byte in text.trim_end_matches('=').bytes() {
        let digit = match byte {
            b'A'..=b'Z' => byte - b'A',
            b'a'..=b'z' => byte - b'a' + 26,
            b'0'..=b'9' => byte - b'0' + 52,
            b'+' => 62,
            b'/' => 63,
            _ => return Err("no base64".into()),
        };
        bits = (bits << 6 | u32::from(digit)) & 0xFFFF;
        count += 6;
        if count >= 8 {
            count -= 8;
            out.push((bits >> count) as u8);
        }
    }
    Ok(out)
}
