//! A strict reader of JSON texts (RFC 8259): it takes nothing that the grammar does not have, and no name twice in one object.

use std::fmt;

#[derive(Clone, Debug, PartialEq)]
pub enum Value {
    Null,
    Bool(bool),
    /// The numbers of these texts are whole and not negative.
    Number(u64),
    Text(String),
    List(Vec<Value>),
    Object(Vec<(String, Value)>),
}

impl Value {
    /// The value of a name.
    pub fn get(&self, name: &str) -> Option<&Value> {
        match self {
            Value::Object(fields) => fields.iter().find(|(n, _)| n == name).map(|(_, value)| value),
            _ => None,
        }
    }

    pub fn at(&self, name: &str) -> &Value {
        self.get(name).unwrap_or_else(|| panic!("no {name} in {self}"))
    }

    pub fn number(&self) -> u64 {
        match self {
            Value::Number(n) => *n,
            _ => panic!("no number: {self}"),
        }
    }

    pub fn text(&self) -> &str {
        match self {
            Value::Text(text) => text,
            _ => panic!("no text: {self}"),
        }
    }

    pub fn list(&self) -> &[Value] {
        match self {
            Value::List(values) => values,
            _ => panic!("no list: {self}"),
        }
    }

    pub fn is_true(&self) -> bool {
        match self {
            Value::Bool(value) => *value,
            _ => panic!("neither true nor false: {self}"),
        }
    }

    /// The names of an object's fields, in their order.
    pub fn names(&self) -> Vec<&str> {
        match self {
            Value::Object(fields) => fields.iter().map(|(name, _)| name.as_str()).collect(),
            _ => panic!("no object: {self}"),
        }
    }

    /// A list of numbers.
    pub fn numbers(&self) -> Vec<u64> {
        self.list().iter().map(Value::number).collect()
    }
}

impl fmt::Display for Value {
    fn fmt(&self, f: &mut fmt::Formatter) -> fmt::Result {
        write!(f, "{self:?}")
    }
}

struct Reader<'a> {
    text: &'a [u8],
    at: usize,
}

type Read<T> = Result<T, String>;

/// The value of a whole text. An error says where the text is none.
pub fn parse(text: &str) -> Read<Value> {
    let mut reader = Reader { text: text.as_bytes(), at: 0 };
    let value = reader.value()?;
    reader.space();
    match reader.at == text.len() {
        true => Ok(value),
        false => Err(format!("more behind the value, at byte {}", reader.at)),
    }
}

impl Reader<'_> {
    fn peek(&self) -> Option<u8> {
        self.text.get(self.at).copied()
    }

    fn wrong<T>(&self, what: &str) -> Read<T> {
        let near = String::from_utf8_lossy(&self.text[self.at.min(self.text.len())..(self.at + 40).min(self.text.len())]).into_owned();
        Err(format!("{what} at byte {}: {near:?}", self.at))
    }

    fn space(&mut self) {
        while matches!(self.peek(), Some(b' ' | b'\t' | b'\r' | b'\n')) {
            self.at += 1;
        }
    }

    fn take(&mut self, byte: u8) -> Read<()> {
        self.space();
        if self.peek() != Some(byte) {
            return self.wrong(&format!("no {:?}", char::from(byte)));
        }
        self.at += 1;
        Ok(())
    }

    fn value(&mut self) -> Read<Value> {
        self.space();
        match self.peek() {
            Some(b'{') => self.object(),
            Some(b'[') => self.list(),
            Some(b'"') => self.string().map(Value::Text),
            Some(b'0'..=b'9') => self.number(),
            _ => self.word(),
        }
    }

    fn word(&mut self) -> Read<Value> {
        for (word, value) in [("null", Value::Null), ("true", Value::Bool(true)), ("false", Value::Bool(false))] {
            if self.text[self.at..].starts_with(word.as_bytes()) {
                self.at += word.len();
                return Ok(value);
            }
        }
        self.wrong("no value")
    }

    fn number(&mut self) -> Read<Value> {
        let start = self.at;
        while matches!(self.peek(), Some(b'0'..=b'9')) {
            self.at += 1;
        }
        let digits = std::str::from_utf8(&self.text[start..self.at]).map_err(|e| e.to_string())?;
        if digits.len() > 1 && digits.starts_with('0') || matches!(self.peek(), Some(b'.' | b'e' | b'E')) {
            return self.wrong("no whole number");
        }
        digits.parse().map(Value::Number).map_err(|e| e.to_string())
    }

    /// Whether another element follows, or the end of a list or an object is reached.
    fn goes_on(&mut self, end: u8) -> Read<bool> {
        self.space();
        match self.peek() {
            Some(b',') => self.take(b',').map(|()| true),
            _ => self.take(end).map(|()| false),
        }
    }

    fn is_empty(&mut self, end: u8) -> bool {
        self.space();
        let empty = self.peek() == Some(end);
        self.at += usize::from(empty);
        empty
    }

    fn list(&mut self) -> Read<Value> {
        self.take(b'[')?;
        let mut values = Vec::new();
        if self.is_empty(b']') {
            return Ok(Value::List(values));
        }
        loop {
            values.push(self.value()?);
            if !self.goes_on(b']')? {
                return Ok(Value::List(values));
            }
        }
    }

    fn object(&mut self) -> Read<Value> {
        self.take(b'{')?;
        let mut fields: Vec<(String, Value)> = Vec::new();
        if self.is_empty(b'}') {
            return Ok(Value::Object(fields));
        }
        loop {
            self.space();
            let name = self.string()?;
            if fields.iter().any(|(n, _)| *n == name) {
                return self.wrong(&format!("{name} twice"));
            }
            self.take(b':')?;
            fields.push((name, self.value()?));
            if !self.goes_on(b'}')? {
                return Ok(Value::Object(fields));
            }
        }
    }

    fn string(&mut self) -> Read<String> {
        if self.peek() != Some(b'"') {
            return self.wrong("no string");
        }
        self.at += 1;
        let mut bytes = Vec::new();
        loop {
            match self.peek() {
                Some(b'"') => break,
                Some(b'\\') => bytes.extend(self.escaped()?.to_string().as_bytes()),
                Some(b) if b >= b' ' => {
                    bytes.push(b);
                    self.at += 1;
                }
                _ => return self.wrong("a string without its end, or with a control byte"),
            }
        }
        self.at += 1;
        String::from_utf8(bytes).map_err(|e| e.to_string())
    }

    /// The letter behind a backslash. Pairs of surrogates are not taken: no text of the command has them.
    fn escaped(&mut self) -> Read<char> {
        let plain = [(b'"', '"'), (b'\\', '\\'), (b'/', '/'), (b'b', '\u{8}'), (b'f', '\u{c}'), (b'n', '\n'), (b'r', '\r'), (b't', '\t')];
        let kind = self.text.get(self.at + 1).copied();
        if let Some((_, c)) = plain.iter().find(|(b, _)| Some(*b) == kind) {
            self.at += 2;
            return Ok(*c);
        }
        let digits = self.text.get(self.at + 2..self.at + 6).filter(|d| kind == Some(b'u') && d.iter().all(u8::is_ascii_hexdigit));
        let code = digits.and_then(|d| u32::from_str_radix(std::str::from_utf8(d).ok()?, 16).ok());
        match code.and_then(char::from_u32) {
            Some(c) => {
                self.at += 6;
                Ok(c)
            }
            None => self.wrong("no escape"),
        }
    }
}
