//! JSON, written and read.
use std::fmt::{Display, Formatter, Result as Written, Write};

#[derive(Clone, Debug, PartialEq)]
pub enum Json {
    Null,
    Bool(bool),
    Number(f64),
    Text(String),
    List(Vec<Json>),
    Object(Vec<(String, Json)>),
}

/// Lists and objects in one another, at most.
const DEPTH: usize = 64;

impl Json {
    pub fn text(text: impl Into<String>) -> Json {
        Json::Text(text.into())
    }

    pub fn number(number: impl Into<f64>) -> Json {
        Json::Number(number.into())
    }

    pub fn numbers(bytes: &[u8]) -> Json {
        Json::List(bytes.iter().map(|b| Json::number(*b)).collect())
    }

    pub fn list(items: impl IntoIterator<Item = Json>) -> Json {
        Json::List(items.into_iter().collect())
    }

    pub fn object<const N: usize>(fields: [(&str, Json); N]) -> Json {
        Json::Object(fields.map(|(name, value)| (name.to_string(), value)).into())
    }

    /// The field of an object.
    pub fn get(&self, name: &str) -> Option<&Json> {
        match self {
            Json::Object(fields) => fields.iter().find(|(n, _)| n == name).map(|(_, value)| value),
            _ => None,
        }
    }

    /// One value and nothing behind it but blanks; or what is wrong.
    pub fn parse(text: &str) -> Result<Json, String> {
        let mut reader = Reader { rest: text };
        let value = reader.value(0)?;
        reader.blanks();
        if reader.rest.is_empty() { Ok(value) } else { Err(format!("{} behind the value", reader.found())) }
    }
}

fn quoted(text: &str, f: &mut Formatter) -> Written {
    f.write_char('"')?;
    for c in text.chars() {
        match c {
            '"' => f.write_str("\\\"")?,
            '\\' => f.write_str("\\\\")?,
            '\n' => f.write_str("\\n")?,
            // No text ends the script of a page that it stands in.
            '<' | '\0'..='\u{1f}' | '\u{2028}' | '\u{2029}' => write!(f, "\\u{:04x}", c as u32)?,
            c => f.write_char(c)?,
        }
    }
    f.write_char('"')
}

impl Display for Json {
    fn fmt(&self, f: &mut Formatter) -> Written {
        let comma = |f: &mut Formatter, i: usize| if i > 0 { f.write_char(',') } else { Ok(()) };
        match self {
            Json::Null => f.write_str("null"),
            Json::Bool(b) => write!(f, "{b}"),
            Json::Number(n) => write!(f, "{n}"),
            Json::Text(text) => quoted(text, f),
            Json::List(items) => {
                f.write_char('[')?;
                for (i, item) in items.iter().enumerate() {
                    comma(f, i)?;
                    write!(f, "{item}")?;
                }
                f.write_char(']')
            }
            Json::Object(fields) => {
                f.write_char('{')?;
                for (i, (name, value)) in fields.iter().enumerate() {
                    comma(f, i)?;
                    quoted(name, f)?;
                    write!(f, ":{value}")?;
                }
                f.write_char('}')
            }
        }
    }
}

struct Reader<'a> {
    rest: &'a str,
}

impl Reader<'_> {
    fn blanks(&mut self) {
        self.rest = self.rest.trim_start_matches([' ', '\t', '\n', '\r']);
    }

    /// What stands next, for an error.
    fn found(&self) -> String {
        self.rest.chars().next().map_or("the end".to_string(), |c| format!("{c:?}"))
    }

    fn next(&mut self) -> Option<char> {
        let mut chars = self.rest.chars();
        let c = chars.next();
        self.rest = chars.as_str();
        c
    }

    fn take(&mut self, word: &str) -> bool {
        let there = self.rest.strip_prefix(word);
        self.rest = there.unwrap_or(self.rest);
        there.is_some()
    }

    fn want(&mut self, word: &str) -> Result<(), String> {
        self.blanks();
        if self.take(word) { Ok(()) } else { Err(format!("{} where {word:?} is due", self.found())) }
    }

    fn value(&mut self, depth: usize) -> Result<Json, String> {
        self.blanks();
        if depth > DEPTH {
            return Err(format!("more than {DEPTH} lists and objects in one another"));
        }
        match self.rest.chars().next() {
            Some('{') => self.object(depth),
            Some('[') => self.list(depth),
            Some('"') => self.string().map(Json::Text),
            _ if self.take("null") => Ok(Json::Null),
            _ if self.take("true") => Ok(Json::Bool(true)),
            _ if self.take("false") => Ok(Json::Bool(false)),
            _ => self.number(),
        }
    }

    fn object(&mut self, depth: usize) -> Result<Json, String> {
        let mut fields: Vec<(String, Json)> = vec![];
        self.want("{")?;
        self.blanks();
        if self.take("}") {
            return Ok(Json::Object(fields));
        }
        loop {
            self.blanks();
            let name = self.string()?;
            if fields.iter().any(|(n, _)| *n == name) {
                return Err(format!("{name:?} twice in one object"));
            }
            self.want(":")?;
            fields.push((name, self.value(depth + 1)?));
            self.blanks();
            if !self.take(",") {
                self.want("}")?;
                return Ok(Json::Object(fields));
            }
        }
    }

    fn list(&mut self, depth: usize) -> Result<Json, String> {
        let mut items = vec![];
        self.want("[")?;
        self.blanks();
        if self.take("]") {
            return Ok(Json::List(items));
        }
        loop {
            items.push(self.value(depth + 1)?);
            self.blanks();
            if !self.take(",") {
                self.want("]")?;
                return Ok(Json::List(items));
            }
        }
    }

    fn number(&mut self) -> Result<Json, String> {
        let end = self.rest.find(|c: char| !matches!(c, '0'..='9' | '-' | '+' | '.' | 'e' | 'E')).unwrap_or(self.rest.len());
        let digits = &self.rest[..end];
        let number = digits.parse().ok().filter(|n: &f64| n.is_finite() && !digits.starts_with(['+', '.']));
        let number = number.ok_or_else(|| format!("{} where a value is due", self.found()))?;
        self.rest = &self.rest[end..];
        Ok(Json::Number(number))
    }

    fn string(&mut self) -> Result<String, String> {
        let mut out = String::new();
        self.want("\"")?;
        loop {
            match self.next() {
                Some('"') => return Ok(out),
                Some('\\') => out.push(self.escaped()?),
                Some(c) if c >= ' ' => out.push(c),
                Some(c) => return Err(format!("{c:?} in a text")),
                None => return Err("a text without its end".to_string()),
            }
        }
    }

    fn escaped(&mut self) -> Result<char, String> {
        match self.next() {
            Some(c @ ('"' | '\\' | '/')) => Ok(c),
            Some('n') => Ok('\n'),
            Some('t') => Ok('\t'),
            Some('r') => Ok('\r'),
            Some('b') => Ok('\u{8}'),
            Some('f') => Ok('\u{c}'),
            Some('u') => {
                let unit = self.unit()?;
                let units = if (0xd800..0xdc00).contains(&unit) && self.take("\\u") { vec![unit, self.unit()?] } else { vec![unit] };
                char::decode_utf16(units).next().and_then(Result::ok).ok_or_else(|| format!("\\u{unit:04x} is no character"))
            }
            _ => Err("an unknown \\ in a text".to_string()),
        }
    }

    fn unit(&mut self) -> Result<u16, String> {
        let digits = self.rest.get(..4).filter(|d| d.chars().all(|c| c.is_ascii_hexdigit())).ok_or("four digits are due behind \\u")?;
        self.rest = &self.rest[4..];
        Ok(u16::from_str_radix(digits, 16).expect("four digits"))
    }
}
