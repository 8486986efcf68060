//! Reads a line of JSON that the library wrote.

/// A value of JSON. Numbers are whole.
#[derive(Clone, Debug, PartialEq, Eq)]
pub(crate) enum Value {
    Null,
    Bool(bool),
    Number(u64),
    Text(String),
    List(Vec<Value>),
    Object(Vec<(String, Value)>),
}

impl Value {
    /// Returns a field of an object.
    pub(crate) fn field(&self, name: &str) -> Option<&Value> {
        match self {
            Value::Object(fields) => fields.iter().find(|(it, _)| it == name).map(|(_, value)| value),
            _ => None,
        }
    }

    /// Returns the text, if it is one.
    pub(crate) fn text(&self) -> Option<&str> {
        match self {
            Value::Text(text) => Some(text),
            _ => None,
        }
    }

    /// Returns the number, if it is one.
    pub(crate) fn number(&self) -> Option<u64> {
        match self {
            Value::Number(number) => Some(*number),
            _ => None,
        }
    }

    /// Returns the truth value, if it is one.
    pub(crate) fn bool(&self) -> Option<bool> {
        match self {
            Value::Bool(value) => Some(*value),
            _ => None,
        }
    }

    /// Returns the members, if it is a list.
    pub(crate) fn list(&self) -> Option<&[Value]> {
        match self {
            Value::List(members) => Some(members),
            _ => None,
        }
    }
}

/// How deep values may be nested. A line of a package has three levels.
const DEPTH: usize = 16;

/// Parses the whole text as a value.
pub(crate) fn read(text: &str) -> Option<Value> {
    let mut reader = Reader { rest: text };
    let value = reader.value(DEPTH)?;
    reader.skip_space();
    reader.rest.is_empty().then_some(value)
}

struct Reader<'a> {
    rest: &'a str,
}

impl Reader<'_> {
    fn skip_space(&mut self) {
        self.rest = self.rest.trim_start_matches([' ', '\t', '\n', '\r']);
    }

    /// Takes this text, after white space, or nothing.
    fn take(&mut self, text: &str) -> Option<()> {
        self.skip_space();
        self.rest = self.rest.strip_prefix(text)?;
        Some(())
    }

    fn next(&mut self) -> Option<char> {
        let mut characters = self.rest.chars();
        let next = characters.next()?;
        self.rest = characters.as_str();
        Some(next)
    }

    fn value(&mut self, depth: usize) -> Option<Value> {
        let depth = depth.checked_sub(1)?;
        self.skip_space();
        match self.rest.chars().next()? {
            '{' => self
                .members('{', '}', |reader| {
                    let name = reader.text()?;
                    reader.take(":")?;
                    Some((name, reader.value(depth)?))
                })
                .map(Value::Object),
            '[' => self.members('[', ']', |reader| reader.value(depth)).map(Value::List),
            '"' => self.text().map(Value::Text),
            'n' => self.take("null").map(|()| Value::Null),
            't' => self.take("true").map(|()| Value::Bool(true)),
            'f' => self.take("false").map(|()| Value::Bool(false)),
            _ => self.number().map(Value::Number),
        }
    }

    /// Reads members with commas between them.
    fn members<T>(&mut self, open: char, close: char, member: impl Fn(&mut Self) -> Option<T>) -> Option<Vec<T>> {
        let mut members = Vec::new();
        self.rest = self.rest.strip_prefix(open)?;
        self.skip_space();
        if let Some(rest) = self.rest.strip_prefix(close) {
            self.rest = rest;
            return Some(members);
        }
        loop {
            members.push(member(self)?);
            self.skip_space();
            match self.next()? {
                ',' => {}
                other => return (other == close).then_some(members),
            }
        }
    }

    fn number(&mut self) -> Option<u64> {
        let end = self.rest.find(|c: char| !c.is_ascii_digit()).unwrap_or(self.rest.len());
        let (digits, rest) = (self.rest.get(..end)?, self.rest.get(end..)?);
        self.rest = rest;
        digits.parse().ok()
    }

    fn text(&mut self) -> Option<String> {
        self.take("\"")?;
        let mut text = String::new();
        loop {
            match self.next()? {
                '"' => return Some(text),
                '\\' => text.push(self.escaped()?),
                other => text.push(other),
            }
        }
    }

    fn escaped(&mut self) -> Option<char> {
        Some(match self.next()? {
            'b' => '\u{8}',
            'f' => '\u{c}',
            'n' => '\n',
            'r' => '\r',
            't' => '\t',
            'u' => return self.of_unit(),
            other => matches!(other, '"' | '\\' | '/').then_some(other)?,
        })
    }

    /// Reads the digits of a unit of UTF-16, and of the second one of a pair.
    fn of_unit(&mut self) -> Option<char> {
        let first = self.unit()?;
        let units = if (0xd800..0xdc00).contains(&first) {
            self.rest = self.rest.strip_prefix("\\u")?;
            vec![first, self.unit()?]
        } else {
            vec![first]
        };
        char::decode_utf16(units).next()?.ok()
    }

    fn unit(&mut self) -> Option<u16> {
        let digits = self.rest.get(..4).filter(|it| it.bytes().all(|b| b.is_ascii_hexdigit()))?;
        let unit = u16::from_str_radix(digits, 16).ok()?;
        self.rest = self.rest.get(4..)?;
        Some(unit)
    }
}

#[cfg(test)]
mod tests {
    use super::{read, Value};

    fn text(it: &str) -> Value {
        Value::Text(it.to_string())
    }

    #[test]
    fn values_are_read() {
        assert_eq!(read(" null "), Some(Value::Null));
        assert_eq!(read("[true, false]"), Some(Value::List(vec![Value::Bool(true), Value::Bool(false)])));
        assert_eq!(read("18446744073709551615"), Some(Value::Number(u64::MAX)));
        assert_eq!(read("[]"), Some(Value::List(vec![])));
        let object = read(r#"{"a": 320, "b": ["x", null], "c": {}}"#).expect("an object");
        assert_eq!(object.field("a").and_then(Value::number), Some(320));
        assert_eq!(object.field("b").and_then(Value::list), Some(&[text("x"), Value::Null][..]));
        assert_eq!(object.field("c"), Some(&Value::Object(vec![])));
        assert_eq!(object.field("d"), None);
    }

    #[test]
    fn escapes_are_those_of_json() {
        assert_eq!(read(r#""\"\\\/\b\f\n\r\t""#), Some(text("\"\\/\u{8}\u{c}\n\r\t")));
        assert_eq!(read(r#""\u00e9\u202E\uD834\uDD1E é""#), Some(text("é\u{202e}𝄞 é")));
    }

    #[test]
    fn other_texts_are_no_values() {
        for it in [
            "",
            "nul",
            "[",
            "[1",
            "[1,",
            "[1,]",
            "[1 2]",
            "{\"a\"}",
            "{\"a\":}",
            "{1: 2}",
            "\"a",
            "\"\\x\"",
            "1 2",
            "\"\\u12\"",
            "\"\\u+123\"",
            "\"\\ud834\"",
            "\"\\ud834\\u0041\"",
            "-1",
            "1.5",
            "18446744073709551616",
            "}",
        ] {
            assert_eq!(read(it), None, "{it}");
        }
        assert!(read(&format!("{}{}", "[".repeat(16), "]".repeat(16))).is_some());
        assert_eq!(read(&format!("{}{}", "[".repeat(17), "]".repeat(17))), None);
        assert_eq!(read(&"[".repeat(1_000_000)), None);
    }
}
