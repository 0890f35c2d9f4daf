//! A reader of JSON, for the report of the library.

/// A value of JSON. A number is a whole one: the report has no others.
#[derive(Debug, Clone, PartialEq)]
pub(crate) enum Value {
    Null,
    Bool(bool),
    Number(i64),
    Text(String),
    Array(Vec<Value>),
    Object(Vec<(String, Value)>),
}

impl Value {
    /// The member of an object.
    pub fn member(&self, name: &str) -> Option<&Value> {
        match self {
            Value::Object(members) => members.iter().find(|(key, _)| key == name).map(|(_, v)| v),
            _ => None,
        }
    }

    /// The values of an array, or none of anything else.
    pub fn items(&self) -> &[Value] {
        match self {
            Value::Array(items) => items,
            _ => &[],
        }
    }

    pub fn as_text(&self) -> Option<&str> {
        match self {
            Value::Text(text) => Some(text),
            _ => None,
        }
    }

    pub fn as_number(&self) -> Option<i64> {
        match self {
            Value::Number(number) => Some(*number),
            _ => None,
        }
    }
}

/// The value that a text is, with nothing behind it but white space.
pub(crate) fn parse(text: &str) -> Option<Value> {
    let mut reader = Reader { rest: text };
    let value = reader.value(0)?;
    reader.skip_space();
    reader.rest.is_empty().then_some(value)
}

/// How deep arrays and objects may nest. The report nests three deep.
const LEVELS: u32 = 16;

struct Reader<'a> {
    rest: &'a str,
}

impl<'a> Reader<'a> {
    fn skip_space(&mut self) {
        self.rest = self.rest.trim_start_matches([' ', '\t', '\n', '\r']);
    }

    /// Takes a word where it stands next, behind white space.
    fn takes(&mut self, word: &str) -> bool {
        self.skip_space();
        match self.rest.strip_prefix(word) {
            Some(rest) => {
                self.rest = rest;
                true
            }
            None => false,
        }
    }

    fn value(&mut self, level: u32) -> Option<Value> {
        if level > LEVELS {
            return None;
        }
        self.skip_space();
        match self.rest.as_bytes().first()? {
            b'{' => self.object(level),
            b'[' => self.array(level),
            b'"' => Some(Value::Text(self.text()?)),
            b'n' => self.takes("null").then_some(Value::Null),
            b't' => self.takes("true").then_some(Value::Bool(true)),
            b'f' => self.takes("false").then_some(Value::Bool(false)),
            _ => self.number(),
        }
    }

    fn number(&mut self) -> Option<Value> {
        let is_part = |c: char| c == '-' || c.is_ascii_digit();
        let end = self.rest.find(|c| !is_part(c)).unwrap_or(self.rest.len());
        let (digits, rest) = self.rest.split_at(end);
        self.rest = rest;
        digits.parse().ok().map(Value::Number)
    }

    fn array(&mut self, level: u32) -> Option<Value> {
        let mut items = Vec::new();
        self.takes("[");
        if self.takes("]") {
            return Some(Value::Array(items));
        }
        loop {
            items.push(self.value(level + 1)?);
            if self.takes("]") {
                return Some(Value::Array(items));
            }
            if !self.takes(",") {
                return None;
            }
        }
    }

    fn object(&mut self, level: u32) -> Option<Value> {
        let mut members = Vec::new();
        self.takes("{");
        if self.takes("}") {
            return Some(Value::Object(members));
        }
        loop {
            self.skip_space();
            let name = self.text()?;
            if !self.takes(":") {
                return None;
            }
            members.push((name, self.value(level + 1)?));
            if self.takes("}") {
                return Some(Value::Object(members));
            }
            if !self.takes(",") {
                return None;
            }
        }
    }

    /// A string, whose first quote stands next.
    fn text(&mut self) -> Option<String> {
        self.rest = self.rest.strip_prefix('"')?;
        let mut text = String::new();
        loop {
            let end = self.rest.find(['"', '\\'])?;
            text.push_str(&self.rest[..end]);
            let is_end = self.rest.as_bytes()[end] == b'"';
            self.rest = &self.rest[end + 1..];
            if is_end {
                return Some(text);
            }
            text.push(self.escaped()?);
        }
    }

    /// The character of an escape, behind its backslash.
    fn escaped(&mut self) -> Option<char> {
        let mut chars = self.rest.chars();
        let letter = chars.next()?;
        self.rest = chars.as_str();
        Some(match letter {
            'n' => '\n',
            't' => '\t',
            'r' => '\r',
            'b' => '\u{8}',
            'f' => '\u{c}',
            'u' => return self.by_code(),
            '"' | '\\' | '/' => letter,
            _ => return None,
        })
    }

    /// The character of four digits, or of two surrogates.
    fn by_code(&mut self) -> Option<char> {
        let first = self.four_digits()?;
        if !(0xd800..0xdc00).contains(&first) {
            return char::from_u32(first);
        }
        self.rest = self.rest.strip_prefix("\\u")?;
        let second = self.four_digits()?.checked_sub(0xdc00)?;
        char::from_u32(0x10000 + ((first - 0xd800) << 10) + second)
    }

    fn four_digits(&mut self) -> Option<u32> {
        let digits = self.rest.get(..4)?;
        if !digits.bytes().all(|b| b.is_ascii_hexdigit()) {
            return None;
        }
        self.rest = &self.rest[4..];
        u32::from_str_radix(digits, 16).ok()
    }
}

#[cfg(test)]
mod tests {
    use super::*;

    #[test]
    fn values_are_read() {
        let text =
            "{\"a\": [1, -20, null, true], \"b\":{\"c\":\"x\\\"\\\\\\u00e9\\ud83d\\ude00\\n\"}}\n";
        let value = parse(text).unwrap();
        let wanted = [
            Value::Number(1),
            Value::Number(-20),
            Value::Null,
            Value::Bool(true),
        ];
        assert_eq!(value.member("a").unwrap().items(), &wanted);
        let inner = value.member("b").and_then(|b| b.member("c"));
        assert_eq!(inner.and_then(Value::as_text), Some("x\"\\é😀\n"));
    }

    #[test]
    fn what_is_no_value_is_refused() {
        let wrong = [
            "",
            "{",
            "[1,]",
            "{\"a\"}",
            "nul",
            "\"\\u12\"",
            "\"\\ud800x\"",
            "1 2",
            "\"a",
            "-",
        ];
        for text in wrong {
            assert_eq!(parse(text), None, "{text}");
        }
        assert_eq!(parse(&"[".repeat(1000)), None);
    }
}
