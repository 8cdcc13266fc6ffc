//! The little JSON that vectors need: objects, arrays, strings, whole numbers, true, false, null.

use std::fmt::Write;

#[derive(Clone, Debug, PartialEq, Eq)]
pub enum Json {
    Null,
    Bool(bool),
    Number(i64),
    Text(String),
    List(Vec<Json>),
    Object(Vec<(String, Json)>),
}

impl Json {
    /// Reads one value; nothing but white space may follow it.
    pub fn parse(text: &str) -> Result<Json, String> {
        let mut reader = Reader { bytes: text.as_bytes(), at: 0 };
        let value = reader.value(0)?;
        reader.spaces();
        if reader.at < reader.bytes.len() {
            return Err(reader.message("the end of the line"));
        }
        Ok(value)
    }

    pub fn get(&self, key: &str) -> Option<&Json> {
        match self {
            Json::Object(fields) => fields.iter().find(|(name, _)| name == key).map(|(_, value)| value),
            _ => None,
        }
    }
}

/// How deep values may be nested; vectors need four.
const DEPTH_LIMIT: usize = 32;

struct Reader<'a> {
    bytes: &'a [u8],
    at: usize,
}

impl Reader<'_> {
    fn message(&self, expected: &str) -> String {
        format!("broken JSON at byte {}: expected {}", self.at + 1, expected)
    }

    fn peek(&self) -> Option<u8> {
        self.bytes.get(self.at).copied()
    }

    fn spaces(&mut self) {
        while matches!(self.peek(), Some(b' ' | b'\t' | b'\r' | b'\n')) {
            self.at += 1;
        }
    }

    fn expect(&mut self, byte: u8) -> Result<(), String> {
        self.spaces();
        if self.peek() != Some(byte) {
            return Err(self.message(&format!("'{}'", byte as char)));
        }
        self.at += 1;
        Ok(())
    }

    fn word(&mut self, word: &str, value: Json) -> Result<Json, String> {
        if !self.bytes[self.at..].starts_with(word.as_bytes()) {
            return Err(self.message("a value"));
        }
        self.at += word.len();
        Ok(value)
    }

    fn value(&mut self, depth: usize) -> Result<Json, String> {
        self.spaces();
        if depth == DEPTH_LIMIT {
            return Err(self.message("fewer nested values"));
        }
        match self.peek() {
            Some(b'{') => self.object(depth),
            Some(b'[') => self.list(depth),
            Some(b'"') => Ok(Json::Text(self.text()?)),
            Some(b'-' | b'0'..=b'9') => self.number(),
            Some(b't') => self.word("true", Json::Bool(true)),
            Some(b'f') => self.word("false", Json::Bool(false)),
            Some(b'n') => self.word("null", Json::Null),
            _ => Err(self.message("a value")),
        }
    }

    /// The items up to `close`, parted by commas; the opening byte is still unread.
    fn items<T>(&mut self, close: u8, item: impl Fn(&mut Self) -> Result<T, String>) -> Result<Vec<T>, String> {
        self.at += 1;
        let mut items = Vec::new();
        self.spaces();
        if self.peek() == Some(close) {
            self.at += 1;
            return Ok(items);
        }
        loop {
            items.push(item(self)?);
            self.spaces();
            match self.peek() {
                Some(b',') => self.at += 1,
                Some(byte) if byte == close => {
                    self.at += 1;
                    return Ok(items);
                }
                _ => return Err(self.message(&format!("',' or '{}'", close as char))),
            }
        }
    }

    fn object(&mut self, depth: usize) -> Result<Json, String> {
        let field = |reader: &mut Self| {
            reader.spaces();
            let key = reader.text()?;
            reader.expect(b':')?;
            Ok((key, reader.value(depth + 1)?))
        };
        Ok(Json::Object(self.items(b'}', field)?))
    }

    fn list(&mut self, depth: usize) -> Result<Json, String> {
        Ok(Json::List(self.items(b']', |reader| reader.value(depth + 1))?))
    }

    fn number(&mut self) -> Result<Json, String> {
        let start = self.at;
        self.at += usize::from(self.peek() == Some(b'-'));
        while matches!(self.peek(), Some(b'0'..=b'9')) {
            self.at += 1;
        }
        let digits = std::str::from_utf8(&self.bytes[start..self.at]).map_err(|error| error.to_string())?;
        let whole = !matches!(self.peek(), Some(b'.' | b'e' | b'E'));
        digits.parse().ok().filter(|_| whole).map(Json::Number).ok_or_else(|| self.message("a whole number of 64 bits"))
    }

    fn text(&mut self) -> Result<String, String> {
        if self.peek() != Some(b'"') {
            return Err(self.message("a string"));
        }
        self.at += 1;
        let (mut bytes, mut start) = (Vec::new(), self.at);
        loop {
            match self.peek() {
                Some(b'"') => {
                    bytes.extend_from_slice(&self.bytes[start..self.at]);
                    self.at += 1;
                    return String::from_utf8(bytes).map_err(|error| error.to_string());
                }
                Some(b'\\') => {
                    bytes.extend_from_slice(&self.bytes[start..self.at]);
                    self.at += 1;
                    let escaped = self.escaped()?;
                    bytes.extend_from_slice(escaped.encode_utf8(&mut [0; 4]).as_bytes());
                    start = self.at;
                }
                Some(0..=31) | None => return Err(self.message("the end of the string")),
                Some(_) => self.at += 1,
            }
        }
    }

    fn escaped(&mut self) -> Result<char, String> {
        let escaped = match self.peek() {
            Some(byte @ (b'"' | b'\\' | b'/')) => byte as char,
            Some(b'n') => '\n',
            Some(b't') => '\t',
            Some(b'r') => '\r',
            Some(b'b') => '\u{8}',
            Some(b'f') => '\u{c}',
            Some(b'u') => {
                let digits =
                    self.bytes.get(self.at + 1..self.at + 5).and_then(|digits| std::str::from_utf8(digits).ok());
                let digits = digits.filter(|digits| digits.bytes().all(|digit| digit.is_ascii_hexdigit()));
                let code = digits.and_then(|digits| u32::from_str_radix(digits, 16).ok());
                let Some(found) = code.and_then(char::from_u32) else {
                    return Err(self.message("four hexadecimal digits of a character"));
                };
                self.at += 4;
                found
            }
            _ => return Err(self.message("a string escape")),
        };
        self.at += 1;
        Ok(escaped)
    }
}

/// Bytes as lower-case hexadecimal digits.
pub fn to_hex(bytes: &[u8], text: &mut String) {
    const DIGITS: &[u8; 16] = b"0123456789abcdef";
    text.reserve(bytes.len() * 2);
    for &byte in bytes {
        text.push(DIGITS[usize::from(byte >> 4)] as char);
        text.push(DIGITS[usize::from(byte & 15)] as char);
    }
}

pub fn from_hex(text: &str) -> Result<Vec<u8>, String> {
    let digits = text.as_bytes();
    if !digits.len().is_multiple_of(2) {
        return Err("an odd number of hexadecimal digits".to_string());
    }
    let value = |digit: u8| (digit as char).to_digit(16).ok_or("a byte that is no hexadecimal digit");
    digits.chunks(2).map(|pair| Ok((value(pair[0])? * 16 + value(pair[1])?) as u8)).collect()
}

/// A string in quotes, for messages and for names in generated vectors.
pub fn quoted(text: &str) -> String {
    let mut quoted = String::from("\"");
    for letter in text.chars() {
        match letter {
            '"' => quoted.push_str("\\\""),
            '\\' => quoted.push_str("\\\\"),
            control @ '\0'..='\u{1f}' => {
                let _ = write!(quoted, "\\u{:04x}", control as u32);
            }
            other => quoted.push(other),
        }
    }
    quoted.push('"');
    quoted
}

#[cfg(test)]
mod tests {
    use super::*;

    #[test]
    fn values_are_read() {
        let value = Json::parse(r#" {"a": [1, -2, true, null], "b\"\u0041": "x\n", "c": {}, "d": []} "#).unwrap();
        assert_eq!(
            value.get("a"),
            Some(&Json::List(vec![Json::Number(1), Json::Number(-2), Json::Bool(true), Json::Null]))
        );
        assert_eq!(value.get("b\"A"), Some(&Json::Text("x\n".to_string())));
        assert_eq!(value.get("c"), Some(&Json::Object(vec![])));
        assert_eq!(value.get("d"), Some(&Json::List(vec![])));
        assert_eq!(value.get("e"), None);
    }

    #[test]
    fn broken_json_gets_a_message() {
        let deep = "[".repeat(100_000);
        let broken = [
            "",
            "{",
            "{\"a\"}",
            "[1,",
            "[1 2]",
            "\"a",
            "\"\\x\"",
            "\"\\u12\"",
            "\"\\u+041\"",
            "\"\\u+041\"",
            "1.5",
            "1e3",
            "-",
            "tru",
            "{} x",
            "99999999999999999999",
            &deep,
        ];
        for text in broken {
            assert!(Json::parse(text).is_err(), "{}", &text[..text.len().min(20)]);
        }
    }

    #[test]
    fn hexadecimal_goes_both_ways() {
        let all: Vec<u8> = (0..=255).collect();
        let mut text = String::new();
        to_hex(&all, &mut text);
        assert_eq!(from_hex(&text), Ok(all));
        assert_eq!(from_hex("0aFf"), Ok(vec![10, 255]));
        assert!(from_hex("0").is_err());
        assert!(from_hex("0g").is_err());
    }

    #[test]
    fn quoted_text_is_read_back() {
        let text = "a\"b\\c\n\u{1f600}é\u{7f}";
        assert_eq!(Json::parse(&quoted(text)), Ok(Json::Text(text.to_string())));
    }
}
