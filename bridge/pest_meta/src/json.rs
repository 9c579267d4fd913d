//! JSON as the library writes and reads it: read from left to right, straight into what it says, and written
//! by appending. No value of a general kind stands between.

use std::borrow::Cow;
use std::fmt::{self, Write};

/// Why an answer can't be read.
#[derive(Debug, PartialEq)]
pub(crate) enum Malformed {
    /// Something else has to stand at a byte.
    Wanted { what: &'static str, at: usize },
    /// A name that this version does not know. The format may get more of them.
    Unknown { what: &'static str, name: String },
}

impl fmt::Display for Malformed {
    fn fmt(&self, f: &mut fmt::Formatter<'_>) -> fmt::Result {
        match self {
            Malformed::Wanted { what, at } => write!(f, "{what} is wanted at byte {at}"),
            Malformed::Unknown { what, name } => write!(f, "the {what} `{name}` is not known"),
        }
    }
}

pub(crate) type Reading<T> = Result<T, Malformed>;

/// Reads the whole of an answer.
pub(crate) fn read<T>(text: &str, value: impl FnOnce(&mut Reader<'_>) -> Reading<T>) -> Reading<T> {
    let mut reader = Reader { text, at: 0 };
    let value = value(&mut reader)?;
    reader.end()?;
    Ok(value)
}

/// A text of JSON, read up to a byte of it.
pub(crate) struct Reader<'a> {
    text: &'a str,
    at: usize,
}

impl<'a> Reader<'a> {
    pub(crate) fn wanted<T>(&self, what: &'static str) -> Reading<T> {
        Err(Malformed::Wanted { what, at: self.at })
    }

    /// The next byte that is no blank.
    pub(crate) fn peek(&mut self) -> Option<u8> {
        let bytes = self.text.as_bytes();
        while matches!(bytes.get(self.at), Some(b' ' | b'\t' | b'\n' | b'\r')) {
            self.at += 1;
        }
        bytes.get(self.at).copied()
    }

    /// Whether a sign comes next, which is then read.
    pub(crate) fn takes(&mut self, sign: u8) -> bool {
        let is_next = self.peek() == Some(sign);
        self.at += usize::from(is_next);
        is_next
    }

    fn sign(&mut self, sign: u8, wanted: &'static str) -> Reading<()> {
        match self.takes(sign) {
            true => Ok(()),
            false => self.wanted(wanted),
        }
    }

    pub(crate) fn comma(&mut self) -> Reading<()> {
        self.sign(b',', "a comma")
    }

    pub(crate) fn open_list(&mut self) -> Reading<()> {
        self.sign(b'[', "a list")
    }

    pub(crate) fn close_list(&mut self) -> Reading<()> {
        self.sign(b']', "the end of a list")
    }

    fn end(&mut self) -> Reading<()> {
        match self.peek() {
            None => Ok(()),
            Some(_) => self.wanted("the end"),
        }
    }

    /// A list of items of one kind.
    pub(crate) fn list<T>(&mut self, mut item: impl FnMut(&mut Self) -> Reading<T>) -> Reading<Vec<T>> {
        self.open_list()?;
        let mut items = Vec::new();
        if self.takes(b']') {
            return Ok(items);
        }
        loop {
            items.push(item(self)?);
            if self.takes(b']') {
                return Ok(items);
            }
            self.comma()?;
        }
    }

    /// An object; `member` is called before the value of each member, and reads it.
    pub(crate) fn object(&mut self, mut member: impl FnMut(&mut Self, &str) -> Reading<()>) -> Reading<()> {
        self.sign(b'{', "an object")?;
        if self.takes(b'}') {
            return Ok(());
        }
        loop {
            let name = self.borrowed_text()?;
            self.sign(b':', "a colon")?;
            member(self, &name)?;
            if self.takes(b'}') {
                return Ok(());
            }
            self.comma()?;
        }
    }

    /// A whole number.
    pub(crate) fn number(&mut self) -> Reading<i64> {
        self.peek();
        let rest = &self.text[self.at..];
        let len = rest.bytes().take_while(|byte| *byte == b'-' || byte.is_ascii_digit()).count();
        match rest[..len].parse() {
            Ok(number) => {
                self.at += len;
                Ok(number)
            }
            Err(_) => self.wanted("a whole number"),
        }
    }

    /// A place or a number of an entry.
    pub(crate) fn place(&mut self) -> Reading<usize> {
        self.fitting(|number| usize::try_from(number).ok())
    }

    /// A number that has to be of a smaller type.
    pub(crate) fn fitting<T>(&mut self, small: impl FnOnce(i64) -> Option<T>) -> Reading<T> {
        match small(self.number()?) {
            Some(number) => Ok(number),
            None => self.wanted("a smaller number"),
        }
    }

    /// Whether `null` comes next, which is then read.
    pub(crate) fn takes_null(&mut self) -> bool {
        let is_next = self.peek() == Some(b'n') && self.text[self.at..].starts_with("null");
        self.at += 4 * usize::from(is_next);
        is_next
    }

    /// A text.
    pub(crate) fn text(&mut self) -> Reading<String> {
        self.borrowed_text().map(Cow::into_owned)
    }

    /// A text, which is a piece of the JSON where nothing in it is escaped.
    pub(crate) fn borrowed_text(&mut self) -> Reading<Cow<'a, str>> {
        self.sign(b'"', "a text")?;
        let rest = &self.text[self.at..];
        match rest.bytes().position(|byte| matches!(byte, b'"' | b'\\')) {
            Some(len) if rest.as_bytes()[len] == b'"' => {
                self.at += len + 1;
                Ok(Cow::Borrowed(&rest[..len]))
            }
            _ => self.escaped_text().map(Cow::Owned),
        }
    }

    /// The rest of a text, in which something is escaped.
    fn escaped_text(&mut self) -> Reading<String> {
        let mut text = String::new();
        loop {
            let rest = &self.text[self.at..];
            let Some(len) = rest.find(['"', '\\']) else {
                return self.wanted("the end of a text");
            };
            text.push_str(&rest[..len]);
            self.at += len + 1;
            if rest.as_bytes()[len] == b'"' {
                return Ok(text);
            }
            text.push(self.escaped()?);
        }
    }

    /// A character behind a backslash.
    fn escaped(&mut self) -> Reading<char> {
        let sign = self.text.as_bytes().get(self.at).copied();
        self.at += usize::from(sign.is_some());
        match sign {
            Some(sign @ (b'"' | b'\\' | b'/')) => Ok(char::from(sign)),
            Some(b'b') => Ok('\u{8}'),
            Some(b'f') => Ok('\u{c}'),
            Some(b'n') => Ok('\n'),
            Some(b'r') => Ok('\r'),
            Some(b't') => Ok('\t'),
            Some(b'u') => self.numbered(),
            _ => self.wanted("an escape"),
        }
    }

    /// A character by its number, or by the two halves of it.
    fn numbered(&mut self) -> Reading<char> {
        let first = self.code_unit()?;
        let is_half = (0xd800..0xdc00).contains(&first);
        let units = if is_half && self.text[self.at..].starts_with("\\u") {
            self.at += 2;
            vec![first, self.code_unit()?]
        } else {
            vec![first]
        };
        match char::decode_utf16(units).next() {
            Some(Ok(character)) => Ok(character),
            _ => self.wanted("a character"),
        }
    }

    fn code_unit(&mut self) -> Reading<u16> {
        match self.text.get(self.at..self.at + 4).map(|digits| u16::from_str_radix(digits, 16)) {
            Some(Ok(unit)) => {
                self.at += 4;
                Ok(unit)
            }
            _ => self.wanted("four digits"),
        }
    }

    /// Any value, which is passed over.
    pub(crate) fn pass(&mut self) -> Reading<()> {
        let mut depth = 0;
        loop {
            match self.peek() {
                Some(b'"') => drop(self.borrowed_text()?),
                Some(b'[' | b'{') => {
                    depth += 1;
                    self.at += 1;
                }
                Some(b']' | b'}') if depth > 0 => {
                    depth -= 1;
                    self.at += 1;
                }
                Some(b',' | b':') if depth > 0 => self.at += 1,
                Some(b'0'..=b'9' | b'-' | b'+' | b'.' | b'a'..=b'z' | b'A'..=b'Z') => self.pass_word(),
                _ => return self.wanted("a value"),
            }
            if depth == 0 {
                return Ok(());
            }
        }
    }

    fn pass_word(&mut self) {
        let rest = &self.text[self.at..];
        let is_in_word = |c: char| c.is_ascii_alphanumeric() || matches!(c, '-' | '+' | '.');
        self.at += rest.find(|c| !is_in_word(c)).unwrap_or(rest.len());
    }
}

/// Writes a text in quotes.
pub(crate) fn write_text(out: &mut String, text: &str) {
    out.push('"');
    for c in text.chars() {
        match c {
            '"' | '\\' => out.extend(['\\', c]),
            '\0'..='\u{1f}' => write!(out, "\\u{:04x}", u32::from(c)).expect("a String takes all"),
            _ => out.push(c),
        }
    }
    out.push('"');
}

/// Writes items with commas between them, in brackets.
pub(crate) fn write_list<T>(
    out: &mut String,
    items: impl IntoIterator<Item = T>,
    mut write: impl FnMut(&mut String, T),
) {
    out.push('[');
    for (number, item) in items.into_iter().enumerate() {
        if number > 0 {
            out.push(',');
        }
        write(out, item);
    }
    out.push(']');
}

#[cfg(test)]
mod tests {
    use super::*;

    fn text_of(json: &str) -> Reading<String> {
        Reader { text: json, at: 0 }.text()
    }

    #[test]
    fn escapes_are_read() {
        assert_eq!(text_of(r#""a\"\\\/\b\f\n\r\té😀é""#).unwrap(), "a\"\\/\u{8}\u{c}\n\r\té😀é");
    }

    #[test]
    fn halves_of_characters_are_refused() {
        for json in [r#""\ud83d""#, r#""\ude00""#, r#""\ud83dA""#, r#""\u12""#, r#""\x""#, "\"a"] {
            assert!(text_of(json).is_err(), "{json}");
        }
    }

    #[test]
    fn texts_are_read_as_they_were_written() {
        let all: String = ('\0'..='\u{2ff}').chain(['\u{2028}', '\u{fffd}', '😀']).collect();
        let mut json = String::new();
        write_text(&mut json, &all);
        assert_eq!(text_of(&json).unwrap(), all);
    }

    #[test]
    fn values_are_passed_over() {
        let json = r#" {"a" : [1, -2.5e+3, {"b": "]}"}, null], "c": true} , 7"#;
        let mut reader = Reader { text: json, at: 0 };
        reader.pass().unwrap();
        reader.comma().unwrap();
        assert_eq!(reader.number().unwrap(), 7);
        assert!(reader.end().is_ok());
    }

    #[test]
    fn numbers_have_limits() {
        assert_eq!(Reader { text: "-12", at: 0 }.number().unwrap(), -12);
        assert!(Reader { text: "-12", at: 0 }.place().is_err());
        assert!(Reader { text: "1-2", at: 0 }.number().is_err());
        assert!(Reader { text: "", at: 0 }.number().is_err());
    }
}
