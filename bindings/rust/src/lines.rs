//! The lines that the library answers: a key, perhaps with a place, and a value.
use crate::error::{Error, Result};
use std::path::PathBuf;
use std::str::FromStr;

// What a line has behind its key.
#[derive(Debug, PartialEq, Eq)]
struct Line<'a> {
    // The place in a list.
    place: Option<usize>,
    value: Value<'a>,
}

// The value of a key.
#[derive(Debug, PartialEq, Eq)]
enum Value<'a> {
    Text(String),
    // A number or a boolean, as it is printed.
    Word(&'a str),
    // A list without items.
    Empty,
}

/// The lines of a text, in their order, to be taken one after the other.
pub(crate) struct Lines<'a> {
    rest: &'a str,
}

/// The lines of each item in the answer to several questions, in which an empty line follows each. No line of an
/// item is empty, and no value has a line break.
pub(crate) fn items(text: &str) -> Result<Vec<&str>> {
    let (mut items, mut rest) = (Vec::new(), text);
    while !rest.is_empty() {
        let (item, behind) = if let Some(behind) = rest.strip_prefix('\n') {
            ("", behind)
        } else {
            let end = rest.find("\n\n").ok_or_else(Error::unread)? + 1;
            (&rest[..end], &rest[end + 1..])
        };
        items.push(item);
        rest = behind;
    }
    Ok(items)
}

// Each of these takes the next lines, if they are of the key, and fails where they are no lines, or of another kind.
impl<'a> Lines<'a> {
    pub(crate) fn new(text: &'a str) -> Self {
        Lines { rest: text }
    }

    /// Takes a text.
    pub(crate) fn text(&mut self, key: &str) -> Result<Option<String>> {
        match self.next(key)? {
            None => Ok(None),
            Some(Line { place: None, value: Value::Text(text), .. }) => Ok(Some(text)),
            Some(_) => Err(Error::unread()),
        }
    }

    /// Takes a text that is a path.
    pub(crate) fn path(&mut self, key: &str) -> Result<Option<PathBuf>> {
        Ok(self.text(key)?.map(PathBuf::from))
    }

    /// Takes a number or a boolean.
    pub(crate) fn word<T: FromStr>(&mut self, key: &str) -> Result<Option<T>> {
        match self.next(key)? {
            None => Ok(None),
            Some(Line { place: None, value: Value::Word(word), .. }) => match word.parse() {
                Ok(word) => Ok(Some(word)),
                Err(_) => Err(Error::unread()),
            },
            Some(_) => Err(Error::unread()),
        }
    }

    /// Takes a list: a line for each text, with its place, or one that says that there is none.
    pub(crate) fn texts(&mut self, key: &str) -> Result<Option<Vec<String>>> {
        let mut texts = Vec::new();
        while let Some(Line { place, value, .. }) = self.next(key)? {
            match (place, value) {
                (None, Value::Empty) if texts.is_empty() => return Ok(Some(texts)),
                (Some(place), Value::Text(text)) if place == texts.len() => texts.push(text),
                _ => return Err(Error::unread()),
            }
        }
        Ok((!texts.is_empty()).then_some(texts))
    }

    /// Fails where a line is left.
    pub(crate) fn end(self) -> Result<()> {
        match self.rest {
            "" => Ok(()),
            _ => Err(Error::unread()),
        }
    }

    // Takes the next line, if it is of this key.
    fn next(&mut self, key: &str) -> Result<Option<Line<'a>>> {
        let Some(behind) = self.rest.strip_prefix(key).filter(|behind| behind.starts_with([' ', '['])) else {
            return Ok(None);
        };
        let (line, rest) = line_at(behind).ok_or_else(Error::unread)?;
        self.rest = rest;
        Ok(Some(line))
    }
}

// The line that this is behind the key of, and the rest.
fn line_at(behind: &str) -> Option<(Line<'_>, &str)> {
    let (place, rest) = match behind.strip_prefix('[') {
        None => (None, behind),
        Some(place) => {
            let (digits, rest) = place.split_once(']')?;
            (Some(place_of(digits)?), rest)
        }
    };
    let (value, rest) = value_at(rest.strip_prefix(" = ")?)?;
    Some((Line { place, value }, rest.strip_prefix('\n')?))
}

// The number of these digits, as it is printed.
fn place_of(digits: &str) -> Option<usize> {
    let is_printed = digits == "0" || !digits.starts_with(['0', '+']);
    digits.parse().ok().filter(|_| is_printed)
}

// The value at the front, and the rest.
fn value_at(text: &str) -> Option<(Value<'_>, &str)> {
    if let Some(rest) = text.strip_prefix("[]") {
        return Some((Value::Empty, rest));
    }
    if let Some(rest) = text.strip_prefix('"') {
        let (text, rest) = unquoted(rest)?;
        return Some((Value::Text(text), rest));
    }
    let end = text.find('\n')?;
    let (word, rest) = text.split_at(end);
    (!word.is_empty()).then_some((Value::Word(word), rest))
}

// The text up to the quote that ends it, and the rest. A quote and a backslash are escaped by a backslash, and a control
// character of ASCII is `\xNN`; there is no other escape.
fn unquoted(text: &str) -> Option<(String, &str)> {
    let (mut made, mut rest) = (String::new(), text);
    loop {
        let end = rest.bytes().position(|byte| byte == b'"' || byte == b'\\' || byte.is_ascii_control())?;
        made.push_str(&rest[..end]);
        let behind = &rest[end + 1..];
        match rest.as_bytes()[end] {
            b'"' => return Some((made, behind)),
            b'\\' => {}
            _ => return None,
        }
        let escaped = behind.chars().next()?;
        rest = behind.get(escaped.len_utf8()..)?;
        match escaped {
            '"' | '\\' => made.push(escaped),
            'x' => {
                let digits = rest.get(..2)?;
                made.push(control(digits)?);
                rest = &rest[2..];
            }
            _ => return None,
        }
    }
}

// The control character of ASCII with this number, of two digits in upper case.
fn control(digits: &str) -> Option<char> {
    let code = u8::from_str_radix(digits, 16).ok()?;
    (code.is_ascii_control() && format!("{code:02X}") == digits).then_some(char::from(code))
}

#[cfg(test)]
mod tests {
    use super::*;

    #[test]
    fn all_kinds_of_lines() {
        let mut lines = Lines::new("a = -1\nb[0] = \"x\\\"\\\\\\x0Ay\"\nb[1] = \"\"\nc = []\nd = \"e\"\n");
        assert_eq!(lines.text("b"), Ok(None));
        assert_eq!(lines.word("a"), Ok(Some(-1)));
        assert_eq!(lines.texts("b"), Ok(Some(vec!["x\"\\\ny".to_owned(), String::new()])));
        assert_eq!(lines.texts("c"), Ok(Some(vec![])));
        assert_eq!(lines.text("d"), Ok(Some("e".to_owned())));
        assert_eq!(lines.end(), Ok(()));
    }

    #[test]
    fn items_with_an_empty_line_behind_each() {
        assert_eq!(items("a = 1\nb = 2\n\n\nc = 3\n\n"), Ok(vec!["a = 1\nb = 2\n", "", "c = 3\n"]));
        assert_eq!(items(""), Ok(vec![]));
        assert!(items("a = 1\n").is_err());
    }

    #[test]
    fn no_lines() {
        for text in [
            "a",
            "a = \n",
            "a = \"x",
            "a = \"\\q\"\n",
            "a = \"\\x41\"\n",
            "a = \"\\x0a\"\n",
            "a = \"\u{1}\"\n",
            "a[01] = \"\"\n",
            "a = \"\" # q\n",
            "a = 1",
            "a[+1] = \"\"\n",
            "a[] = \"\"\n",
            "a[1 = \"\"\n",
            "a1 = 1\n",
        ] {
            let mut lines = Lines::new(text);
            assert!(lines.next("a").is_err() || lines.end().is_err(), "{text:?}");
        }
        assert!(Lines::new("a[1] = \"x\"\n").texts("a").is_err());
        assert!(Lines::new("a[0] = \"x\"\n").text("a").is_err());
        assert!(Lines::new("a = 1\n").text("a").is_err());
        assert!(Lines::new("a = \"1\"\n").word::<i32>("a").is_err());
        assert!(Lines::new("a = 1\n").end().is_err());
    }
}
