//! Strings of a document.
use super::Reader;
use crate::error::{Error, Result};
use std::borrow::Cow;

// The bytes that end what a string has as it is: a quote, a backslash and the control characters.
const ENDS: [bool; 256] = {
    let mut ends = [false; 256];
    let mut byte = 0;
    while byte < b' ' {
        ends[byte as usize] = true;
        byte += 1;
    }
    ends[b'"' as usize] = true;
    ends[b'\\' as usize] = true;
    ends
};

impl<'a> Reader<'a> {
    /// Reads a string. It is lent from the document where no character is escaped.
    ///
    /// # Errors
    /// Where none is next.
    pub(crate) fn string(&mut self) -> Result<Cow<'a, str>> {
        self.expect(b'"')?;
        match self.plain()? {
            (text, b'"') => Ok(Cow::Borrowed(text)),
            (text, end) => self.escaped_string(text.to_owned(), end).map(Cow::Owned),
        }
    }

    // Reads the rest of a string, whose text up to a byte of `ENDS` is given.
    fn escaped_string(&mut self, mut text: String, mut end: u8) -> Result<String> {
        while end == b'\\' {
            text.push(self.escaped().ok_or_else(Error::unread)?);
            let (plain, next) = self.plain()?;
            text.push_str(plain);
            end = next;
        }
        if end == b'"' {
            Ok(text)
        } else {
            Err(Error::unread())
        }
    }

    // Takes the characters up to a byte of `ENDS`, and that byte.
    fn plain(&mut self) -> Result<(&'a str, u8)> {
        let rest = &self.text[self.at..];
        let length = rest.bytes().position(|byte| ENDS[usize::from(byte)]).ok_or_else(Error::unread)?;
        self.at += length + 1;
        Ok((&rest[..length], rest.as_bytes()[length]))
    }

    // The character of an escape, after its backslash.
    fn escaped(&mut self) -> Option<char> {
        let plain = match self.text.as_bytes().get(self.at)? {
            sign @ (b'"' | b'\\' | b'/') => char::from(*sign),
            b'b' => '\u{8}',
            b'f' => '\u{c}',
            b'n' => '\n',
            b'r' => '\r',
            b't' => '\t',
            b'u' => return self.unit_or_pair(),
            _ => return None,
        };
        self.at += 1;
        Some(plain)
    }

    // The character of `uXXXX`, or of two such escapes that are a surrogate pair.
    fn unit_or_pair(&mut self) -> Option<char> {
        let first = self.unit()?;
        if !(0xD800..0xDC00).contains(&first) {
            return char::from_u32(first);
        }
        self.text[self.at..].strip_prefix('\\')?;
        self.at += 1;
        let second = self.unit().filter(|unit| (0xDC00..0xE000).contains(unit))?;
        char::from_u32(0x10000 + ((first - 0xD800) << 10) + (second - 0xDC00))
    }

    // The number of four hexadecimal digits after `u`.
    fn unit(&mut self) -> Option<u32> {
        let digits = self.text[self.at..].strip_prefix('u')?.get(..4)?;
        self.at += 5;
        let are_digits = digits.bytes().all(|digit| digit.is_ascii_hexdigit());
        u32::from_str_radix(digits, 16).ok().filter(|_| are_digits)
    }
}
