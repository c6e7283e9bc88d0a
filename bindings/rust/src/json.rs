//! JSON documents, as the library writes them: objects, arrays, strings, integers, `true`, `false` and `null`. An object has
//! its keys in byte order, each once.
mod strings;

use crate::error::{Error, Result};
use crate::from_json::FromJson;
use std::borrow::Cow;

// How deep objects and arrays may be in each other. A document that is deeper is an error, and no overflow of the stack.
const DEPTH: usize = 400;

/// The value of a JSON document.
///
/// # Errors
/// Where the text isn't such a document, is deeper than `DEPTH`, or has no value of the type.
pub(crate) fn read<T: FromJson>(text: &str) -> Result<T> {
    Reader::new(text, None).document()
}

/// The same, where this path replaces that of each origin that is a file.
///
/// # Errors
/// Those of `read`.
pub(crate) fn read_of_file<T: FromJson>(text: &str, file: &str) -> Result<T> {
    Reader::new(text, Some(file)).document()
}

/// A document that is read from the front.
pub(crate) struct Reader<'a> {
    text: &'a str,
    // Where the next byte is.
    at: usize,
    // How many objects and arrays are open.
    depth: usize,
    // What replaces the path of an origin.
    file: Option<&'a str>,
}

/// The keys of an object that is open.
pub(crate) struct Keys<'a> {
    last: Option<Cow<'a, str>>,
}

impl<'a> Reader<'a> {
    fn new(text: &'a str, file: Option<&'a str>) -> Self {
        Reader { text, at: 0, depth: 0, file }
    }

    // The value of the whole document.
    fn document<T: FromJson>(mut self) -> Result<T> {
        let value = self.value()?;
        match self.peek() {
            None => Ok(value),
            Some(_) => Err(Error::unread()),
        }
    }

    /// What replaces the path of an origin, if anything does.
    pub(crate) fn file(&self) -> Option<&'a str> {
        self.file
    }

    /// Reads the next value.
    ///
    /// # Errors
    /// Where there is none of the type.
    pub(crate) fn value<T: FromJson>(&mut self) -> Result<T> {
        T::from_json(self)
    }

    /// Reads the next value if it is of the type, and skips it otherwise.
    ///
    /// # Errors
    /// Where no value is next.
    pub(crate) fn value_if_any<T: FromJson>(&mut self) -> Result<Option<T>> {
        let before = (self.at, self.depth);
        if let Ok(value) = self.value() {
            return Ok(Some(value));
        }
        (self.at, self.depth) = before;
        self.skip().map(|()| None)
    }

    /// Skips the next value.
    ///
    /// # Errors
    /// Where no value is next.
    pub(crate) fn skip(&mut self) -> Result<()> {
        match self.peek() {
            Some(b'{') => self.skip_object(),
            Some(b'[') => self.skip_array(),
            Some(b'"') => self.string().map(drop),
            Some(b't' | b'f') => self.boolean().map(drop),
            Some(b'n') => self.null(),
            _ => self.integer().map(drop),
        }
    }

    fn skip_object(&mut self) -> Result<()> {
        let mut keys = self.object()?;
        while keys.next(self)?.is_some() {
            self.skip()?;
        }
        Ok(())
    }

    fn skip_array(&mut self) -> Result<()> {
        let mut has_item = self.first_item()?;
        while has_item {
            self.skip()?;
            has_item = self.next_item()?;
        }
        Ok(())
    }

    /// Enters the object that is next. After each of its keys the value has to be read, or skipped.
    ///
    /// # Errors
    /// Where no object is next, or it is too deep.
    pub(crate) fn object(&mut self) -> Result<Keys<'a>> {
        self.open(b'{')?;
        Ok(Keys { last: None })
    }

    /// Enters the array that is next. Whether it has an item, which has to be read then; else the array is left.
    ///
    /// # Errors
    /// Where no array is next, or it is too deep.
    pub(crate) fn first_item(&mut self) -> Result<bool> {
        self.open(b'[')?;
        Ok(!self.closes(b']'))
    }

    /// Goes on after an item of an array. Whether there is another one, which has to be read then; else the array is left.
    ///
    /// # Errors
    /// Where the array goes on otherwise.
    pub(crate) fn next_item(&mut self) -> Result<bool> {
        if self.closes(b']') {
            return Ok(false);
        }
        self.expect(b',')?;
        Ok(true)
    }

    /// Reads a boolean.
    ///
    /// # Errors
    /// Where none is next.
    pub(crate) fn boolean(&mut self) -> Result<bool> {
        let value = self.is_next(b't');
        self.word(if value { "true" } else { "false" })?;
        Ok(value)
    }

    /// Reads `null`.
    ///
    /// # Errors
    /// Where it isn't next.
    pub(crate) fn null(&mut self) -> Result<()> {
        self.is_next(b'n');
        self.word("null")
    }

    /// Reads an integer, as it is printed.
    ///
    /// # Errors
    /// Where none is next.
    pub(crate) fn integer(&mut self) -> Result<i64> {
        self.peek();
        let rest = &self.text[self.at..];
        let end = rest.find(|c: char| c != '-' && !c.is_ascii_digit()).unwrap_or(rest.len());
        let number: i64 = rest[..end].parse().map_err(|_| Error::unread())?;
        if number.to_string() != rest[..end] {
            return Err(Error::unread());
        }
        self.at += end;
        Ok(number)
    }

    /// Whether this byte is next.
    pub(crate) fn is_next(&mut self, byte: u8) -> bool {
        self.peek() == Some(byte)
    }

    // The next byte that is no white space.
    fn peek(&mut self) -> Option<u8> {
        loop {
            let next = self.text.as_bytes().get(self.at).copied();
            if !matches!(next, Some(b' ' | b'\t' | b'\n' | b'\r')) {
                return next;
            }
            self.at += 1;
        }
    }

    // Takes this byte.
    fn expect(&mut self, byte: u8) -> Result<()> {
        if !self.is_next(byte) {
            return Err(Error::unread());
        }
        self.at += 1;
        Ok(())
    }

    // Takes a word.
    fn word(&mut self, word: &str) -> Result<()> {
        if !self.text[self.at..].starts_with(word) {
            return Err(Error::unread());
        }
        self.at += word.len();
        Ok(())
    }

    // Takes the byte that opens an object or an array.
    fn open(&mut self, byte: u8) -> Result<()> {
        self.expect(byte)?;
        if self.depth == DEPTH {
            return Err(Error::unread());
        }
        self.depth += 1;
        Ok(())
    }

    // Takes the byte that closes an object or an array, if it is next.
    fn closes(&mut self, byte: u8) -> bool {
        let is_end = self.is_next(byte);
        if is_end {
            self.at += 1;
            self.depth -= 1;
        }
        is_end
    }
}

impl<'a> Keys<'a> {
    /// Reads the next key; none at the end of the object.
    ///
    /// # Errors
    /// Where there is neither, and where the key isn't behind the one before it in byte order.
    pub(crate) fn next(&mut self, reader: &mut Reader<'a>) -> Result<Option<&str>> {
        if reader.closes(b'}') {
            return Ok(None);
        }
        if self.last.is_some() {
            reader.expect(b',')?;
        }
        let key = reader.string()?;
        reader.expect(b':')?;
        if self.last.as_ref().is_some_and(|last| *last >= key) {
            return Err(Error::unread());
        }
        Ok(Some(self.last.insert(key)))
    }
}

#[cfg(test)]
#[path = "json_tests.rs"]
mod tests;
