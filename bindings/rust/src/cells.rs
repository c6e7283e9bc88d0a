//! Cells in bytes, as the library writes a resolved configuration: each has a path of keys, and a value. `cc2.h` has their format.
use crate::error::{Error, Result};
use crate::from_cells::{FromCell, FromCells};
use std::str;

// How many keys a known path has at most.
const DEPTH: usize = 3;
// A number, and so the least field, takes so many bytes.
const NUMBER: usize = 4;

/// A key of a path.
#[derive(Clone, Copy, Debug)]
pub(crate) enum Key<'a> {
    /// A table's own field.
    Field(&'a [u8]),
    /// A name that a file picks.
    Name(&'a [u8]),
}

/// What cells are read into. Those with an unknown path are skipped, since a newer library may have more.
///
/// # Errors
/// Where the bytes aren't cells, or a value isn't of its field's type. Where a field is set twice, and where the names of a map
/// aren't in byte order.
pub(crate) fn read<T: FromCells + Default>(bytes: &[u8]) -> Result<T> {
    let mut tables = T::default();
    let mut reader = Reader { rest: bytes };
    while !reader.rest.is_empty() {
        reader.cell(&mut tables).ok_or_else(Error::unread)?;
    }
    Ok(tables)
}

/// Cells that are read from the front. What isn't there as it should be is none.
pub(crate) struct Reader<'a> {
    rest: &'a [u8],
}

/// The texts of a list that are still to be read. All of them have to be.
pub(crate) struct List<'r, 'a> {
    reader: &'r mut Reader<'a>,
    left: usize,
}

impl<'a> Reader<'a> {
    // Reads a cell into its place, and skips one that has none.
    fn cell(&mut self, tables: &mut impl FromCells) -> Option<()> {
        let mut keys = [Key::Field(&[]); DEPTH];
        let count = self.path(&mut keys)?;
        let is_read = match keys.get(..count) {
            Some(keys) => tables.put(keys, self)?,
            None => false,
        };
        if is_read {
            Some(())
        } else {
            self.skip()
        }
    }

    // Reads the keys of a path, as many of them into the array as it holds. How many there are.
    fn path(&mut self, keys: &mut [Key<'a>]) -> Option<usize> {
        let count = self.number()?;
        for at in 0..count {
            let key = self.key()?;
            if let Some(place) = keys.get_mut(at) {
                *place = key;
            }
        }
        Some(count)
    }

    fn key(&mut self) -> Option<Key<'a>> {
        match self.byte()? {
            b'f' => self.field().map(Key::Field),
            b'n' => self.field().map(Key::Name),
            _ => None,
        }
    }

    // Skips a value.
    fn skip(&mut self) -> Option<()> {
        match self.kind()? {
            b'i' => self.integer().map(drop),
            b'b' => self.truth().map(drop),
            b't' => self.text().map(drop),
            b'a' => self.list()?.rest(drop).map(drop),
            b'p' => self.skip_providers(),
            b'e' => self.place(),
            b'v' => self.variable().map(drop),
            _ => None,
        }
    }

    fn skip_providers(&mut self) -> Option<()> {
        self.take(b'p')?;
        let count = self.count()?;
        (0..count).try_for_each(|_| match self.kind()? {
            b't' => self.text().map(drop),
            _ => self.list()?.rest(drop).map(drop),
        })
    }

    /// Reads an integer.
    pub(crate) fn integer(&mut self) -> Option<i64> {
        self.take(b'i')?;
        let is_negative = self.flag()?;
        let absolute = i64::try_from(self.number()?).ok()?;
        Some(if is_negative { -absolute } else { absolute })
    }

    /// Reads a truth value.
    pub(crate) fn truth(&mut self) -> Option<bool> {
        self.take(b'b')?;
        self.flag()
    }

    /// Reads a text.
    pub(crate) fn text(&mut self) -> Option<&'a str> {
        self.take(b't')?;
        self.plain()
    }

    /// Opens a list of texts.
    pub(crate) fn list(&mut self) -> Option<List<'_, 'a>> {
        self.take(b'a')?;
        let left = self.count()?;
        Some(List { reader: self, left })
    }

    /// Reads providers.
    pub(crate) fn providers<T: FromCell>(&mut self) -> Option<Vec<T>> {
        self.take(b'p')?;
        let count = self.count()?;
        let mut providers = room_for(count)?;
        for _ in 0..count {
            providers.push(T::from_cell(self)?);
        }
        Some(providers)
    }

    /// Reads that a table is here, as a member of a map.
    pub(crate) fn place(&mut self) -> Option<()> {
        self.take(b'e')
    }

    /// Reads a variable: its value, whether it is forced, and whether it is relative.
    pub(crate) fn variable(&mut self) -> Option<(&'a str, bool, bool)> {
        self.take(b'v')?;
        Some((self.plain()?, self.flag()?, self.flag()?))
    }

    /// The kind of the next value.
    pub(crate) fn kind(&self) -> Option<u8> {
        self.rest.first().copied()
    }

    // Takes this kind of a value.
    fn take(&mut self, kind: u8) -> Option<()> {
        (self.byte()? == kind).then_some(())
    }

    // A byte that is 1 or 0.
    fn flag(&mut self) -> Option<bool> {
        match self.byte()? {
            0 => Some(false),
            1 => Some(true),
            _ => None,
        }
    }

    fn byte(&mut self) -> Option<u8> {
        let (byte, rest) = self.rest.split_first()?;
        self.rest = rest;
        Some(*byte)
    }

    fn number(&mut self) -> Option<usize> {
        let (number, rest) = self.rest.split_first_chunk::<NUMBER>()?;
        self.rest = rest;
        usize::try_from(u32::from_le_bytes(*number)).ok()
    }

    // The number of items that follow, each of which takes as much as a number or more.
    fn count(&mut self) -> Option<usize> {
        self.number().filter(|count| *count <= self.rest.len() / NUMBER)
    }

    fn field(&mut self) -> Option<&'a [u8]> {
        let length = self.number()?;
        let (field, rest) = self.rest.split_at_checked(length)?;
        self.rest = rest;
        Some(field)
    }

    // A field that is a text.
    fn plain(&mut self) -> Option<&'a str> {
        str::from_utf8(self.field()?).ok()
    }
}

impl<'a> List<'_, 'a> {
    /// Reads the next text; none where none is left.
    pub(crate) fn next(&mut self) -> Option<&'a str> {
        self.left = self.left.checked_sub(1)?;
        self.reader.plain()
    }

    /// Reads the next text if it is this word. Whether it is.
    pub(crate) fn takes(&mut self, word: &str) -> bool {
        let before = self.reader.rest;
        let is_word = self.left > 0 && self.reader.field() == Some(word.as_bytes());
        if is_word {
            self.left -= 1;
        } else {
            self.reader.rest = before;
        }
        is_word
    }

    /// Reads the texts that are left, and makes something of each.
    pub(crate) fn rest<T>(mut self, make: impl Fn(&'a str) -> T) -> Option<Vec<T>> {
        let mut made = room_for(self.left)?;
        while self.left > 0 {
            made.push(make(self.next()?));
        }
        Some(made)
    }
}

// A list with room for so many items; none where there is no memory for it.
fn room_for<T>(count: usize) -> Option<Vec<T>> {
    let mut items = Vec::new();
    items.try_reserve_exact(count).ok()?;
    Some(items)
}

#[cfg(test)]
mod tests;
#[cfg(test)]
pub(crate) mod written;
