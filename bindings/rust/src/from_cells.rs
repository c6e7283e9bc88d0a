//! Types that are read from cells.
use crate::cells::{Key, Reader};
use std::collections::BTreeMap;
use std::path::PathBuf;

/// A type that is read from a cell's value.
pub(crate) trait FromCell: Sized {
    /// Reads the value that is next; none where it isn't of the type.
    fn from_cell(reader: &mut Reader<'_>) -> Option<Self>;
}

/// What cells are read into: a table, or a value that may be set.
pub(crate) trait FromCells {
    /// Reads the value of a cell whose path ends with these keys. It is false where there is no place for it: then nothing is
    /// read. None where the value can't be read.
    fn put(&mut self, keys: &[Key<'_>], reader: &mut Reader<'_>) -> Option<bool>;
}

// Implements `FromCells` for a table: the keys of cells, and the fields that their values are read into.
macro_rules! read_cells {
    ($name:ty: $($key:literal $field:ident)*) => {
        impl $crate::from_cells::FromCells for $name {
            fn put(&mut self, keys: &[$crate::cells::Key<'_>], reader: &mut $crate::cells::Reader<'_>) -> Option<bool> {
                let [$crate::cells::Key::Field(key), below @ ..] = keys else {
                    return Some(false);
                };
                $(if *key == $key.as_bytes() {
                    return self.$field.put(below, reader);
                })*
                Some(false)
            }
        }
    };
}

pub(crate) use read_cells;

// A value that is set by one cell.
impl<T: FromCell> FromCells for Option<T> {
    fn put(&mut self, keys: &[Key<'_>], reader: &mut Reader<'_>) -> Option<bool> {
        if !keys.is_empty() {
            return Some(false);
        }
        if self.is_some() {
            return None;
        }
        *self = Some(T::from_cell(reader)?);
        Some(true)
    }
}

/// A map of values by the names that files pick. The names of cells are in byte order, so that the map is built at once.
#[derive(Debug)]
pub(crate) struct Values<T>(Vec<(String, T)>);

/// A map of tables, likewise. Each begins with its own cell.
#[derive(Debug)]
pub(crate) struct Members<T>(Vec<(String, T)>);

impl<T: FromCell> FromCells for Values<T> {
    fn put(&mut self, keys: &[Key<'_>], reader: &mut Reader<'_>) -> Option<bool> {
        let [Key::Name(name)] = keys else {
            return Some(false);
        };
        let name = next_name(&self.0, name)?;
        self.0.push((name, T::from_cell(reader)?));
        Some(true)
    }
}

impl<T: FromCells + Default> FromCells for Members<T> {
    fn put(&mut self, keys: &[Key<'_>], reader: &mut Reader<'_>) -> Option<bool> {
        match keys {
            [Key::Name(name)] => {
                let name = next_name(&self.0, name)?;
                self.0.push((name, T::default()));
                reader.place().map(|()| true)
            }
            [Key::Name(name), below @ ..] => {
                let (last, table) = self.0.last_mut()?;
                if last.as_bytes() != *name {
                    return None;
                }
                table.put(below, reader)
            }
            _ => Some(false),
        }
    }
}

// A name that comes behind those of a map, as a text.
fn next_name<T>(members: &[(String, T)], name: &[u8]) -> Option<String> {
    if members.last().is_some_and(|(last, _)| last.as_bytes() >= name) {
        return None;
    }
    String::from_utf8(name.to_vec()).ok()
}

impl<T> Default for Values<T> {
    fn default() -> Self {
        Values(Vec::new())
    }
}

impl<T> Default for Members<T> {
    fn default() -> Self {
        Members(Vec::new())
    }
}

impl<T> From<Values<T>> for BTreeMap<String, T> {
    fn from(values: Values<T>) -> Self {
        values.0.into_iter().collect()
    }
}

impl<T> From<Members<T>> for BTreeMap<String, T> {
    fn from(members: Members<T>) -> Self {
        members.0.into_iter().collect()
    }
}

impl FromCell for String {
    fn from_cell(reader: &mut Reader<'_>) -> Option<Self> {
        reader.text().map(String::from)
    }
}

impl FromCell for PathBuf {
    fn from_cell(reader: &mut Reader<'_>) -> Option<Self> {
        reader.text().map(PathBuf::from)
    }
}

impl FromCell for bool {
    fn from_cell(reader: &mut Reader<'_>) -> Option<Self> {
        reader.truth()
    }
}

impl FromCell for i32 {
    fn from_cell(reader: &mut Reader<'_>) -> Option<Self> {
        i32::try_from(reader.integer()?).ok()
    }
}

impl FromCell for u32 {
    fn from_cell(reader: &mut Reader<'_>) -> Option<Self> {
        u32::try_from(reader.integer()?).ok()
    }
}
