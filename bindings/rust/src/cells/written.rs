//! Cells that tests write.
use super::{Reader, Result};
use crate::from_cells::{FromCell, FromCells};

/// A field.
pub(crate) fn field(content: &str) -> Vec<u8> {
    [&number(content.len())[..], content.as_bytes()].concat()
}

/// The value of a text.
pub(crate) fn text(content: &str) -> Vec<u8> {
    [b"t", &field(content)[..]].concat()
}

/// The value of a list of texts.
pub(crate) fn list(texts: &[&str]) -> Vec<u8> {
    let fields: Vec<_> = texts.iter().map(|text| field(text)).collect();
    [b"a", &number(texts.len())[..], &fields.concat()].concat()
}

/// The value of providers, each a text or a list.
pub(crate) fn providers(items: &[Vec<u8>]) -> Vec<u8> {
    [b"p", &number(items.len())[..], &items.concat()].concat()
}

/// The value of an integer.
pub(crate) fn integer(value: i64) -> Vec<u8> {
    let absolute = u32::try_from(value.unsigned_abs()).unwrap();
    [&[b'i', u8::from(value < 0)][..], &absolute.to_le_bytes()].concat()
}

/// The value of a variable.
pub(crate) fn variable(value: &str, force: bool, relative: bool) -> Vec<u8> {
    [b"v", &field(value)[..], &[u8::from(force), u8::from(relative)]].concat()
}

/// A cell. A key is a table's own field, or behind `=` a name that a file picks.
pub(crate) fn cell(keys: &[&str], value: &[u8]) -> Vec<u8> {
    let key = |key: &&str| match key.strip_prefix('=') {
        Some(name) => [b"n", &field(name)[..]].concat(),
        None => [b"f", &field(key)[..]].concat(),
    };
    let keys: Vec<_> = [number(keys.len())].into_iter().chain(keys.iter().map(key)).collect();
    [&keys.concat(), value].concat()
}

fn number(number: usize) -> Vec<u8> {
    u32::try_from(number).unwrap().to_le_bytes().to_vec()
}

/// The value of these bytes; none where they are another one, or go on.
pub(crate) fn read_value<T: FromCell>(bytes: &[u8]) -> Option<T> {
    let mut reader = Reader { rest: bytes };
    T::from_cell(&mut reader).filter(|_| reader.rest.is_empty())
}

/// What these cells are read into.
pub(crate) fn read_tables<T: FromCells + Default>(cells: &[Vec<u8>]) -> Result<T> {
    super::read(&cells.concat())
}
