//! Types that are read from JSON.
use crate::error::{Error, Result};
use crate::json::Reader;
use std::collections::BTreeMap;
use std::path::PathBuf;

/// A type that is read from a JSON value.
pub(crate) trait FromJson: Sized {
    /// Reads the next value of a document.
    ///
    /// # Errors
    /// Where it isn't of the type.
    fn from_json(reader: &mut Reader<'_>) -> Result<Self>;
}

// Implements `FromJson` for a table: the object's keys, and the fields that their values are read into. A field without a key
// has its default, and other keys are skipped.
macro_rules! read_fields {
    ($name:ty: $($key:literal $field:ident)*) => {
        impl $crate::from_json::FromJson for $name {
            fn from_json(reader: &mut $crate::json::Reader<'_>) -> $crate::error::Result<Self> {
                let mut table = <$name>::default();
                let mut keys = reader.object()?;
                while let Some(key) = keys.next(reader)? {
                    match key {
                        $($key => table.$field = reader.value()?,)*
                        _ => reader.skip()?,
                    }
                }
                Ok(table)
            }
        }
    };
}

pub(crate) use read_fields;

impl FromJson for String {
    fn from_json(reader: &mut Reader<'_>) -> Result<Self> {
        Ok(reader.string()?.into_owned())
    }
}

impl FromJson for PathBuf {
    fn from_json(reader: &mut Reader<'_>) -> Result<Self> {
        String::from_json(reader).map(PathBuf::from)
    }
}

impl FromJson for bool {
    fn from_json(reader: &mut Reader<'_>) -> Result<Self> {
        reader.boolean()
    }
}

impl FromJson for i32 {
    fn from_json(reader: &mut Reader<'_>) -> Result<Self> {
        i32::try_from(reader.integer()?).map_err(|_| Error::unread())
    }
}

impl FromJson for u32 {
    fn from_json(reader: &mut Reader<'_>) -> Result<Self> {
        u32::try_from(reader.integer()?).map_err(|_| Error::unread())
    }
}

// A value that is there. Where there is none, no key is written.
impl<T: FromJson> FromJson for Option<T> {
    fn from_json(reader: &mut Reader<'_>) -> Result<Self> {
        reader.value().map(Some)
    }
}

impl<T: FromJson> FromJson for Vec<T> {
    fn from_json(reader: &mut Reader<'_>) -> Result<Self> {
        let mut items = Vec::new();
        let mut has_item = reader.first_item()?;
        while has_item {
            items.push(reader.value()?);
            has_item = reader.next_item()?;
        }
        Ok(items)
    }
}

// The members are in order already, so that the map is built at once.
impl<T: FromJson> FromJson for BTreeMap<String, T> {
    fn from_json(reader: &mut Reader<'_>) -> Result<Self> {
        let mut members = Vec::new();
        let mut keys = reader.object()?;
        while let Some(key) = keys.next(reader)? {
            members.push((key.to_owned(), reader.value()?));
        }
        Ok(members.into_iter().collect())
    }
}

#[cfg(test)]
mod tests {
    use super::*;
    use crate::json::read;

    #[derive(Debug, Default, PartialEq)]
    struct Table {
        first: Option<i32>,
        second: Vec<u32>,
        third: PathBuf,
    }

    read_fields! { Table: "a" first "b" second "c" third }

    #[test]
    fn values_of_each_type() {
        assert_eq!((read("true"), read("false")), (Ok(true), Ok(false)));
        assert_eq!(read("[1,-2]"), Ok(vec![1_i32, -2]));
        assert_eq!(read::<Vec<u32>>("[1,-2]"), Err(Error::unread()));
        assert_eq!((read("2147483647"), read::<i32>("2147483648")), (Ok(i32::MAX), Err(Error::unread())));
        assert_eq!(read("\"x\""), Ok(PathBuf::from("x")));
        assert_eq!(read::<bool>("null"), Err(Error::unread()));
        assert_eq!(read::<Option<bool>>("null"), Err(Error::unread()));
        let map = BTreeMap::from([("a", 1), ("b", 2)].map(|(key, number)| (key.to_owned(), number)));
        assert_eq!(read("{\"a\":1,\"b\":2}"), Ok(map));
    }

    #[test]
    fn tables_by_their_keys() {
        let table = Table { first: Some(1), second: vec![2], third: PathBuf::new() };
        assert_eq!(read("{\"a\":1,\"b\":[2]}"), Ok(table));
        assert_eq!(read("{\"\":{\"a\":[null]},\"bc\":1}"), Ok(Table::default()));
        for text in ["{\"a\":\"1\"}", "{\"a\":null}", "{\"b\":{}}", "{\"a\":1,\"a\":1}", "{\"b\":[],\"a\":1}", "[]"] {
            assert_eq!(read::<Table>(text), Err(Error::unread()), "{text}");
        }
    }
}
