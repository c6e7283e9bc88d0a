//! Values of the table `env`.
use super::value::Origin;
use super::Value;
use crate::error::{Error, Result};
use crate::from_json::{read_fields, FromJson};
use crate::json::Reader;

/// A variable of the table [`env`](https://doc.rust-lang.org/cargo/reference/config.html#env).
#[derive(Clone, Debug)]
#[non_exhaustive]
pub enum EnvConfigValue {
    /// Its value alone.
    Value(Value<String>),
    /// A table.
    Table {
        /// Its value.
        value: Value<String>,
        /// Whether it takes precedence over a variable of the process.
        force: Option<Value<bool>>,
        /// Whether the value is a relative path.
        relative: Option<Value<bool>>,
    },
}

impl FromJson for EnvConfigValue {
    fn from_json(reader: &mut Reader<'_>) -> Result<Self> {
        if !reader.is_next(b'{') {
            return reader.value().map(EnvConfigValue::Value);
        }
        let Table { origin, value, force, relative } = reader.value()?;
        let value = value.ok_or_else(Error::unread)?;
        // The object of a value has its origin; each value of a table has its own.
        Ok(match origin {
            Some(Origin(definition)) => EnvConfigValue::Value(Value { val: value.val, definition }),
            None => EnvConfigValue::Table { value, force, relative },
        })
    }
}

// What an object has: the table's fields, or a value and its origin.
#[derive(Default)]
struct Table {
    origin: Option<Origin>,
    value: Option<Value<String>>,
    force: Option<Value<bool>>,
    relative: Option<Value<bool>>,
}

read_fields! { Table: "force" force "origin" origin "relative" relative "value" value }
