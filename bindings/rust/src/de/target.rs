//! Values of the table `target`.
use super::{Flags, PathAndArgs, Value};
use crate::error::Result;
use crate::from_json::FromJson;
use crate::json::Reader;
use std::collections::BTreeMap;

/// The settings of a target, or of a key `cfg(..)`, in the table
/// [`target`](https://doc.rust-lang.org/cargo/reference/config.html#target).
#[derive(Clone, Debug, Default)]
#[non_exhaustive]
pub struct TargetConfig {
    /// The linker.
    pub linker: Option<Value<String>>,
    /// What runs the programs that are built.
    pub runner: Option<PathAndArgs>,
    /// Flags for rustc.
    pub rustflags: Option<Flags>,
    /// Flags for rustdoc.
    pub rustdocflags: Option<Flags>,
    // The tables below other keys, by these: `[target.a.b]` has settings for a triple `a.b`.
    #[cfg_attr(not(feature = "serde"), allow(dead_code))]
    pub(crate) nested: BTreeMap<String, TargetConfig>,
}

impl FromJson for TargetConfig {
    fn from_json(reader: &mut Reader<'_>) -> Result<Self> {
        let mut table = TargetConfig::default();
        let mut keys = reader.object()?;
        while let Some(key) = keys.next(reader)? {
            match key {
                "linker" => table.linker = reader.value()?,
                "runner" => table.runner = reader.value()?,
                "rustflags" => table.rustflags = reader.value()?,
                "rustdocflags" => table.rustdocflags = reader.value()?,
                _ => table.nested.extend(reader.value_if_any()?.map(|nested| (key.to_owned(), nested))),
            }
        }
        Ok(table)
    }
}
