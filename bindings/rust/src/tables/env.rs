//! Values of the table `env`.
use crate::cells::Reader;
use crate::from_cells::FromCell;
use std::ffi::OsString;

/// A variable of the table [`env`](https://doc.rust-lang.org/cargo/reference/config.html#env), which Cargo sets for build
/// scripts, rustc, `cargo run` and `cargo build`.
#[derive(Clone, Debug)]
#[non_exhaustive]
pub struct EnvConfigValue {
    /// The variable's value. A relative path is joined already.
    pub value: OsString,
    /// Whether it takes precedence over a variable of the process.
    pub force: bool,
    /// Whether the value is a relative path that isn't joined yet. It is false after a load.
    pub relative: bool,
}

impl FromCell for EnvConfigValue {
    fn from_cell(reader: &mut Reader<'_>) -> Option<Self> {
        let (value, force, relative) = reader.variable()?;
        Some(EnvConfigValue { value: value.into(), force, relative })
    }
}
