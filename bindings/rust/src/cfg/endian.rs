//! The order of bytes.
#![allow(non_camel_case_types)]
use super::compare::compares_with_texts;
use super::Cfg;
use crate::error::Error;
use std::fmt;
use std::str::FromStr;

/// The value of `target_endian`: which byte of a number is the first.
#[derive(Clone)]
#[allow(clippy::exhaustive_enums)]
pub enum TargetEndian {
    /// The value `big`: the highest.
    big,
    /// The value `little`: the lowest.
    little,
}

impl TargetEndian {
    /// The value, as rustc prints it.
    #[must_use]
    pub const fn as_str(&self) -> &str {
        match self {
            TargetEndian::big => "big",
            TargetEndian::little => "little",
        }
    }
}

impl FromStr for TargetEndian {
    type Err = Error;

    fn from_str(text: &str) -> Result<Self, Error> {
        let found = [TargetEndian::big, TargetEndian::little].into_iter().find(|value| value == text);
        found.ok_or_else(|| Error::new(&format!("`{text}` is none of big, little")))
    }
}

compares_with_texts!(TargetEndian);

impl Cfg for TargetEndian {
    type Output = Self;
    const KEY: &'static str = "target_endian";
    type Error = Error;
    const MAX: usize = 1;

    fn from_values<I: ExactSizeIterator<Item = V>, V: AsRef<str>>(mut values: I) -> Result<Self, Error> {
        values.next().as_ref().map_or("", AsRef::as_ref).parse()
    }

    fn default_output() -> Option<Self> {
        None
    }
}
