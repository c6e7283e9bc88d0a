//! Flags.
use crate::cells::Reader;
use crate::error::{Error, Result};
use crate::from_cells::FromCell;

const UNIT: char = '\x1f';

/// Flags for rustc or rustdoc, each of them one argument.
#[derive(Clone, Debug, Default, PartialEq, Eq)]
#[non_exhaustive]
pub struct Flags {
    /// The flags, in their order.
    pub flags: Vec<String>,
}

impl Flags {
    /// The flags in a text like that of `CARGO_ENCODED_RUSTFLAGS`, with the character U+001F between two. An empty text has
    /// none.
    pub fn from_encoded(s: &str) -> Self {
        let parts = s.split(UNIT).map(str::to_owned);
        Flags { flags: if s.is_empty() { Vec::new() } else { parts.collect() } }
    }

    /// The flags in a text like that of `RUSTFLAGS`, with spaces between two.
    pub fn from_space_separated(s: &str) -> Self {
        Flags { flags: words(s).map(str::to_owned).collect() }
    }

    /// The text for `CARGO_ENCODED_RUSTFLAGS`.
    ///
    /// # Errors
    /// Where a flag has the character U+001F.
    pub fn encode(&self) -> Result<String> {
        self.joined(UNIT)
    }

    /// The text for `RUSTFLAGS`.
    ///
    /// # Errors
    /// Where a flag has a space.
    pub fn encode_space_separated(&self) -> Result<String> {
        self.joined(' ')
    }

    /// Appends a flag.
    pub fn push<S: Into<String>>(&mut self, flag: S) {
        self.flags.push(flag.into());
    }

    fn joined(&self, separator: char) -> Result<String> {
        if self.flags.iter().any(|flag| flag.contains(separator)) {
            return Err(Error::new(&format!("flag in rustflags must not contain its separator ({separator:?})")));
        }
        // As in the original, empty flags in front of the first other one leave no separator.
        let flags = self.flags.iter().skip_while(|flag| flag.is_empty());
        Ok(flags.map(String::as_str).collect::<Vec<_>>().join(separator.to_string().as_str()))
    }
}

/// The words of a text, with spaces between two. White space at the ends of a word doesn't count.
pub(crate) fn words(text: &str) -> impl Iterator<Item = &str> {
    text.split(' ').map(str::trim).filter(|word| !word.is_empty())
}

impl FromCell for Flags {
    fn from_cell(reader: &mut Reader<'_>) -> Option<Self> {
        reader.list()?.rest(String::from).map(Flags::from)
    }
}

impl From<Vec<String>> for Flags {
    fn from(flags: Vec<String>) -> Self {
        Flags { flags }
    }
}

impl From<&[String]> for Flags {
    fn from(flags: &[String]) -> Self {
        Flags { flags: flags.to_vec() }
    }
}

impl From<&[&str]> for Flags {
    fn from(flags: &[&str]) -> Self {
        Flags { flags: flags.iter().map(|&flag| flag.to_owned()).collect() }
    }
}

impl<const N: usize> From<[String; N]> for Flags {
    fn from(flags: [String; N]) -> Self {
        Flags { flags: flags.into() }
    }
}

impl<const N: usize> From<[&str; N]> for Flags {
    fn from(flags: [&str; N]) -> Self {
        Flags::from(&flags[..])
    }
}

#[cfg(test)]
mod tests {
    use super::*;

    #[test]
    fn texts() {
        assert_eq!(Flags::from_encoded("a\x1f\x1fb c").flags, ["a", "", "b c"]);
        assert!(Flags::from_encoded("").flags.is_empty());
        assert_eq!(Flags::from_space_separated("  a b\t ").flags, ["a", "b"]);
        assert_eq!(Flags::from(["a", "b"]).encode_space_separated().unwrap(), "a b");
        assert!(Flags::from(["a b"]).encode_space_separated().is_err());
        assert_eq!(Flags::from(["a b", "c"]).encode().unwrap(), "a b\x1fc");
        assert_eq!(Flags::from(["", "a", "", "b", ""]).encode().unwrap(), "a\x1f\x1fb\x1f");
        assert_eq!(Flags::from(["", ""]).encode().unwrap(), "");
    }
}
