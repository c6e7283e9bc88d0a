//! Values that are one of a few words.
use crate::cells;
use crate::error::{Error, Result};
use crate::from_cells::FromCell;
use crate::from_json::FromJson;
use crate::json::Reader;
use std::str::FromStr;

/// Whether output has colors: [`term.color`](https://doc.rust-lang.org/cargo/reference/config.html#termcolor).
#[derive(Clone, Copy, Debug, Default, PartialEq, Eq)]
pub enum Color {
    /// Where the terminal supports them; this is the default.
    #[default]
    Auto,
    /// Always.
    Always,
    /// Never.
    Never,
}

/// Whether a progress bar is shown: [`term.progress.when`](https://doc.rust-lang.org/cargo/reference/config.html#termprogresswhen).
#[derive(Clone, Copy, Debug, Default, PartialEq, Eq)]
pub enum When {
    /// Where Cargo guesses that it is useful; this is the default.
    #[default]
    Auto,
    /// Always.
    Always,
    /// Never.
    Never,
}

/// How often a report of future incompatibilities is announced:
/// [`future-incompat-report.frequency`](https://doc.rust-lang.org/cargo/reference/config.html#future-incompat-reportfrequency).
#[derive(Clone, Copy, Debug, Default, PartialEq, Eq)]
pub enum Frequency {
    /// By each command that has one; this is the default.
    #[default]
    Always,
    /// Never.
    Never,
}

/// How crates.io is accessed: [`registries.crates-io.protocol`](https://doc.rust-lang.org/cargo/reference/config.html#registriescrates-ioprotocol).
#[derive(Clone, Debug, PartialEq, Eq)]
#[non_exhaustive]
pub enum RegistriesProtocol {
    /// Its index is cloned by Git.
    Git,
    /// Parts of its index are downloaded by HTTPS.
    Sparse,
}

/// The version control of a new package: [`cargo-new.vcs`](https://doc.rust-lang.org/cargo/reference/config.html#cargo-newvcs).
#[derive(Clone, Copy, Debug, PartialEq, Eq)]
#[non_exhaustive]
pub enum VersionControlSoftware {
    /// Git.
    Git,
    /// Mercurial, whose word is `hg`.
    Mercurial,
    /// Pijul.
    Pijul,
    /// Fossil.
    Fossil,
    /// None at all.
    None,
}

impl Color {
    /// The word in a file.
    pub const fn as_str(self) -> &'static str {
        match self {
            Color::Auto => "auto",
            Color::Always => "always",
            Color::Never => "never",
        }
    }
}

impl When {
    /// The word in a file.
    pub const fn as_str(self) -> &'static str {
        match self {
            When::Auto => "auto",
            When::Always => "always",
            When::Never => "never",
        }
    }
}

impl Frequency {
    /// The word in a file.
    pub const fn as_str(self) -> &'static str {
        match self {
            Frequency::Always => "always",
            Frequency::Never => "never",
        }
    }
}

impl RegistriesProtocol {
    // The word in a file.
    pub(crate) fn word(&self) -> &'static str {
        match self {
            RegistriesProtocol::Git => "git",
            RegistriesProtocol::Sparse => "sparse",
        }
    }
}

impl VersionControlSoftware {
    /// The word in a file.
    pub const fn as_str(self) -> &'static str {
        match self {
            VersionControlSoftware::Git => "git",
            VersionControlSoftware::Mercurial => "hg",
            VersionControlSoftware::Pijul => "pijul",
            VersionControlSoftware::Fossil => "fossil",
            VersionControlSoftware::None => "none",
        }
    }
}

// A choice is read from its word, and from a text of a cell or a string of JSON that is it.
macro_rules! from_word {
    ($($name:ident [$($choice:ident)*] $word:ident;)*) => {$(
        impl FromStr for $name {
            type Err = Error;

            fn from_str(word: &str) -> Result<Self, Self::Err> {
                let choices = [$($name::$choice),*];
                let words = choices.clone().map(|choice| choice.$word());
                let found = choices.into_iter().find(|choice| choice.$word() == word);
                found.ok_or_else(|| Error::new(&format!("`{word}` is none of {}", words.join(", "))))
            }
        }

        impl FromJson for $name {
            fn from_json(reader: &mut Reader<'_>) -> Result<Self> {
                reader.string()?.parse()
            }
        }

        impl FromCell for $name {
            fn from_cell(reader: &mut cells::Reader<'_>) -> Option<Self> {
                reader.text()?.parse().ok()
            }
        }
    )*};
}

from_word! {
    Color [Auto Always Never] as_str;
    When [Auto Always Never] as_str;
    Frequency [Always Never] as_str;
    RegistriesProtocol [Git Sparse] word;
    VersionControlSoftware [Git Mercurial Pijul Fossil None] as_str;
}

#[cfg(test)]
mod tests {
    use super::*;

    #[test]
    fn words() {
        for word in ["auto", "always", "never"] {
            assert_eq!(word.parse::<Color>().unwrap().as_str(), word);
            assert_eq!(word.parse::<When>().unwrap().as_str(), word);
        }
        assert_eq!(("never".parse(), Frequency::default().as_str()), (Ok(Frequency::Never), "always"));
        assert_eq!("sparse".parse(), Ok(RegistriesProtocol::Sparse));
        for word in ["git", "hg", "pijul", "fossil", "none"] {
            assert_eq!(word.parse::<VersionControlSoftware>().unwrap().as_str(), word);
        }
        let error = "auto".parse::<Frequency>().unwrap_err();
        assert_eq!(error.to_string(), "`auto` is none of always, never");
    }
}
