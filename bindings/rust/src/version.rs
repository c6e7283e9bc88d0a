//! The versions of rustc and of cargo.
use crate::error::{Error, Result};
use crate::lines::Lines;

/// The version of rustc, as it reports it itself.
#[derive(Clone, Copy, Debug, PartialEq, Eq)]
#[non_exhaustive]
pub struct RustcVersion {
    /// The major version.
    pub major: u32,
    /// The minor version.
    pub minor: u32,
    /// The patch version, where it is reported.
    pub patch: Option<u32>,
    /// Whether its channel is `nightly` or `dev`, and `RUSTC_BOOTSTRAP` isn't `-1`.
    pub nightly: bool,
}

/// The version of cargo, as it reports it itself.
#[derive(Clone, Copy, Debug, PartialEq, Eq)]
#[non_exhaustive]
pub struct CargoVersion {
    /// The major version.
    pub major: u32,
    /// The minor version.
    pub minor: u32,
    /// The patch version.
    pub patch: u32,
    /// Whether its channel is `nightly` or `dev`.
    pub nightly: bool,
}

impl RustcVersion {
    /// The major and the minor version, to compare.
    pub fn major_minor(&self) -> (u32, u32) {
        (self.major, self.minor)
    }

    /// The version in the lines of an item `rustc-version`.
    ///
    /// # Errors
    /// Where they are no such lines.
    pub(crate) fn of_lines(text: &str) -> Result<Self> {
        let mut lines = Lines::new(text);
        let version = RustcVersion {
            major: known(lines.word("rustc-version.major")?)?,
            minor: known(lines.word("rustc-version.minor")?)?,
            patch: lines.word("rustc-version.patch")?,
            nightly: known(lines.word("rustc-version.nightly")?)?,
        };
        lines.end()?;
        Ok(version)
    }
}

impl CargoVersion {
    /// The major and the minor version, to compare.
    pub fn major_minor(&self) -> (u32, u32) {
        (self.major, self.minor)
    }

    /// The version in the lines of an item `cargo-version`.
    ///
    /// # Errors
    /// Where they are no such lines.
    pub(crate) fn of_lines(text: &str) -> Result<Self> {
        let mut lines = Lines::new(text);
        let version = CargoVersion {
            major: known(lines.word("cargo-version.major")?)?,
            minor: known(lines.word("cargo-version.minor")?)?,
            patch: known(lines.word("cargo-version.patch")?)?,
            nightly: known(lines.word("cargo-version.nightly")?)?,
        };
        lines.end()?;
        Ok(version)
    }
}

// A part that is always there.
fn known<T>(part: Option<T>) -> Result<T> {
    part.ok_or_else(Error::unread)
}
