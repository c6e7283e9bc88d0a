//! The table `cargo-new`.
use crate::choices::VersionControlSoftware;
use crate::from_cells::read_cells;

/// The table [`cargo-new`](https://doc.rust-lang.org/cargo/reference/config.html#cargo-new).
#[derive(Clone, Debug, Default)]
#[non_exhaustive]
pub struct CargoNewConfig {
    /// The version control that a new package gets.
    pub vcs: Option<VersionControlSoftware>,
}

read_cells! { CargoNewConfig: "vcs" vcs }
