//! Values of the table `source`.
use crate::from_cells::read_cells;
use std::path::PathBuf;

/// A source of the table [`source`](https://doc.rust-lang.org/cargo/reference/config.html#source).
#[derive(Clone, Debug, Default)]
#[non_exhaustive]
pub struct SourceConfigValue {
    /// The source or the registry that is used instead.
    pub replace_with: Option<String>,
    /// The directory of a directory source.
    pub directory: Option<PathBuf>,
    /// The URL of a registry source.
    pub registry: Option<String>,
    /// The directory of a local registry source.
    pub local_registry: Option<PathBuf>,
    /// The URL of a Git source.
    pub git: Option<String>,
    /// The branch of a Git source.
    pub branch: Option<String>,
    /// The tag of a Git source.
    pub tag: Option<String>,
    /// The revision of a Git source.
    pub rev: Option<String>,
}

read_cells! {
    SourceConfigValue: "replace-with" replace_with "directory" directory "registry" registry
        "local-registry" local_registry "git" git "branch" branch "tag" tag "rev" rev
}
