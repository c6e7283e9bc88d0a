//! Values of the table `source`.
use super::Value;
use crate::from_json::read_fields;

/// A source of the table [`source`](https://doc.rust-lang.org/cargo/reference/config.html#source).
#[derive(Clone, Debug, Default)]
#[non_exhaustive]
pub struct SourceConfigValue {
    /// The source or the registry that is used instead.
    pub replace_with: Option<Value<String>>,
    /// The directory of a directory source.
    pub directory: Option<Value<String>>,
    /// The URL of a registry source.
    pub registry: Option<Value<String>>,
    /// The directory of a local registry source.
    pub local_registry: Option<Value<String>>,
    /// The URL of a Git source.
    pub git: Option<Value<String>>,
    /// The branch of a Git source.
    pub branch: Option<Value<String>>,
    /// The tag of a Git source.
    pub tag: Option<Value<String>>,
    /// The revision of a Git source.
    pub rev: Option<Value<String>>,
}

read_fields! {
    SourceConfigValue: "replace-with" replace_with "directory" directory "registry" registry
        "local-registry" local_registry "git" git "branch" branch "tag" tag "rev" rev
}
