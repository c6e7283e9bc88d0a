//! The table `build`.
use super::{Flags, StringOrArray, Value};
use crate::from_json::read_fields;

/// The table [`build`](https://doc.rust-lang.org/cargo/reference/config.html#build).
#[derive(Clone, Debug, Default)]
#[non_exhaustive]
pub struct BuildConfig {
    /// How many compilers run at once.
    pub jobs: Option<Value<i32>>,
    /// The program for rustc.
    pub rustc: Option<Value<String>>,
    /// The program that is run instead of rustc, with rustc as an argument.
    pub rustc_wrapper: Option<Value<String>>,
    /// The same for members of the workspace alone.
    pub rustc_workspace_wrapper: Option<Value<String>>,
    /// The program for rustdoc.
    pub rustdoc: Option<Value<String>>,
    /// The targets to build for.
    pub target: Option<StringOrArray>,
    /// Where the outcome of a build goes.
    pub target_dir: Option<Value<String>>,
    /// Where the intermediate files of a build go.
    pub build_dir: Option<Value<String>>,
    /// Flags for rustc.
    pub rustflags: Option<Flags>,
    /// Flags for rustdoc.
    pub rustdocflags: Option<Flags>,
    /// Whether builds are incremental.
    pub incremental: Option<Value<bool>>,
    /// What paths in files of dependencies are stripped of.
    pub dep_info_basedir: Option<Value<String>>,
}

read_fields! {
    BuildConfig: "jobs" jobs "rustc" rustc "rustc-wrapper" rustc_wrapper "rustc-workspace-wrapper" rustc_workspace_wrapper
        "rustdoc" rustdoc "target" target "target-dir" target_dir "build-dir" build_dir "rustflags" rustflags
        "rustdocflags" rustdocflags "incremental" incremental "dep-info-basedir" dep_info_basedir
}
