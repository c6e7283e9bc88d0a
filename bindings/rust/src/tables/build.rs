//! The table `build`.
use crate::flags::Flags;
use crate::from_cells::read_cells;
use crate::target::TargetTriple;
use std::path::PathBuf;

/// The table [`build`](https://doc.rust-lang.org/cargo/reference/config.html#build), with its paths and programs resolved.
#[derive(Clone, Debug, Default)]
#[non_exhaustive]
pub struct BuildConfig {
    /// How many compilers run at once.
    pub jobs: Option<i32>,
    /// The program for rustc. `Config::rustc` has the wrappers too.
    pub rustc: Option<PathBuf>,
    /// The program that is run instead of rustc, with rustc as an argument.
    pub rustc_wrapper: Option<PathBuf>,
    /// The same for members of the workspace alone.
    pub rustc_workspace_wrapper: Option<PathBuf>,
    /// The program for rustdoc.
    pub rustdoc: Option<PathBuf>,
    /// The targets to build for.
    pub target: Option<Vec<TargetTriple>>,
    /// Where the outcome of a build goes.
    pub target_dir: Option<PathBuf>,
    /// Where the intermediate files of a build go. A text that begins with `{workspace-root}` or `{cargo-cache-home}` stays
    /// as it is.
    pub build_dir: Option<PathBuf>,
    /// Flags for rustc. `Config::rustflags` has those of a target.
    pub rustflags: Option<Flags>,
    /// Flags for rustdoc, likewise.
    pub rustdocflags: Option<Flags>,
    /// Whether builds are incremental.
    pub incremental: Option<bool>,
    /// What paths in files of dependencies are stripped of.
    pub dep_info_basedir: Option<PathBuf>,
}

read_cells! {
    BuildConfig: "jobs" jobs "rustc" rustc "rustc-wrapper" rustc_wrapper "rustc-workspace-wrapper" rustc_workspace_wrapper
        "rustdoc" rustdoc "target" target "target-dir" target_dir "build-dir" build_dir "rustflags" rustflags
        "rustdocflags" rustdocflags "incremental" incremental "dep-info-basedir" dep_info_basedir
}
