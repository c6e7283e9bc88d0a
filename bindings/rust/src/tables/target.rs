//! The settings of a target.
use crate::error::Result;
use crate::flags::Flags;
use crate::lines::Lines;
use crate::path_and_args::PathAndArgs;
use std::path::PathBuf;

/// The settings of a target, resolved.
#[derive(Clone, Debug, Default)]
#[non_exhaustive]
pub struct TargetConfig {
    /// The linker.
    pub linker: Option<PathBuf>,
    /// What runs the programs that are built.
    pub runner: Option<PathAndArgs>,
    /// Flags for rustc.
    pub rustflags: Option<Flags>,
    /// Flags for rustdoc.
    pub rustdocflags: Option<Flags>,
}

impl TargetConfig {
    /// The settings that the lines of a question `target T` tell.
    ///
    /// # Errors
    /// Where they are no such lines.
    pub(crate) fn of_lines(text: &str) -> Result<Self> {
        let mut lines = Lines::new(text);
        let settings = TargetConfig {
            linker: lines.path("linker")?,
            runner: lines.texts("runner")?.and_then(PathAndArgs::of_list),
            rustflags: lines.texts("rustflags")?.map(Flags::from),
            rustdocflags: lines.texts("rustdocflags")?.map(Flags::from),
        };
        lines.end()?;
        Ok(settings)
    }
}
