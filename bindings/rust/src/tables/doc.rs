//! The table `doc`.
use crate::from_cells::read_cells;
use crate::path_and_args::PathAndArgs;

/// The table [`doc`](https://doc.rust-lang.org/cargo/reference/config.html#doc).
#[derive(Clone, Debug, Default)]
#[non_exhaustive]
pub struct DocConfig {
    /// The browser that `cargo doc --open` starts.
    pub browser: Option<PathAndArgs>,
}

read_cells! { DocConfig: "browser" browser }
