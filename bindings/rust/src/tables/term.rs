//! The table `term`.
use crate::choices::{Color, When};
use crate::from_cells::read_cells;

/// The table [`term`](https://doc.rust-lang.org/cargo/reference/config.html#term).
#[derive(Clone, Debug, Default)]
#[non_exhaustive]
pub struct TermConfig {
    /// Whether messages are left out.
    pub quiet: Option<bool>,
    /// Whether messages have more details.
    pub verbose: Option<bool>,
    /// Whether output has colors.
    pub color: Option<Color>,
    /// The progress bar.
    pub progress: TermProgressConfig,
}

/// The table [`term.progress`](https://doc.rust-lang.org/cargo/reference/config.html#termprogresswhen).
#[derive(Clone, Debug, Default)]
#[non_exhaustive]
pub struct TermProgressConfig {
    /// Whether the bar is shown.
    pub when: Option<When>,
    /// The bar's width.
    pub width: Option<u32>,
}

read_cells! { TermConfig: "quiet" quiet "verbose" verbose "color" color "progress" progress }

read_cells! { TermProgressConfig: "when" when "width" width }
