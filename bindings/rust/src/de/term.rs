//! The table `term`.
use super::Value;
use crate::choices::{Color, When};
use crate::from_json::read_fields;

/// The table [`term`](https://doc.rust-lang.org/cargo/reference/config.html#term).
#[derive(Clone, Debug, Default)]
#[non_exhaustive]
pub struct TermConfig {
    /// Whether messages are left out.
    pub quiet: Option<Value<bool>>,
    /// Whether messages have more details.
    pub verbose: Option<Value<bool>>,
    /// Whether output has colors.
    pub color: Option<Value<Color>>,
    /// The progress bar.
    pub progress: TermProgress,
}

/// The table [`term.progress`](https://doc.rust-lang.org/cargo/reference/config.html#termprogresswhen).
#[derive(Clone, Debug, Default)]
#[non_exhaustive]
pub struct TermProgress {
    /// Whether the bar is shown.
    pub when: Option<Value<When>>,
    /// The bar's width.
    pub width: Option<Value<u32>>,
}

read_fields! { TermConfig: "quiet" quiet "verbose" verbose "color" color "progress" progress }

read_fields! { TermProgress: "when" when "width" width }
