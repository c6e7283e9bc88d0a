//! The table `future-incompat-report`.
use crate::choices::Frequency;
use crate::from_cells::read_cells;

/// The table [`future-incompat-report`](https://doc.rust-lang.org/cargo/reference/config.html#future-incompat-report).
#[derive(Clone, Debug, Default)]
#[non_exhaustive]
pub struct FutureIncompatReportConfig {
    /// How often a report is announced.
    pub frequency: Option<Frequency>,
}

read_cells! { FutureIncompatReportConfig: "frequency" frequency }
