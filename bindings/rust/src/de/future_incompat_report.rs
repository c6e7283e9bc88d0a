//! The table `future-incompat-report`.
use super::Value;
use crate::choices::Frequency;
use crate::from_json::read_fields;

/// The table [`future-incompat-report`](https://doc.rust-lang.org/cargo/reference/config.html#future-incompat-report).
#[derive(Clone, Debug, Default)]
#[non_exhaustive]
pub struct FutureIncompatReportConfig {
    /// How often a report is announced.
    pub frequency: Option<Value<Frequency>>,
}

read_fields! { FutureIncompatReportConfig: "frequency" frequency }
