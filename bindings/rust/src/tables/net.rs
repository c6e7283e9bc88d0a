//! The table `net`.
use crate::from_cells::read_cells;

/// The table [`net`](https://doc.rust-lang.org/cargo/reference/config.html#net).
#[derive(Clone, Debug, Default)]
#[non_exhaustive]
pub struct NetConfig {
    /// How often a request that failed is tried again.
    pub retry: Option<u32>,
    /// Whether the program `git` fetches indexes and dependencies.
    pub git_fetch_with_cli: Option<bool>,
    /// Whether nothing is fetched at all.
    pub offline: Option<bool>,
}

read_cells! { NetConfig: "retry" retry "git-fetch-with-cli" git_fetch_with_cli "offline" offline }
