//! The table `net`.
use super::Value;
use crate::from_json::read_fields;

/// The table [`net`](https://doc.rust-lang.org/cargo/reference/config.html#net).
#[derive(Clone, Debug, Default)]
#[non_exhaustive]
pub struct NetConfig {
    /// How often a request that failed is tried again.
    pub retry: Option<Value<u32>>,
    /// Whether the program `git` fetches indexes and dependencies.
    pub git_fetch_with_cli: Option<Value<bool>>,
    /// Whether nothing is fetched at all.
    pub offline: Option<Value<bool>>,
}

read_fields! { NetConfig: "retry" retry "git-fetch-with-cli" git_fetch_with_cli "offline" offline }
