//! The table `http`.
use super::Value;
use crate::from_json::read_fields;

/// The table [`http`](https://doc.rust-lang.org/cargo/reference/config.html#http).
#[derive(Clone, Debug, Default)]
#[non_exhaustive]
pub struct HttpConfig {
    /// Whether requests are logged.
    pub debug: Option<Value<bool>>,
    /// The proxy, as `[protocol://]host[:port]`.
    pub proxy: Option<Value<String>>,
    /// The timeout of a request, in seconds.
    pub timeout: Option<Value<u32>>,
    /// The file of certificate authorities.
    pub cainfo: Option<Value<String>>,
    /// Whether it is checked that certificates aren't revoked, on Windows.
    pub check_revoke: Option<Value<bool>>,
    /// How many bytes a second are too few.
    pub low_speed_limit: Option<Value<u32>>,
    /// Whether several requests share a connection.
    pub multiplexing: Option<Value<bool>>,
    /// The header `User-Agent`.
    pub user_agent: Option<Value<String>>,
}

read_fields! {
    HttpConfig: "debug" debug "proxy" proxy "timeout" timeout "cainfo" cainfo "check-revoke" check_revoke
        "low-speed-limit" low_speed_limit "multiplexing" multiplexing "user-agent" user_agent
}
