//! The tables `registries` and `registry`.
use super::{CredentialProvider, GlobalCredentialProviders};
use crate::choices::RegistriesProtocol;
use crate::from_cells::read_cells;
use std::fmt;

/// What a token is printed as.
pub(crate) const REDACTED: &str = "[REDACTED]";

/// A registry of the table [`registries`](https://doc.rust-lang.org/cargo/reference/config.html#registries). Its debug form
/// has no token.
#[derive(Clone, Default)]
#[non_exhaustive]
pub struct RegistriesConfigValue {
    /// The URL of its index.
    pub index: Option<String>,
    /// Its token.
    pub token: Option<String>,
    /// What provides its token.
    pub credential_provider: Option<CredentialProvider>,
    /// How crates.io is accessed. No other registry has it.
    pub protocol: Option<RegistriesProtocol>,
}

/// The table [`registry`](https://doc.rust-lang.org/cargo/reference/config.html#registry). Its debug form has no token.
#[derive(Clone, Default)]
#[non_exhaustive]
pub struct RegistryConfig {
    /// The registry that commands use where none is given.
    pub default: Option<String>,
    /// What provides the token of crates.io.
    pub credential_provider: Option<CredentialProvider>,
    /// The token of crates.io.
    pub token: Option<String>,
    /// The providers of registries that have none of their own.
    pub global_credential_providers: GlobalCredentialProviders,
}

read_cells! {
    RegistriesConfigValue: "index" index "token" token "credential-provider" credential_provider "protocol" protocol
}

read_cells! {
    RegistryConfig: "default" default "credential-provider" credential_provider "token" token
        "global-credential-providers" global_credential_providers
}

impl fmt::Debug for RegistriesConfigValue {
    fn fmt(&self, f: &mut fmt::Formatter<'_>) -> fmt::Result {
        let mut shown = f.debug_struct("RegistriesConfigValue");
        shown.field("index", &self.index).field("token", &self.token.as_ref().map(|_| REDACTED));
        shown.field("credential_provider", &self.credential_provider).field("protocol", &self.protocol);
        shown.finish_non_exhaustive()
    }
}

impl fmt::Debug for RegistryConfig {
    fn fmt(&self, f: &mut fmt::Formatter<'_>) -> fmt::Result {
        let mut shown = f.debug_struct("RegistryConfig");
        shown.field("default", &self.default).field("credential_provider", &self.credential_provider);
        shown.field("token", &self.token.as_ref().map(|_| REDACTED));
        shown.field("global_credential_providers", &self.global_credential_providers.as_ref()).finish()
    }
}
