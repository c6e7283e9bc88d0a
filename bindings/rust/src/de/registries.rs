//! The tables `registries` and `registry`.
use super::{CredentialProvider, GlobalCredentialProviders, Value};
use crate::choices::RegistriesProtocol;
use crate::from_json::read_fields;
use crate::tables::REDACTED;
use std::fmt;

/// A registry of the table [`registries`](https://doc.rust-lang.org/cargo/reference/config.html#registries). Its debug form
/// has no token.
#[derive(Clone, Default)]
#[non_exhaustive]
pub struct RegistriesConfigValue {
    /// The URL of its index.
    pub index: Option<Value<String>>,
    /// Its token.
    pub token: Option<Value<String>>,
    /// What provides its token.
    pub credential_provider: Option<CredentialProvider>,
    /// How crates.io is accessed. No other registry has it.
    pub protocol: Option<Value<RegistriesProtocol>>,
}

/// The table [`registry`](https://doc.rust-lang.org/cargo/reference/config.html#registry). Its debug form has no token.
#[derive(Clone, Default)]
#[non_exhaustive]
pub struct RegistryConfig {
    /// The registry that commands use where none is given.
    pub default: Option<Value<String>>,
    /// What provides the token of crates.io.
    pub credential_provider: Option<CredentialProvider>,
    /// The token of crates.io.
    pub token: Option<Value<String>>,
    /// The providers of registries that have none of their own.
    pub global_credential_providers: GlobalCredentialProviders,
}

read_fields! {
    RegistriesConfigValue: "index" index "token" token "credential-provider" credential_provider "protocol" protocol
}

read_fields! {
    RegistryConfig: "default" default "credential-provider" credential_provider "token" token
        "global-credential-providers" global_credential_providers
}

// What is shown of a token: where it is set.
fn redacted(token: &Option<Value<String>>) -> Option<Value<&'static str>> {
    token.as_ref().map(|token| Value { val: REDACTED, definition: token.definition.clone() })
}

impl fmt::Debug for RegistriesConfigValue {
    fn fmt(&self, f: &mut fmt::Formatter<'_>) -> fmt::Result {
        let mut shown = f.debug_struct("RegistriesConfigValue");
        shown.field("index", &self.index).field("token", &redacted(&self.token));
        shown.field("credential_provider", &self.credential_provider).field("protocol", &self.protocol).finish()
    }
}

impl fmt::Debug for RegistryConfig {
    fn fmt(&self, f: &mut fmt::Formatter<'_>) -> fmt::Result {
        let mut shown = f.debug_struct("RegistryConfig");
        shown.field("default", &self.default).field("credential_provider", &self.credential_provider);
        shown.field("token", &redacted(&self.token));
        shown.field("global_credential_providers", &self.global_credential_providers).finish()
    }
}
