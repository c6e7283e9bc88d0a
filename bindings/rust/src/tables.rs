//! The tables of a resolved configuration.
mod build;
mod cargo_new;
mod credentials;
mod doc;
mod env;
mod future_incompat_report;
mod http;
mod net;
mod registries;
mod source;
mod string_list;
mod target;
mod term;

pub use build::BuildConfig;
pub use cargo_new::CargoNewConfig;
pub use credentials::{CredentialProvider, GlobalCredentialProviders};
pub use doc::DocConfig;
pub use env::EnvConfigValue;
pub use future_incompat_report::FutureIncompatReportConfig;
pub use http::HttpConfig;
pub use net::NetConfig;
pub(crate) use registries::REDACTED;
pub use registries::{RegistriesConfigValue, RegistryConfig};
pub use source::SourceConfigValue;
pub use string_list::StringList;
pub use target::TargetConfig;
pub use term::{TermConfig, TermProgressConfig};

use crate::from_cells::{read_cells, Members, Values};
use crate::path_and_args::PathAndArgs;

/// All tables, as cells have them.
#[derive(Debug, Default)]
pub(crate) struct Tables {
    pub(crate) alias: Values<StringList>,
    pub(crate) build: BuildConfig,
    pub(crate) credential_alias: Values<PathAndArgs>,
    pub(crate) doc: DocConfig,
    pub(crate) env: Values<EnvConfigValue>,
    pub(crate) future_incompat_report: FutureIncompatReportConfig,
    pub(crate) cargo_new: CargoNewConfig,
    pub(crate) http: HttpConfig,
    pub(crate) net: NetConfig,
    pub(crate) registries: Members<RegistriesConfigValue>,
    pub(crate) registry: RegistryConfig,
    pub(crate) source: Members<SourceConfigValue>,
    pub(crate) term: TermConfig,
}

read_cells! {
    Tables: "alias" alias "build" build "credential-alias" credential_alias "doc" doc "env" env
        "future-incompat-report" future_incompat_report "cargo-new" cargo_new "http" http "net" net
        "registries" registries "registry" registry "source" source "term" term
}
