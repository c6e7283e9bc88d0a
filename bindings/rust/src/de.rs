//! The configuration as files have it: values that are neither resolved nor under environment variables, each with its origin.
//!
//! ```no_run
//! let config = cargo_config2::de::Config::load().unwrap();
//! if let Some(jobs) = config.build.jobs {
//!     println!("{} is set in {}", jobs.val, jobs.definition.unwrap());
//! }
//! ```
mod build;
mod cargo_new;
mod config;
mod credentials;
mod doc;
mod env;
mod future_incompat_report;
mod http;
mod lists;
mod net;
mod registries;
mod source;
mod target;
mod term;
mod value;

pub use crate::choices::{Color, Frequency, RegistriesProtocol, VersionControlSoftware, When};
pub use build::BuildConfig;
pub use cargo_new::CargoNewConfig;
pub use config::Config;
pub use credentials::{CredentialProvider, CredentialProviderKind, GlobalCredentialProviders};
pub use doc::DocConfig;
pub use env::EnvConfigValue;
pub use future_incompat_report::FutureIncompatReportConfig;
pub use http::HttpConfig;
pub use lists::{Flags, PathAndArgs, StringList};
pub use net::NetConfig;
pub use registries::{RegistriesConfigValue, RegistryConfig};
pub use source::SourceConfigValue;
pub use target::TargetConfig;
pub use term::{TermConfig, TermProgress};
pub use value::{ConfigRelativePath, Definition, StringOrArray, Value};
