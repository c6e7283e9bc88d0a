//! Cargo's configuration, loaded and resolved by a proved library: the names of the crate `cargo-config2` over the function
//! `cc2_ask`. This crate reads the files and starts the programs, and reads the cells and the lines that the library answers.
//!
//! Answers are by the rules of `cargo-config2` 0.1.45. Cargo 1.95 itself answers otherwise in places, as for files that
//! `include` names; docs/CARGO.md lists them.
//!
//! ```no_run
//! let config = cargo_config2::Config::load().unwrap();
//! println!("{:?}", config.rustflags("x86_64-unknown-linux-gnu").unwrap());
//! ```
//!
//! README.md beside it has which names of the original there are, and which not.
#![deny(unsafe_code)]
#![warn(missing_debug_implementations, missing_docs)]

mod ask;
pub mod cc2;
mod cells;
pub mod cfg;
mod choices;
mod config;
pub mod de;
mod error;
mod failures;
mod flags;
mod from_cells;
mod from_json;
mod json;
mod known;
mod lines;
mod machine;
mod options;
mod path_and_args;
mod record;
mod reply;
#[cfg(feature = "serde")]
mod serde_impls;
mod tables;
mod target;
mod tokens;
mod version;
mod walk;

pub use choices::{Color, Frequency, RegistriesProtocol, VersionControlSoftware, When};
pub use config::Config;
pub use error::{Cause, Error};
pub use flags::Flags;
pub use options::ResolveOptions;
pub use path_and_args::PathAndArgs;
pub use tables::{
    BuildConfig, CargoNewConfig, CredentialProvider, DocConfig, EnvConfigValue, FutureIncompatReportConfig,
    GlobalCredentialProviders, HttpConfig, NetConfig, RegistriesConfigValue, RegistryConfig, SourceConfigValue,
    StringList, TargetConfig, TermConfig, TermProgressConfig,
};
pub use target::{TargetTriple, TargetTripleRef};
pub use version::{CargoVersion, RustcVersion};
pub use walk::{cargo_home_with_cwd, home_dir, rustup_home_with_cwd, Walk};
