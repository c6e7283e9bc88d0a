//! Configurations as files have them.
use super::{
    BuildConfig, CargoNewConfig, DocConfig, EnvConfigValue, FutureIncompatReportConfig, HttpConfig, NetConfig,
    PathAndArgs, RegistriesConfigValue, RegistryConfig, SourceConfigValue, StringList, TargetConfig, TermConfig,
};
use crate::config::lines_by;
use crate::error::{Error, Result};
use crate::from_json::read_fields;
use crate::json;
use crate::known::Known;
use crate::machine::{current_dir, known_from, text_of};
use crate::options::ResolveOptions;
use std::collections::BTreeMap;
use std::fs;
use std::path::{Path, PathBuf};

/// The configuration of files, merged: neither resolved nor under environment variables.
#[derive(Clone, Debug, Default)]
#[non_exhaustive]
pub struct Config {
    /// The table [`alias`](https://doc.rust-lang.org/cargo/reference/config.html#alias): commands by their names.
    pub alias: BTreeMap<String, StringList>,
    /// The table [`build`](https://doc.rust-lang.org/cargo/reference/config.html#build).
    pub build: BuildConfig,
    /// The table [`credential-alias`](https://doc.rust-lang.org/cargo/reference/config.html#credential-alias): credential
    /// providers by their names.
    pub credential_alias: BTreeMap<String, PathAndArgs>,
    /// The table [`doc`](https://doc.rust-lang.org/cargo/reference/config.html#doc).
    pub doc: DocConfig,
    /// The table [`env`](https://doc.rust-lang.org/cargo/reference/config.html#env): variables by their names.
    pub env: BTreeMap<String, EnvConfigValue>,
    /// The table [`future-incompat-report`](https://doc.rust-lang.org/cargo/reference/config.html#future-incompat-report).
    pub future_incompat_report: FutureIncompatReportConfig,
    /// The table [`cargo-new`](https://doc.rust-lang.org/cargo/reference/config.html#cargo-new).
    pub cargo_new: CargoNewConfig,
    /// The table [`http`](https://doc.rust-lang.org/cargo/reference/config.html#http).
    pub http: HttpConfig,
    /// The table [`net`](https://doc.rust-lang.org/cargo/reference/config.html#net).
    pub net: NetConfig,
    /// The table [`registries`](https://doc.rust-lang.org/cargo/reference/config.html#registries): registries by their names.
    pub registries: BTreeMap<String, RegistriesConfigValue>,
    /// The table [`registry`](https://doc.rust-lang.org/cargo/reference/config.html#registry).
    pub registry: RegistryConfig,
    /// The table [`source`](https://doc.rust-lang.org/cargo/reference/config.html#source): sources by their names.
    pub source: BTreeMap<String, SourceConfigValue>,
    /// The table [`target`](https://doc.rust-lang.org/cargo/reference/config.html#target): settings by triples and keys `cfg(..)`.
    pub target: BTreeMap<String, TargetConfig>,
    /// The table [`term`](https://doc.rust-lang.org/cargo/reference/config.html#term).
    pub term: TermConfig,
}

// The question for the files alone, with origins.
const FILES: [&str; 6] = ["show", "--files", "--format", "json", "--show-origin", "--tokens"];

// A cargo home with one file, which is the file that is loaded by itself.
const LONE_HOME: &str = "/lone";
const LONE_FILE: &str = "/lone/config.toml";

impl Config {
    /// The configuration of the process's directory.
    ///
    /// # Errors
    /// Where the directory can't be had, and those of `load_with_options`.
    pub fn load() -> Result<Self> {
        Config::load_with_cwd(current_dir()?)
    }

    /// The configuration of a directory: its file, those of the directories above it, and that of the cargo home.
    ///
    /// # Errors
    /// Those of `load_with_options`.
    pub fn load_with_cwd<P: AsRef<Path>>(cwd: P) -> Result<Self> {
        load_under(cwd.as_ref(), ResolveOptions::default())
    }

    /// The configuration of a directory with this cargo home, or without one.
    ///
    /// # Errors
    /// Where a file can't be read or isn't of the configuration's types. Where the files don't merge. Where the directory
    /// isn't UTF-8. Where the library can't be asked.
    pub fn load_with_options<P: AsRef<Path>, Q: Into<Option<PathBuf>>>(cwd: P, cargo_home: Q) -> Result<Self> {
        load_under(cwd.as_ref(), ResolveOptions::default().cargo_home(cargo_home))
    }

    /// The configuration of one file alone.
    ///
    /// # Errors
    /// Where the file can't be read or isn't of the configuration's types. Where the library can't be asked.
    pub fn load_file<P: AsRef<Path>>(path: P) -> Result<Self> {
        let path = path.as_ref();
        let shown = path.display().to_string();
        let content =
            fs::read_to_string(path).map_err(|error| Error::by_io(&format!("failed to read `{shown}`"), &error))?;
        // A machine that has this file alone.
        let mut known = Known::default();
        known.put_directory("/");
        known.put_variable("CARGO_HOME", LONE_HOME.as_bytes());
        known.put_file(LONE_FILE, content.as_bytes());
        ["/lone/config", "/.cargo/config", "/.cargo/config.toml"].iter().for_each(|path| known.put_nothing(path));
        let json = lines_by("/", &FILES, &[], &mut known).map_err(|error| error.renamed(LONE_FILE, &shown))?;
        json::read_of_file(&json, path.to_str().unwrap_or(&shown))
    }
}

// The configuration of a directory. Of what is chosen the cargo home alone matters.
fn load_under(dir: &Path, options: ResolveOptions) -> Result<Config> {
    let dir = text_of(dir.to_path_buf())?;
    let (mut known, _) = known_from(&dir, &options.env(None::<(String, String)>))?;
    json::read(&lines_by(&dir, &FILES, &[], &mut known)?)
}

read_fields! {
    Config: "alias" alias "build" build "credential-alias" credential_alias "doc" doc "env" env
        "future-incompat-report" future_incompat_report "cargo-new" cargo_new "http" http "net" net
        "registries" registries "registry" registry "source" source "target" target "term" term
}
