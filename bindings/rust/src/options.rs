//! Options of a load, which replace what the process has.
use crate::path_and_args::PathAndArgs;
use std::ffi::OsString;
use std::fmt;
use std::path::PathBuf;

/// Options of a load, which replace what the process has. The debug form has no values of variables.
#[derive(Clone, Default)]
#[must_use]
pub struct ResolveOptions {
    pub(crate) env: Option<Vec<(String, OsString)>>,
    pub(crate) rustc: Option<PathAndArgs>,
    pub(crate) cargo: Option<OsString>,
    pub(crate) cargo_home: Option<Option<PathBuf>>,
    pub(crate) host_triple: Option<Box<str>>,
    /// Words after a question: pairs of `--config` and a text, or of `--config-file` and a path.
    pub(crate) overrides: Vec<String>,
}

impl ResolveOptions {
    /// Chooses the command for rustc. `Config::rustc` returns it, and it is run instead of the configured one: for a target's
    /// cfg, and for rustc's version.
    pub fn rustc<P: Into<PathAndArgs>>(mut self, rustc: P) -> Self {
        self.rustc = Some(rustc.into());
        self
    }

    /// Chooses cargo. Otherwise it is the variable `CARGO`, and where that isn't set `cargo`.
    pub fn cargo<S: Into<OsString>>(mut self, cargo: S) -> Self {
        self.cargo = Some(cargo.into());
        self
    }

    /// Chooses the cargo home, or that there is none. A relative one is joined to the directory of the process.
    pub fn cargo_home<P: Into<Option<PathBuf>>>(mut self, cargo_home: P) -> Self {
        self.cargo_home = Some(cargo_home.into());
        self
    }

    /// Chooses the host, so that no program is run for it.
    pub fn host_triple<S: Into<String>>(mut self, triple: S) -> Self {
        self.host_triple = Some(triple.into().into_boxed_str());
        self
    }

    /// Chooses the variables that set something, instead of the process's. Of these, names that begin neither with `CARGO`
    /// nor with `RUST` and aren't `BROWSER` set nothing, and are left out.
    pub fn env<I: IntoIterator<Item = (K, V)>, K: Into<OsString>, V: Into<OsString>>(mut self, vars: I) -> Self {
        let texts = vars.into_iter().filter_map(|(name, value)| Some((name.into().into_string().ok()?, value.into())));
        self.env = Some(texts.filter(|variable| sets_something(&variable.0)).collect());
        self
    }

    /// Sets what a TOML text has, with precedence over all files and variables, as `cargo --config` does. The last one has
    /// the highest precedence. The original has no such call.
    pub fn config_text<S: Into<String>>(self, text: S) -> Self {
        self.with_override("--config", text.into())
    }

    /// The same for a file.
    pub fn config_file<S: Into<String>>(self, path: S) -> Self {
        self.with_override("--config-file", path.into())
    }

    fn with_override(mut self, option: &str, value: String) -> Self {
        self.overrides.extend([option.to_owned(), value]);
        self
    }
}

/// Whether a variable of this name sets something. The library reads no others.
pub(crate) fn sets_something(name: &str) -> bool {
    name.starts_with("CARGO") || name.starts_with("RUST") || name == "BROWSER"
}

impl fmt::Debug for ResolveOptions {
    fn fmt(&self, f: &mut fmt::Formatter<'_>) -> fmt::Result {
        let names: Option<Vec<_>> = self.env.as_ref().map(|env| env.iter().map(|variable| &variable.0).collect());
        let mut shown = f.debug_struct("ResolveOptions");
        shown
            .field("env", &names)
            .field("rustc", &self.rustc)
            .field("cargo", &self.cargo)
            .field("cargo_home", &self.cargo_home);
        shown.field("host_triple", &self.host_triple).finish_non_exhaustive()
    }
}
