//! Configurations.
mod json_text;
mod targets;

use crate::cc2::{answer_by, reply_to};
use crate::cells;
use crate::error::{Error, Result};
use crate::known::Known;
use crate::lines::{items, Lines};
use crate::machine::{current_dir, known_from, text_of};
use crate::options::ResolveOptions;
use crate::path_and_args::PathAndArgs;
use crate::reply::Reply;
use crate::tables::*;
use crate::version::{CargoVersion, RustcVersion};
use std::cell::{OnceCell, RefCell};
use std::collections::BTreeMap;
use std::ffi::{OsStr, OsString};
use std::fmt;
use std::path::Path;

/// A configuration, loaded and resolved. The results of queries are cached: no file is read and no program is run for them again.
#[derive(Clone)]
#[non_exhaustive]
pub struct Config {
    /// The table [`alias`](https://doc.rust-lang.org/cargo/reference/config.html#alias): commands by their names.
    pub alias: BTreeMap<String, StringList>,
    /// The table [`build`](https://doc.rust-lang.org/cargo/reference/config.html#build).
    pub build: BuildConfig,
    /// The table [`credential-alias`](https://doc.rust-lang.org/cargo/reference/config.html#credential-alias): credential
    /// providers by their names.
    pub credential_alias: BTreeMap<String, PathAndArgs>,
    /// The table [`doc`](https://doc.rust-lang.org/cargo/reference/config.html#doc).
    pub doc: DocConfig,
    /// The table [`env`](https://doc.rust-lang.org/cargo/reference/config.html#env): variables by their names.
    pub env: BTreeMap<String, EnvConfigValue>,
    /// The table [`future-incompat-report`](https://doc.rust-lang.org/cargo/reference/config.html#future-incompat-report).
    pub future_incompat_report: FutureIncompatReportConfig,
    /// The table [`cargo-new`](https://doc.rust-lang.org/cargo/reference/config.html#cargo-new).
    pub cargo_new: CargoNewConfig,
    /// The table [`http`](https://doc.rust-lang.org/cargo/reference/config.html#http).
    pub http: HttpConfig,
    /// The table [`net`](https://doc.rust-lang.org/cargo/reference/config.html#net).
    pub net: NetConfig,
    /// The table [`registries`](https://doc.rust-lang.org/cargo/reference/config.html#registries): registries by their names.
    pub registries: BTreeMap<String, RegistriesConfigValue>,
    /// The table [`registry`](https://doc.rust-lang.org/cargo/reference/config.html#registry).
    pub registry: RegistryConfig,
    /// The table [`source`](https://doc.rust-lang.org/cargo/reference/config.html#source): sources by their names.
    pub source: BTreeMap<String, SourceConfigValue>,
    /// The table [`term`](https://doc.rust-lang.org/cargo/reference/config.html#term).
    pub term: TermConfig,
    dir: String,
    overrides: Vec<String>,
    cargo: OsString,
    chosen_rustc: Option<PathAndArgs>,
    // The configured command for rustc.
    rustc: OnceCell<PathAndArgs>,
    host: OnceCell<String>,
    rustc_version: OnceCell<RustcVersion>,
    cargo_version: OnceCell<CargoVersion>,
    // The settings of the targets that were asked about, by the target's text.
    pub(crate) targets: RefCell<BTreeMap<String, TargetConfig>>,
    // The values of cfg names, by the target's text.
    cfgs: RefCell<BTreeMap<String, BTreeMap<&'static str, Vec<String>>>>,
    known: RefCell<Known>,
}

impl Config {
    /// The configuration of the process's directory.
    ///
    /// # Errors
    /// Where the directory can't be had, and those of `load_with_options`.
    pub fn load() -> Result<Self> {
        Config::load_with_cwd(current_dir()?)
    }

    /// The configuration of a directory.
    ///
    /// # Errors
    /// Those of `load_with_options`.
    pub fn load_with_cwd<P: AsRef<Path>>(cwd: P) -> Result<Self> {
        Config::load_with_options(cwd, ResolveOptions::default())
    }

    /// The configuration of a directory, under what is chosen.
    ///
    /// # Errors
    /// Where the library refuses the load: a file, a merge, a variable, an override, a setting. Where the directory isn't
    /// UTF-8. Where the library can't be asked.
    pub fn load_with_options<P: AsRef<Path>>(cwd: P, options: ResolveOptions) -> Result<Self> {
        let dir = text_of(cwd.as_ref().to_path_buf())?;
        let (mut known, cargo) = known_from(&dir, &options)?;
        if let Some(rustc) = &options.rustc {
            known.choose_rustc(rustc.clone(), &cargo);
        }
        let tables = load_by(&dir, &options.overrides, &mut known)?;
        Ok(Config {
            alias: tables.alias.into(),
            build: tables.build,
            credential_alias: tables.credential_alias.into(),
            doc: tables.doc,
            env: tables.env.into(),
            future_incompat_report: tables.future_incompat_report,
            cargo_new: tables.cargo_new,
            http: tables.http,
            net: tables.net,
            registries: tables.registries.into(),
            registry: tables.registry,
            source: tables.source.into(),
            term: tables.term,
            cargo,
            chosen_rustc: options.rustc,
            rustc: OnceCell::new(),
            rustc_version: OnceCell::new(),
            cargo_version: OnceCell::new(),
            host: options.host_triple.map(|host| OnceCell::from(host.into_string())).unwrap_or_default(),
            targets: RefCell::default(),
            cfgs: RefCell::default(),
            known: RefCell::new(known),
            overrides: options.overrides,
            dir,
        })
    }

    /// The command for rustc: the chosen one, else the configured one with its wrappers, which is queried once. Where the
    /// query fails it is the one of the table `build`.
    pub fn rustc(&self) -> &PathAndArgs {
        if let Some(chosen) = &self.chosen_rustc {
            return chosen;
        }
        self.rustc.get_or_init(|| self.asked_rustc().unwrap_or_else(|_| self.rustc_of_build()))
    }

    // The configured command for rustc, with its wrappers, as the library answers it.
    fn asked_rustc(&self) -> Result<PathAndArgs> {
        rustc_of_lines(&self.item(&["rustc"])?)
    }

    // The same by the table `build`, which needs no query. It is used to run rustc before the library needs a cfg. If it
    // were another command than the library's, the library would need its own.
    fn rustc_of_build(&self) -> PathAndArgs {
        let build = &self.build;
        let rustc = build.rustc.clone().unwrap_or_else(|| self.known.borrow().default_rustc());
        let mut programs = [&build.rustc_wrapper, &build.rustc_workspace_wrapper].into_iter().flatten().cloned();
        match programs.next() {
            None => PathAndArgs::new(rustc),
            Some(wrapper) => {
                let mut command = PathAndArgs::new(wrapper);
                command.args(programs.chain([rustc]));
                command
            }
        }
    }

    /// The program for cargo: the chosen one, else the variable `CARGO`, else `cargo`.
    pub fn cargo(&self) -> &OsStr {
        &self.cargo
    }

    /// The host: the chosen one, else what `cargo -vV` reports, else what `rustc -vV` reports.
    ///
    /// # Errors
    /// Where neither reports one, and where the query fails.
    pub fn host_triple(&self) -> Result<&str> {
        if let Some(host) = self.host.get() {
            return Ok(host);
        }
        let host = host_of_lines(&self.item(&["host"])?)?;
        Ok(self.host.get_or_init(|| host))
    }

    /// The version of rustc, as `rustc -vV` reports it; the workspace wrapper is left out.
    ///
    /// # Errors
    /// Where rustc reports none, and where the query fails.
    pub fn rustc_version(&self) -> Result<RustcVersion> {
        if let Some(version) = self.rustc_version.get() {
            return Ok(*version);
        }
        let version = RustcVersion::of_lines(&self.item(&["rustc-version"])?)?;
        Ok(*self.rustc_version.get_or_init(|| version))
    }

    /// The version of cargo, as `cargo -vV` reports it.
    ///
    /// # Errors
    /// Where cargo reports none of three numbers, and where the query fails.
    pub fn cargo_version(&self) -> Result<CargoVersion> {
        if let Some(version) = self.cargo_version.get() {
            return Ok(*version);
        }
        let version = CargoVersion::of_lines(&self.item(&["cargo-version"])?)?;
        Ok(*self.cargo_version.get_or_init(|| version))
    }

    // The lines of the item of these words, queried alone.
    fn item(&self, words: &[&str]) -> Result<String> {
        let mut lines = self.items(words)?;
        match items(&lines)?[..] {
            [item] => lines.truncate(item.len()),
            _ => return Err(Error::unread()),
        }
        Ok(lines)
    }

    // The lines of the items of these words, with an empty line after each.
    fn items(&self, words: &[&str]) -> Result<String> {
        let mut known = self.known.borrow_mut();
        let overrides = if known.has_state() { &[] } else { self.overrides.as_slice() };
        lines_by(&self.dir, &[&["several"], words].concat(), overrides, &mut known)
    }
}

// The tables of a directory's resolved configuration, under overrides. The state of the load is known then in the place of files.
fn load_by(dir: &str, overrides: &[String], known: &mut Known) -> Result<Tables> {
    reply_to(words_about(dir, &["load"], overrides), known, |reply, known| match reply {
        Reply::Loaded(cells, state) => {
            known.replace_files(state);
            cells::read(cells)
        }
        Reply::Answer(status, text) => Err(known.refusal(status, text)),
        Reply::Needs(_) => Err(Error::unread()),
    })
}

// The words of a question about a directory, under overrides.
fn words_about<'a>(
    dir: &'a str,
    words: &'a [&'a str],
    overrides: &'a [String],
) -> impl Iterator<Item = &'a str> + Clone {
    [dir].into_iter().chain(words.iter().copied()).chain(overrides.iter().map(String::as_str))
}

/// The text of the answer to a question about a directory, under overrides.
///
/// # Errors
/// The error that is the answer, and where the query fails.
pub(crate) fn lines_by(dir: &str, words: &[&str], overrides: &[String], known: &mut Known) -> Result<String> {
    let answer = answer_by(words_about(dir, words, overrides), known)?;
    match answer.status {
        0 => Ok(answer.text),
        status => Err(known.refusal(status, &answer.text)),
    }
}

// The command in the lines of an item `rustc`.
fn rustc_of_lines(text: &str) -> Result<PathAndArgs> {
    let mut lines = Lines::new(text);
    let command = lines.texts("rustc")?.and_then(PathAndArgs::of_list);
    lines.end()?;
    command.ok_or_else(Error::unread)
}

// The host in the line of a question `host`.
fn host_of_lines(text: &str) -> Result<String> {
    let mut lines = Lines::new(text);
    let host = lines.text("host")?;
    lines.end()?;
    host.ok_or_else(Error::unread)
}

// The variables and the files aren't shown: a value may be a token.
impl fmt::Debug for Config {
    fn fmt(&self, f: &mut fmt::Formatter<'_>) -> fmt::Result {
        let mut shown = f.debug_struct("Config");
        shown.field("alias", &self.alias).field("build", &self.build);
        shown.field("credential_alias", &self.credential_alias).field("doc", &self.doc).field("env", &self.env);
        shown.field("future_incompat_report", &self.future_incompat_report).field("cargo_new", &self.cargo_new);
        shown.field("http", &self.http).field("net", &self.net).field("registries", &self.registries);
        shown.field("registry", &self.registry).field("source", &self.source).field("term", &self.term);
        shown.field("dir", &self.dir).field("rustc", &self.chosen_rustc.as_ref().or(self.rustc.get()));
        shown.field("host", &self.host.get()).field("targets", &self.targets.borrow()).finish_non_exhaustive()
    }
}
