//! What a process is given, and what a walk looks at.
use crate::error::{Error, Result};
use crate::known::Known;
use crate::options::{sets_something, ResolveOptions};
use std::env;
use std::ffi::{OsStr, OsString};
use std::os::unix::ffi::OsStrExt;
use std::path::{Path, PathBuf};

const HOME: &str = "HOME";
const CARGO_HOME: &str = "CARGO_HOME";

// A variable's name and its value.
type Variable = (String, OsString);

/// What is known before the first question: the process's directory, its variables, the home, the files at which the walk
/// from a directory looks, and whether there is a rustc beside cargo. With it comes the program that is cargo.
///
/// # Errors
/// Where the process's directory isn't UTF-8.
pub(crate) fn known_from(dir: &str, options: &ResolveOptions) -> Result<(Known, OsString)> {
    let mut known = Known::default();
    let current = current_dir()?;
    known.put_directory(&current);
    let (homes, variables) = process_variables();
    let variables = chosen_variables(variables, options, &current);
    for (name, value) in &variables {
        known.put_variable(name, value.as_bytes());
    }
    let home = home(homes, options);
    if let Some(home) = &home {
        known.put_home(home);
    }
    let cargo_home = match last(&variables, CARGO_HOME) {
        Some(path) if !path.is_empty() => Path::new(dir).join(path).into_os_string().into_string().ok(),
        _ => home.map(|home| below(&home, ".cargo")),
    };
    let cargo = last(&variables, "CARGO").unwrap_or(OsStr::new("cargo"));
    if let Some(beside) = Path::new(cargo).with_file_name("rustc").to_str() {
        known.look_for_rustc(beside);
    }
    known.end_surroundings();
    look_where_the_walk_looks(&mut known, dir, cargo_home.as_deref());
    Ok((known, cargo.to_owned()))
}

/// The current directory of the process.
///
/// # Errors
/// Where the system can't report it, or it isn't UTF-8.
pub(crate) fn current_dir() -> Result<String> {
    match env::current_dir() {
        Ok(path) => text_of(path),
        Err(error) => Err(Error::by_io("failed to get current directory", &error)),
    }
}

/// A path as text.
///
/// # Errors
/// Where it isn't UTF-8.
pub(crate) fn text_of(path: PathBuf) -> Result<String> {
    path.into_os_string().into_string().map_err(|path| Error::new(&format!("the path {path:?} is not UTF-8")))
}

// The last value of a variable.
fn last<'a>(variables: &'a [Variable], name: &str) -> Option<&'a OsStr> {
    let found = variables.iter().rev().find(|variable| variable.0 == name);
    found.map(|variable| variable.1.as_os_str())
}

// The process's variables `HOME`, and those that set something. Names that aren't UTF-8 are left out: no rule reads them.
fn process_variables() -> (Vec<Variable>, Vec<Variable>) {
    let all = env::vars_os().filter_map(|(name, value)| Some((name.into_string().ok()?, value)));
    all.filter(|variable| variable.0 == HOME || sets_something(&variable.0)).partition(|variable| variable.0 == HOME)
}

// The variables that a load sees. Chosen ones replace the process's, but for the cargo home, which is the process's unless
// it was chosen too. A relative one that was chosen is joined to the process's directory.
fn chosen_variables(process: Vec<Variable>, options: &ResolveOptions, current_dir: &str) -> Vec<Variable> {
    let mut variables: Vec<_> = match &options.env {
        None => process,
        Some(chosen) => {
            let chosen = chosen.iter().filter(|variable| variable.0 != CARGO_HOME).cloned();
            chosen.chain(process.into_iter().filter(|variable| variable.0 == CARGO_HOME)).collect()
        }
    };
    if let Some(cargo) = &options.cargo {
        variables.push(("CARGO".into(), cargo.clone()));
    }
    match &options.cargo_home {
        None => {}
        Some(None) => variables.retain(|variable| variable.0 != CARGO_HOME),
        Some(Some(home)) => variables.push((CARGO_HOME.into(), Path::new(current_dir).join(home).into_os_string())),
    }
    variables
}

// The home: the value of HOME, of several the last; where it isn't set or is empty that of the system's user database, as
// Cargo looks for it. There is none where it isn't UTF-8, and where it was chosen that there is no cargo home.
fn home(mut homes: Vec<Variable>, options: &ResolveOptions) -> Option<String> {
    if options.cargo_home == Some(None) {
        return None;
    }
    let home = homes.pop().map(|variable| variable.1).filter(|home| !home.is_empty());
    let home = home.or_else(|| home_of_user().map(PathBuf::into_os_string))?;
    home.into_string().ok().filter(|home| !home.is_empty())
}

// The user's home by the system's user database, if HOME isn't set. The call was deprecated up to Rust 1.86, for Windows alone.
#[allow(deprecated)]
fn home_of_user() -> Option<PathBuf> {
    env::home_dir()
}

// Reads the files at which a walk looks: two in each folder. This only saves turns: the library asks for a path that it
// writes differently.
fn look_where_the_walk_looks(known: &mut Known, dir: &str, cargo_home: Option<&str>) {
    let mut is_on_the_way = false;
    for above in Path::new(dir).ancestors().filter_map(Path::to_str) {
        let folder = below(above, ".cargo");
        is_on_the_way |= cargo_home == Some(&folder);
        look_into(known, &folder);
    }
    if let Some(home) = cargo_home.filter(|_| !is_on_the_way) {
        look_into(known, home);
    }
}

// Reads the two files of a folder.
fn look_into(known: &mut Known, folder: &str) {
    let path = below(folder, "config.toml");
    known.read(path.strip_suffix(".toml").unwrap_or(&path));
    known.read(&path);
}

// The path of a name in a folder, as the library joins them.
fn below(folder: &str, name: &str) -> String {
    let separator = if folder.is_empty() || folder.ends_with('/') { "" } else { "/" };
    [folder, separator, name].concat()
}
