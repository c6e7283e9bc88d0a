//! Where Cargo looks for files, and the homes of Cargo and rustup.
use std::env;
use std::path::{Ancestors, Path, PathBuf};

/// The files of a [walk](https://doc.rust-lang.org/cargo/reference/config.html#hierarchical-structure), those that take
/// precedence first: of a directory, of those above it, and of the cargo home. Each folder has one at most.
#[derive(Debug)]
#[must_use = "a walk looks at nothing until it is iterated"]
pub struct Walk<'a> {
    above: Ancestors<'a>,
    cargo_home: Option<PathBuf>,
}

impl<'a> Walk<'a> {
    /// The walk from a directory, with the cargo home of the process.
    pub fn new(current_dir: &'a Path) -> Self {
        Walk::with_cargo_home(current_dir, cargo_home_with_cwd(current_dir))
    }

    /// The walk from a directory, with this cargo home or without one.
    pub fn with_cargo_home(current_dir: &'a Path, cargo_home: Option<PathBuf>) -> Self {
        Walk { above: current_dir.ancestors(), cargo_home }
    }
}

impl Iterator for Walk<'_> {
    type Item = PathBuf;

    fn next(&mut self) -> Option<PathBuf> {
        for above in self.above.by_ref() {
            let folder = above.join(".cargo");
            // The cargo home isn't looked at again where it is on the way.
            self.cargo_home = self.cargo_home.take().filter(|home| *home != folder);
            if let Some(file) = file_in(&folder) {
                return Some(file);
            }
        }
        file_in(&self.cargo_home.take()?)
    }
}

// The file of a folder: the one without `.toml` takes precedence.
fn file_in(folder: &Path) -> Option<PathBuf> {
    ["config", "config.toml"].iter().map(|name| folder.join(name)).find(|file| file.exists())
}

/// The home directory of the user, as `std::env::home_dir` has it.
// The call was deprecated up to Rust 1.86, for Windows alone.
#[allow(deprecated)]
pub fn home_dir() -> Option<PathBuf> {
    env::home_dir()
}

/// The [cargo home](https://doc.rust-lang.org/cargo/guide/cargo-home.html): the variable `CARGO_HOME`, joined to the
/// directory, else `.cargo` in the user's home.
pub fn cargo_home_with_cwd(cwd: &Path) -> Option<PathBuf> {
    home_by("CARGO_HOME", ".cargo", cwd)
}

/// The home of rustup: the variable `RUSTUP_HOME`, joined to the directory, else `.rustup` in the user's home.
pub fn rustup_home_with_cwd(cwd: &Path) -> Option<PathBuf> {
    home_by("RUSTUP_HOME", ".rustup", cwd)
}

// The value of a variable if it isn't empty, joined to a directory; else a folder of the user's home.
fn home_by(variable: &str, folder: &str, cwd: &Path) -> Option<PathBuf> {
    match env::var_os(variable).filter(|value| !value.is_empty()) {
        Some(value) => Some(cwd.join(value)),
        None => Some(home_dir()?.join(folder)),
    }
}
