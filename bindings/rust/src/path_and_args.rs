//! A program and its arguments.
use crate::cells::{List, Reader};
use crate::from_cells::FromCell;
use std::ffi::OsString;
use std::path::PathBuf;
use std::process::Command;

/// A [program and its arguments](https://doc.rust-lang.org/cargo/reference/config.html#executable-paths-with-arguments).
#[derive(Clone, Debug, PartialEq, Eq)]
#[non_exhaustive]
pub struct PathAndArgs {
    /// The program: a path, or a name that is looked for in `PATH`.
    pub path: PathBuf,
    /// The arguments.
    pub args: Vec<OsString>,
}

impl PathAndArgs {
    /// A program without arguments.
    pub fn new<P: Into<PathBuf>>(path: P) -> Self {
        PathAndArgs { path: path.into(), args: Vec::new() }
    }

    /// Appends an argument.
    pub fn arg<S: Into<OsString>>(&mut self, arg: S) -> &mut Self {
        self.args.push(arg.into());
        self
    }

    /// Appends arguments.
    pub fn args<I: IntoIterator<Item = S>, S: Into<OsString>>(&mut self, args: I) -> &mut Self {
        self.args.extend(args.into_iter().map(Into::into));
        self
    }

    /// The command of a list, whose first text is the program; none where the list is empty.
    pub(crate) fn of_list(list: Vec<String>) -> Option<Self> {
        let mut list = list.into_iter();
        let mut command = PathAndArgs::new(list.next()?);
        command.args(list);
        Some(command)
    }

    /// The command of the texts of a cell, likewise.
    pub(crate) fn of_cell(mut list: List<'_, '_>) -> Option<Self> {
        let path = PathBuf::from(list.next()?);
        Some(PathAndArgs { path, args: list.rest(OsString::from)? })
    }
}

impl FromCell for PathAndArgs {
    fn from_cell(reader: &mut Reader<'_>) -> Option<Self> {
        PathAndArgs::of_cell(reader.list()?)
    }
}

impl From<PathAndArgs> for Command {
    fn from(command: PathAndArgs) -> Self {
        Command::from(&command)
    }
}

impl From<&PathAndArgs> for Command {
    fn from(command: &PathAndArgs) -> Self {
        let mut made = Command::new(&command.path);
        made.args(&command.args);
        made
    }
}
