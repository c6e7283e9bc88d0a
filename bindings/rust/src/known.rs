//! What is known of the machine, as records of a request.
use crate::ask::ask;
use crate::error::{Error, Result};
use crate::failures::{command_line, Failures};
use crate::path_and_args::PathAndArgs;
use crate::record::{push_command_record, push_record, reserve};
use crate::reply::Need;
use crate::target::is_spec_path;
use std::collections::BTreeSet;
use std::ffi::{OsStr, OsString};
use std::fs;
use std::io::ErrorKind;
use std::path::{Path, PathBuf};
use std::process::{Command, Output, Stdio};
use std::str;

// The arguments, before a triple, by which rustc prints the cfg of a target.
const PRINT_CFG: [&str; 3] = ["--print", "cfg", "--target"];
// These come first where the target is a path of a target spec.
const UNSTABLE: [&str; 2] = ["-Z", "unstable-options"];
// The argument by which rustc and cargo print their versions.
const VERSION: [&str; 1] = ["-vV"];

/// What is known of the machine: the records that say it.
#[derive(Clone, Default)]
pub(crate) struct Known {
    records: Vec<u8>,
    // How many bytes of the records are about the process alone, and not about files of the walk.
    surroundings: usize,
    // Whether the records have the state of a load in the place of files.
    has_state: bool,
    // The records of these files.
    files: Vec<u8>,
    // Runs that failed, for one question.
    failed: Vec<u8>,
    // The triples whose cfg rustc printed.
    triples: BTreeSet<String>,
    // Whether the settings of a target need rustc's cfg: those of one did, or a file has a text like a key `cfg(..)`.
    wants_cfg: bool,
    // The command that is run instead of the configured rustc.
    chosen: Option<Chosen>,
    // The system's errors for files and programs.
    failures: Failures,
    // The rustc next to cargo, if there is one.
    rustc_beside: Option<PathBuf>,
}

// A chosen command for rustc, and the program that is cargo.
#[derive(Clone)]
struct Chosen {
    rustc: PathAndArgs,
    cargo: OsString,
}

impl Known {
    /// The library's reply to the question of these words, by what is known.
    ///
    /// # Errors
    /// Where the library can't be asked, or memory ran out.
    pub(crate) fn ask<'a>(&mut self, words: impl Iterator<Item = &'a str>) -> Result<Vec<u8>> {
        // The rest of the request stands behind the records while the library reads it, so that they aren't copied.
        let mut rest = self.failed.clone();
        words.for_each(|word| push_record(&mut rest, b'W', &[word.as_bytes()]));
        let length = self.records.len();
        reserve(&mut self.records, rest.len())?;
        self.records.extend_from_slice(&rest);
        let reply = ask(&self.records);
        self.records.truncate(length);
        reply
    }

    /// Forgets runs that didn't end with 0. They hold for one question, and are run again when another one needs them.
    pub(crate) fn forget_failed(&mut self) {
        self.failed.clear();
    }

    /// The error that an answer with this status and this text is, with the system's error for the file or the program that it
    /// names.
    pub(crate) fn refusal(&self, status: u8, text: &str) -> Error {
        match status {
            1 => self.failures.complete(Error::of_lines(text)),
            _ => Error::unread(),
        }
    }

    /// Chooses a command for rustc, and says which program is cargo. The library still names the configured rustc.
    pub(crate) fn choose_rustc(&mut self, rustc: PathAndArgs, cargo: &OsStr) {
        self.chosen = Some(Chosen { rustc, cargo: cargo.to_owned() });
    }

    pub(crate) fn put_directory(&mut self, path: &str) {
        push_record(&mut self.records, b'C', &[path.as_bytes()]);
    }

    pub(crate) fn put_home(&mut self, path: &str) {
        push_record(&mut self.records, b'H', &[path.as_bytes()]);
    }

    pub(crate) fn put_variable(&mut self, name: &str, value: &[u8]) {
        push_record(&mut self.records, b'V', &[name.as_bytes(), value]);
    }

    pub(crate) fn put_file(&mut self, path: &str, content: &[u8]) {
        push_record(&mut self.records, b'F', &[path.as_bytes(), content]);
    }

    /// Records that nothing is at a path.
    pub(crate) fn put_nothing(&mut self, path: &str) {
        push_record(&mut self.records, b'N', &[path.as_bytes()]);
    }

    /// Ends the records that are about the process alone. What follows is about files of the walk.
    pub(crate) fn end_surroundings(&mut self) {
        self.surroundings = self.records.len();
    }

    /// Replaces the records of files by the state of the load from them. An empty state is none, and the files stay.
    pub(crate) fn replace_files(&mut self, state: &[u8]) {
        if !state.is_empty() {
            self.files = self.records.split_off(self.surroundings);
            push_record(&mut self.records, b'S', &[state]);
            self.has_state = true;
        }
    }

    /// Whether the state of a load is known in the place of files. Items then take no overrides: the state has them.
    pub(crate) fn has_state(&self) -> bool {
        self.has_state
    }

    /// Asks a question of the files, which the records have for so long.
    ///
    /// # Errors
    /// Those of the question, or where memory ran out.
    pub(crate) fn with_files<T>(&mut self, ask: impl FnOnce(&mut Self) -> Result<T>) -> Result<T> {
        let start = self.records.len();
        reserve(&mut self.records, self.files.len())?;
        self.records.extend_from_slice(&self.files);
        let answer = ask(self);
        self.records.drain(start..start + self.files.len());
        answer
    }

    /// Finds out what is needed, and records it.
    pub(crate) fn find_out(&mut self, need: &Need) {
        match need {
            Need::Exists(path) => {
                self.look_for(path);
            }
            Need::Content(path) => self.read(path),
            Need::Run(program, args) => {
                if self.run(program, args) {
                    self.note_cfg(args);
                }
            }
        }
    }

    /// Whether the settings of a target need rustc's cfg, and it isn't known. They do where those of another one did, since
    /// the keys `cfg(..)` to evaluate don't depend on the target, and where a file has a text like such a key.
    pub(crate) fn wants_cfg(&self, triple: &str) -> bool {
        self.wants_cfg && is_triple(triple) && !self.triples.contains(triple)
    }

    /// Finds out rustc's cfg of a triple, by the command for rustc.
    pub(crate) fn find_cfg(&mut self, rustc: &PathAndArgs, triple: &str) {
        let texts = rustc.args.iter().map(|arg| arg.to_str()).chain(PRINT_CFG.map(Some));
        let args: Option<Vec<String>> = texts.map(|text| text.map(str::to_owned)).collect();
        if let (Some(program), Some(args)) = (rustc.path.to_str(), args) {
            self.run_cfg(program, args, triple);
        }
    }

    // Runs what prints the cfg of a triple, unless it is known.
    fn run_cfg(&mut self, program: &str, mut args: Vec<String>, triple: &str) {
        if !is_triple(triple) || self.triples.contains(triple) {
            return;
        }
        args.push(triple.to_owned());
        if self.run(program, &args) {
            self.triples.insert(triple.to_owned());
        }
    }

    // Notes a run that asked rustc for the cfg of a triple.
    fn note_cfg(&mut self, args: &[String]) {
        let Some(triple) = cfg_args(args).and_then(<[String]>::last).filter(|triple| is_triple(triple)) else {
            return;
        };
        self.wants_cfg = true;
        self.triples.insert(triple.clone());
    }

    // Runs a program, and records its answer. Whether it ended with 0.
    fn run(&mut self, program: &str, args: &[String]) -> bool {
        match self.command(program, args).stdin(Stdio::null()).output() {
            Ok(output) if output.status.success() => {
                push_run(&mut self.records, program, args, &output);
                return true;
            }
            Ok(output) => push_run(&mut self.failed, program, args, &output),
            Err(error) => {
                self.failures.note(&line_of(program, args), &error);
                push_command_record(&mut self.failed, b'X', program, args, &[]);
            }
        }
        false
    }

    // The command that is run for a program and its arguments.
    fn command(&mut self, program: &str, args: &[String]) -> Command {
        if let Some(command) = self.chosen.as_ref().and_then(|chosen| chosen.command(program, args)) {
            self.failures.note_chosen(line_of(program, args), line_of_command(&command));
            return command;
        }
        let mut command = Command::new(program);
        command.args(args);
        command
    }

    /// Records the content of the file at a path. Only a regular file and `/dev/null` are read: a pipe or another device may never end.
    pub(crate) fn read(&mut self, path: &str) {
        let Ok(found) = fs::metadata(path) else {
            return self.put_nothing(path);
        };
        // Reading a directory gives the system's error for it.
        let is_read = found.is_file() || found.is_dir() || is_null(path);
        let content = if is_read { fs::read(path) } else { Err(ErrorKind::Other.into()) };
        // A file for which there is no room is one that can't be read.
        let fits = |content: Vec<u8>| match reserve(&mut self.records, path.len().saturating_add(content.len())) {
            Ok(()) => Ok(content),
            Err(error) => Err(error.into()),
        };
        match content.and_then(fits) {
            Ok(content) => {
                self.wants_cfg |= str::from_utf8(&content).is_ok_and(has_cfg_text);
                self.put_file(path, &content);
            }
            Err(error) => {
                self.failures.note(path, &error);
                push_record(&mut self.records, b'U', &[path.as_bytes()]);
            }
        }
    }

    /// Whether anything is at a path. The answer is added to the records of the next request.
    pub(crate) fn look_for(&mut self, path: &str) -> bool {
        let exists = Path::new(path).exists();
        push_record(&mut self.records, if exists { b'T' } else { b'N' }, &[path.as_bytes()]);
        exists
    }

    /// Records whether there is a rustc next to cargo, at this path.
    pub(crate) fn look_for_rustc(&mut self, path: &str) {
        self.rustc_beside = self.look_for(path).then(|| PathBuf::from(path));
    }

    /// The rustc that is used where none is configured: the one next to cargo, else that of `PATH`.
    pub(crate) fn default_rustc(&self) -> PathBuf {
        self.rustc_beside.clone().unwrap_or_else(|| PathBuf::from("rustc"))
    }
}

impl Chosen {
    // The command that replaces one of the configured rustc for a cfg or its version. None for cargo's.
    fn command(&self, program: &str, args: &[String]) -> Option<Command> {
        let is_cargo = args == VERSION && self.cargo == program;
        let own =
            cfg_args(args).or_else(|| args.ends_with(&VERSION.map(str::to_owned)).then_some(&args[args.len() - 1..]));
        let own = own.filter(|_| !is_cargo)?;
        let mut command = Command::from(&self.rustc);
        command.args(own);
        Some(command)
    }
}

// A program and its arguments as errors quote them.
fn line_of(program: &str, args: &[String]) -> String {
    command_line(program, args.iter().map(String::as_str))
}

fn line_of_command(command: &Command) -> String {
    let args: Vec<_> = command.get_args().map(OsStr::to_string_lossy).collect();
    command_line(&command.get_program().to_string_lossy(), args.iter().map(AsRef::as_ref))
}

// The arguments by which rustc prints a cfg, without those of the command for rustc in front of them.
fn cfg_args(args: &[String]) -> Option<&[String]> {
    let (front, own) = args.split_at(args.len().checked_sub(PRINT_CFG.len() + 1)?);
    let (target, own) = own.split_last()?;
    if own != PRINT_CFG {
        return None;
    }
    let unstable =
        if is_spec_path(target) && front.ends_with(&UNSTABLE.map(str::to_owned)) { UNSTABLE.len() } else { 0 };
    args.get(front.len() - unstable..)
}

// Whether the text has `cfg(` without `)` right after it. That is a key to evaluate, or looks like one.
fn has_cfg_text(text: &str) -> bool {
    let is_closed = |at: usize| matches!(text.as_bytes().get(at + 1), None | Some(b')'));
    text.match_indices('(').any(|(at, _)| text[..at].ends_with("cfg") && !is_closed(at))
}

// Whether a text is a plain triple, and no path of a target spec and no cfg text.
fn is_triple(text: &str) -> bool {
    !text.is_empty() && !is_spec_path(text) && !text.starts_with("cfg(")
}

// Records what a program answered: its status in one byte, none where a signal ended it, and both outputs.
fn push_run(records: &mut Vec<u8>, program: &str, args: &[String], output: &Output) {
    let code = output.status.code().and_then(|code| u8::try_from(code).ok());
    push_command_record(records, b'P', program, args, &[code.as_slice(), &output.stdout, &output.stderr]);
}

// Whether a path leads to the empty device, by which a file is often switched off.
fn is_null(path: &str) -> bool {
    fs::canonicalize(path).is_ok_and(|real| real.as_os_str() == "/dev/null")
}

#[cfg(test)]
mod tests {
    use super::*;

    #[test]
    fn texts_like_a_cfg_key() {
        for text in ["cfg(a)", "é(cfg(é", "[target.'cfg(unix)']", "()cfg()cfg(\n", "xcfg(("] {
            assert!(has_cfg_text(text), "{text}");
        }
        for text in ["", "cfg", "cfg()", "cfg(", "(cfg)(", "cf(g(", "cfg (a)"] {
            assert!(!has_cfg_text(text), "{text}");
        }
    }
}
