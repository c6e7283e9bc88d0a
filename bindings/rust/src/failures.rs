//! What the system says of files and programs that fail, for the errors that name them.
use crate::error::Error;
use std::collections::BTreeMap;
use std::io;

/// What the library doesn't know of files and programs that failed.
#[derive(Clone, Default)]
pub(crate) struct Failures {
    // The kind and the text of an error, by the path or the command line that the library's error quotes.
    said: BTreeMap<String, (io::ErrorKind, String)>,
    // The command lines that were run, by those of the configured rustc in whose place they were.
    chosen: BTreeMap<String, String>,
}

impl Failures {
    /// Notes what the system says of a path or a command line.
    pub(crate) fn note(&mut self, quoted: &str, error: &io::Error) {
        self.said.insert(quoted.to_owned(), (error.kind(), error.to_string()));
    }

    /// Notes the command line that is run in the place of a configured one.
    pub(crate) fn note_chosen(&mut self, configured: String, run: String) {
        self.chosen.insert(configured, run);
    }

    /// The library's error with the kind of the system's. One of a program has its text as the cause, and the command line
    /// that was run.
    pub(crate) fn complete(&self, error: Error) -> Error {
        let text = error.to_string();
        let said = |front: &str, end: &str| self.said.get(text.strip_prefix(front)?.strip_suffix(end)?);
        let error = if let Some((kind, _)) = said("failed to read `", "`") {
            error.of_kind(*kind)
        } else if let Some((kind, cause)) = said("could not execute process `", "` (never executed)") {
            Error::because(&text, cause).of_kind(*kind)
        } else {
            error
        };
        self.chosen.iter().fold(error, |error, (configured, run)| error.renamed(configured, run))
    }
}

/// A program and its arguments as errors quote them.
pub(crate) fn command_line<'a>(program: &str, args: impl IntoIterator<Item = &'a str>) -> String {
    args.into_iter().fold(program.to_owned(), |line, arg| line + " " + arg)
}

#[cfg(test)]
mod tests {
    use super::*;
    use std::error::Error as _;

    fn kind(error: Error) -> io::ErrorKind {
        io::Error::from(error).kind()
    }

    #[test]
    fn kinds_and_causes_of_the_system() {
        let mut failures = Failures::default();
        failures.note("/a", &io::ErrorKind::IsADirectory.into());
        failures.note("r -vV", &io::ErrorKind::NotFound.into());
        let unread = failures.complete(Error::because("failed to read `/a`", &"file cannot be read"));
        assert_eq!(
            (unread.source().unwrap().to_string().as_str(), kind(unread.clone())),
            ("file cannot be read", io::ErrorKind::IsADirectory)
        );
        let not_run = failures.complete(Error::new("could not execute process `r -vV` (never executed)"));
        assert_eq!(
            (not_run.source().unwrap().to_string().as_str(), kind(not_run.clone())),
            ("entity not found", io::ErrorKind::NotFound)
        );
        assert_eq!(kind(failures.complete(Error::new("failed to read `/b`"))), io::ErrorKind::Other);
    }

    #[test]
    fn the_command_that_was_run_is_named() {
        let mut failures = Failures::default();
        failures.note("r -vV", &io::ErrorKind::NotFound.into());
        failures.note_chosen("r -vV".into(), command_line("s", ["-x", "-vV"]));
        let error = failures.complete(Error::new("could not execute process `r -vV` (never executed)"));
        assert_eq!(error.to_string(), "could not execute process `s -x -vV` (never executed)");
        assert!(error.source().is_some());
    }
}
