//! Refusals.
use std::env::VarError;
use std::fmt;
use std::io;

pub(crate) type Result<T, E = Error> = std::result::Result<T, E>;

/// Why a configuration can't be loaded, or a question can't be answered. It prints as the library words it.
#[derive(Clone, Debug, PartialEq, Eq)]
pub struct Error {
    text: Box<str>,
    cause: Option<Cause>,
    // What it becomes as an error of `std::io`: of this kind, or the system's error of this code.
    kind: io::ErrorKind,
    code: Option<i32>,
}

/// The source of an error.
#[derive(Clone, Debug, PartialEq, Eq)]
pub struct Cause(Box<str>);

impl Error {
    pub(crate) fn new(text: &str) -> Error {
        Error { text: text.into(), cause: None, kind: io::ErrorKind::Other, code: None }
    }

    pub(crate) fn because(text: &str, cause: &dyn fmt::Display) -> Error {
        Error { cause: Some(Cause(cause.to_string().into())), ..Error::new(text) }
    }

    /// An error of std::io is the cause.
    pub(crate) fn by_io(text: &str, cause: &io::Error) -> Error {
        Error::because(text, cause).of_kind(cause.kind())
    }

    /// The same error, as one of std::io of this kind.
    pub(crate) fn of_kind(mut self, kind: io::ErrorKind) -> Error {
        self.kind = kind;
        self
    }

    pub(crate) fn out_of_memory() -> Error {
        Error::new("out of memory").of_kind(io::ErrorKind::OutOfMemory)
    }

    // The library's reply, or its lines, have a form that this crate doesn't know.
    pub(crate) fn unread() -> Error {
        Error::new("the library's answer cannot be read")
    }

    /// The same error, where a path that it quotes is replaced.
    pub(crate) fn renamed(mut self, path: &str, by: &str) -> Error {
        self.text = self.text.replace(&format!("`{path}`"), &format!("`{by}`")).into();
        self
    }

    /// The error in the lines of a refusal: a line `error: `, and where there is one a line `cause: `. For a program that
    /// failed, its output follows the error, and there is no cause.
    pub(crate) fn of_lines(lines: &str) -> Error {
        let Some(text) = lines.strip_prefix("error: ").and_then(|text| text.strip_suffix('\n')) else {
            return Error::unread();
        };
        match text.split_once("\ncause: ") {
            Some((text, cause)) if !text.starts_with("process didn't exit successfully: ") => {
                Error::because(text, &cause).of_kind(kind_of(text, cause))
            }
            _ => Error::new(text),
        }
    }
}

// What an error of the library is as one of std::io: a file's content that can't be read as it is wanted is invalid data.
fn kind_of(text: &str, cause: &str) -> io::ErrorKind {
    let is_parsed = text.starts_with("failed to parse `") && text.ends_with("` as cargo configuration");
    let is_text = cause != "file is not UTF-8";
    if is_parsed || !is_text {
        io::ErrorKind::InvalidData
    } else {
        io::ErrorKind::Other
    }
}

impl fmt::Display for Error {
    fn fmt(&self, f: &mut fmt::Formatter<'_>) -> fmt::Result {
        f.write_str(&self.text)
    }
}

impl std::error::Error for Error {
    fn source(&self) -> Option<&(dyn std::error::Error + 'static)> {
        let cause = self.cause.as_ref()?;
        Some(cause)
    }
}

impl fmt::Display for Cause {
    fn fmt(&self, f: &mut fmt::Formatter<'_>) -> fmt::Result {
        f.write_str(&self.0)
    }
}

impl std::error::Error for Cause {}

impl From<io::Error> for Error {
    fn from(error: io::Error) -> Error {
        let cause = std::error::Error::source(&error).map(|cause| Cause(cause.to_string().into()));
        Error { cause, kind: error.kind(), code: error.raw_os_error(), ..Error::new(&error.to_string()) }
    }
}

impl From<VarError> for Error {
    fn from(error: VarError) -> Error {
        Error::new(&error.to_string())
    }
}

impl From<Error> for io::Error {
    fn from(error: Error) -> io::Error {
        match error.code {
            Some(code) => io::Error::from_raw_os_error(code),
            None => io::Error::new(error.kind, error),
        }
    }
}

#[cfg(test)]
mod tests {
    use super::*;

    #[test]
    fn errors_of_the_system_come_back() {
        let error = io::Error::from(Error::from(io::Error::from_raw_os_error(2)));
        assert_eq!((error.kind(), error.raw_os_error()), (io::ErrorKind::NotFound, Some(2)));
        let error = io::Error::from(Error::from(io::Error::new(io::ErrorKind::TimedOut, "late")));
        assert_eq!((error.kind(), error.to_string().as_str()), (io::ErrorKind::TimedOut, "late"));
        assert_eq!(io::Error::from(Error::from(VarError::NotPresent)).kind(), io::ErrorKind::Other);
    }

    #[test]
    fn files_that_are_no_configurations() {
        let kind = |lines: &str| io::Error::from(Error::of_lines(lines)).kind();
        let parse = "error: failed to parse `/a` as cargo configuration\ncause: wrong type at `build`\n";
        assert_eq!(kind(parse), io::ErrorKind::InvalidData);
        assert_eq!(kind("error: failed to merge\ncause: failed to read `/`\n"), io::ErrorKind::Other);
    }
}
