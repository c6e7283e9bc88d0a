//! Values with their origins.
use crate::error::{Error, Result};
use crate::from_json::FromJson;
use crate::json::Reader;
use std::borrow::Cow;
use std::fmt;
use std::mem;
use std::path::PathBuf;

/// A value with its origin.
#[derive(Clone, Debug, PartialEq)]
pub struct Value<T> {
    /// The value.
    pub val: T,
    /// Where it is set, if that is known.
    pub definition: Option<Definition>,
}

/// Where a value is set. Two origins are equal if they are of the same kind, so that equal values of two files are equal.
#[derive(Clone, Debug)]
#[non_exhaustive]
pub enum Definition {
    /// In the file of a path.
    Path(PathBuf),
    /// In the environment variable of a name.
    Environment(Cow<'static, str>),
    /// On the command line, by an option `--config`; the path is that of its file, if it names one.
    Cli(Option<PathBuf>),
}

/// A path as a file has it. It is relative to the
/// [directory of that file](https://doc.rust-lang.org/cargo/reference/config.html#config-relative-paths).
#[derive(Clone, Debug, PartialEq)]
pub struct ConfigRelativePath(pub(super) Value<String>);

/// One text or a list of texts.
#[derive(Clone, Debug, PartialEq)]
pub enum StringOrArray {
    /// One text.
    String(Value<String>),
    /// A list of texts.
    Array(Vec<Value<String>>),
}

impl ConfigRelativePath {
    /// The text with its origin.
    pub fn value(&self) -> &Value<String> {
        &self.0
    }

    /// The text, as the file has it.
    pub fn raw_value(&self) -> &str {
        &self.0.val
    }
}

impl PartialEq for Definition {
    fn eq(&self, other: &Definition) -> bool {
        mem::discriminant(self) == mem::discriminant(other)
    }
}

impl fmt::Display for Definition {
    fn fmt(&self, f: &mut fmt::Formatter<'_>) -> fmt::Result {
        match self {
            Definition::Path(path) | Definition::Cli(Some(path)) => fmt::Display::fmt(&path.display(), f),
            Definition::Environment(name) => write!(f, "environment variable `{name}`"),
            Definition::Cli(None) => f.write_str("--config cli option"),
        }
    }
}

/// The origin of a value, if it is known.
pub(super) struct Origin(pub(super) Option<Definition>);

impl FromJson for Origin {
    fn from_json(reader: &mut Reader<'_>) -> Result<Self> {
        if reader.is_next(b'n') {
            return reader.null().map(|()| Origin(None));
        }
        let mut definition = None;
        let mut keys = reader.object()?;
        while let Some(key) = keys.next(reader)? {
            definition = Some(match key {
                "file" => Definition::Path(read_file(reader)?),
                "variable" => Definition::Environment(String::from_json(reader)?.into()),
                "command-line" if reader.is_next(b'n') => reader.null().map(|()| Definition::Cli(None))?,
                "command-line" => Definition::Cli(reader.value()?),
                _ => return Err(Error::unread()),
            });
        }
        definition.map(|definition| Origin(Some(definition))).ok_or_else(Error::unread)
    }
}

// The path of a file, or what replaces it.
fn read_file(reader: &mut Reader<'_>) -> Result<PathBuf> {
    let path = reader.string()?;
    Ok(PathBuf::from(reader.file().unwrap_or(&path)))
}

impl<T: FromJson> FromJson for Value<T> {
    fn from_json(reader: &mut Reader<'_>) -> Result<Self> {
        // No value is a table: one is the value with its origin.
        if !reader.is_next(b'{') {
            return Ok(Value { val: reader.value()?, definition: None });
        }
        let (mut origin, mut value) = (None, None);
        let mut keys = reader.object()?;
        while let Some(key) = keys.next(reader)? {
            match key {
                "origin" => origin = Some(reader.value()?),
                "value" => value = Some(reader.value()?),
                _ => reader.skip()?,
            }
        }
        let Origin(definition) = origin.ok_or_else(Error::unread)?;
        Ok(Value { val: value.ok_or_else(Error::unread)?, definition })
    }
}

impl FromJson for ConfigRelativePath {
    fn from_json(reader: &mut Reader<'_>) -> Result<Self> {
        reader.value().map(ConfigRelativePath)
    }
}

impl FromJson for StringOrArray {
    fn from_json(reader: &mut Reader<'_>) -> Result<Self> {
        if reader.is_next(b'[') {
            return reader.value().map(StringOrArray::Array);
        }
        reader.value().map(StringOrArray::String)
    }
}

/// A text, or a list of texts, with one origin: the value of a command.
pub(super) enum Words {
    Text(Value<String>),
    List(Vec<Value<String>>),
}

// The same without the origin.
enum PlainWords {
    Text(String),
    List(Vec<String>),
}

impl FromJson for PlainWords {
    fn from_json(reader: &mut Reader<'_>) -> Result<Self> {
        if reader.is_next(b'[') {
            return reader.value().map(PlainWords::List);
        }
        reader.value().map(PlainWords::Text)
    }
}

impl FromJson for Words {
    fn from_json(reader: &mut Reader<'_>) -> Result<Self> {
        let Value { val, definition } = reader.value()?;
        let with_origin = |val| Value { val, definition: definition.clone() };
        Ok(match val {
            PlainWords::Text(text) => Words::Text(with_origin(text)),
            PlainWords::List(list) => Words::List(list.into_iter().map(with_origin).collect()),
        })
    }
}

#[cfg(test)]
mod tests {
    use super::*;
    use crate::json;

    fn value(origin: &str) -> Result<Value<i32>> {
        json::read(&format!("{{\"origin\":{origin},\"value\":3}}"))
    }

    #[test]
    fn origins_of_all_kinds() {
        for (origin, shown) in [
            (r#"{"file":"/a/b"}"#, "/a/b"),
            (r#"{"variable":"A"}"#, "environment variable `A`"),
            (r#"{"command-line":"c.toml"}"#, "c.toml"),
            (r#"{"command-line":null}"#, "--config cli option"),
        ] {
            let value = value(origin).unwrap();
            assert_eq!((value.val, value.definition.unwrap().to_string().as_str()), (3, shown));
        }
        assert_eq!(value("null"), Ok(Value { val: 3, definition: None }));
        for origin in ["{}", "3", "{\"file\":3}", "{\"command-line\":[]}"] {
            assert_eq!(value(origin), Err(Error::unread()), "{origin}");
        }
    }

    #[test]
    fn origins_of_one_kind_are_equal() {
        let [a, b] = ["a", "b"].map(|path| Definition::Path(path.into()));
        assert_eq!(a, b);
        assert_ne!(a, Definition::Cli(Some("a".into())));
    }
}
