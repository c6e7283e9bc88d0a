//! Lists of texts: flags, commands and words of an alias.
use super::value::Words;
use super::{ConfigRelativePath, StringOrArray, Value};
use crate::error::{Error, Result};
use crate::flags::words;
use crate::from_json::FromJson;
use crate::json::Reader;

/// Flags for rustc or rustdoc. Those of one text are split at its spaces.
#[derive(Clone, Debug)]
pub struct Flags {
    /// The flags, in their order.
    pub flags: Vec<Value<String>>,
}

/// A list of texts. One text is split at its spaces.
#[derive(Clone, Debug, Default)]
#[non_exhaustive]
pub struct StringList {
    /// The texts, in their order.
    pub list: Vec<Value<String>>,
    // Whether it was one text.
    #[cfg_attr(not(feature = "serde"), allow(dead_code))]
    pub(crate) is_text: bool,
}

/// A [program and its arguments](https://doc.rust-lang.org/cargo/reference/config.html#executable-paths-with-arguments).
#[derive(Clone, Debug)]
#[non_exhaustive]
pub struct PathAndArgs {
    /// The program.
    pub path: ConfigRelativePath,
    /// The arguments.
    pub args: Vec<Value<String>>,
    // Whether it was one text.
    #[cfg_attr(not(feature = "serde"), allow(dead_code))]
    pub(crate) is_text: bool,
}

impl PathAndArgs {
    /// The command of a list, whose first text is the program; none where the list is empty.
    pub(super) fn of_list(list: Vec<Value<String>>) -> Option<Self> {
        let mut list = list.into_iter();
        Some(PathAndArgs { path: ConfigRelativePath(list.next()?), args: list.collect(), is_text: false })
    }
}

/// The words of a text, each with the text's origin.
pub(super) fn split(text: &Value<String>) -> Vec<Value<String>> {
    let word = |word: &str| Value { val: word.to_owned(), definition: text.definition.clone() };
    words(&text.val).map(word).collect()
}

// The texts of a list, or the words of one text, and whether it is the latter.
fn read_list(reader: &mut Reader<'_>) -> Result<(Vec<Value<String>>, bool)> {
    Ok(match reader.value()? {
        StringOrArray::String(text) => (split(&text), true),
        StringOrArray::Array(list) => (list, false),
    })
}

impl FromJson for Flags {
    fn from_json(reader: &mut Reader<'_>) -> Result<Self> {
        Ok(Flags { flags: read_list(reader)?.0 })
    }
}

impl FromJson for StringList {
    fn from_json(reader: &mut Reader<'_>) -> Result<Self> {
        let (list, is_text) = read_list(reader)?;
        Ok(StringList { list, is_text })
    }
}

impl FromJson for PathAndArgs {
    fn from_json(reader: &mut Reader<'_>) -> Result<Self> {
        let (list, is_text) = match reader.value()? {
            Words::Text(text) => (split(&text), true),
            Words::List(list) => (list, false),
        };
        let command = PathAndArgs::of_list(list).ok_or_else(Error::unread)?;
        Ok(PathAndArgs { is_text, ..command })
    }
}
