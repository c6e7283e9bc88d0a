//! Lists of words, as the table `alias` has them.
use crate::cells::Reader;
use crate::flags::words;
use crate::from_cells::FromCell;

/// A list of texts: the command of an [alias](https://doc.rust-lang.org/cargo/reference/config.html#alias), word by word.
/// One text is split at its spaces.
#[derive(Clone, Debug, Default, PartialEq, Eq)]
#[non_exhaustive]
pub struct StringList {
    /// The texts, in their order.
    pub list: Vec<String>,
}

impl FromCell for StringList {
    fn from_cell(reader: &mut Reader<'_>) -> Option<Self> {
        reader.list()?.rest(String::from).map(StringList::from)
    }
}

impl From<&str> for StringList {
    fn from(text: &str) -> Self {
        StringList { list: words(text).map(str::to_owned).collect() }
    }
}

impl From<&String> for StringList {
    fn from(text: &String) -> Self {
        StringList::from(text.as_str())
    }
}

impl From<String> for StringList {
    fn from(text: String) -> Self {
        StringList::from(text.as_str())
    }
}

impl From<Vec<String>> for StringList {
    fn from(list: Vec<String>) -> Self {
        StringList { list }
    }
}

impl From<&[String]> for StringList {
    fn from(list: &[String]) -> Self {
        StringList { list: list.to_vec() }
    }
}

impl From<&[&str]> for StringList {
    fn from(list: &[&str]) -> Self {
        StringList { list: list.iter().map(|&text| text.to_owned()).collect() }
    }
}

impl<const N: usize> From<[String; N]> for StringList {
    fn from(list: [String; N]) -> Self {
        StringList { list: list.into() }
    }
}

impl<const N: usize> From<[&str; N]> for StringList {
    fn from(list: [&str; N]) -> Self {
        StringList::from(&list[..])
    }
}

#[cfg(test)]
mod tests {
    use super::*;

    #[test]
    fn texts_and_lists() {
        assert_eq!(StringList::from("  run --release ").list, ["run", "--release"]);
        assert_eq!(StringList::from("a b".to_owned()), StringList::from(["a", "b"]));
        assert_eq!(StringList::from(&"a".to_owned()), vec!["a".to_owned()].into());
        assert_eq!(StringList::from(["a b".to_owned()]).list, ["a b"]);
        assert_eq!(StringList::from(&["a b".to_owned()][..]), StringList::from(&["a b"][..]));
    }
}
