//! Targets: triples, and paths of target specs.
use crate::cells::Reader;
use crate::from_cells::FromCell;
use std::borrow::Cow;
use std::cmp::Ordering;
use std::hash::{Hash, Hasher};
use std::path::{Path, PathBuf};

/// A target: a triple, or the path of a target spec, whose triple is the file's name without `.json`.
#[derive(Clone, Debug)]
pub struct TargetTripleRef<'a> {
    triple: Cow<'a, str>,
    spec_path: Option<Cow<'a, Path>>,
}

/// A target that is lent from nothing.
pub type TargetTriple = TargetTripleRef<'static>;

impl<'a> TargetTripleRef<'a> {
    // A text is a path where its name ends with `.json`, in any case, or it has a slash of either kind.
    fn of_text(text: Cow<'a, str>) -> Self {
        if !is_spec_path(&text) {
            return TargetTripleRef { triple: text, spec_path: None };
        }
        match text {
            Cow::Borrowed(text) => {
                TargetTripleRef { triple: Cow::Borrowed(stem(text)), spec_path: Some(Cow::Borrowed(Path::new(text))) }
            }
            Cow::Owned(text) => TargetTripleRef {
                triple: Cow::Owned(stem(&text).to_owned()),
                spec_path: Some(Cow::Owned(PathBuf::from(text))),
            },
        }
    }

    /// The same, lent from nothing.
    pub fn into_owned(self) -> TargetTriple {
        TargetTripleRef {
            triple: Cow::Owned(self.triple.into_owned()),
            spec_path: self.spec_path.map(|path| Cow::Owned(path.into_owned())),
        }
    }

    /// The triple.
    pub fn triple(&self) -> &str {
        &self.triple
    }

    /// The path of the target spec, if it is one.
    pub fn spec_path(&self) -> Option<&Path> {
        self.spec_path.as_deref()
    }

    /// What Cargo passes to rustc: the path, or else the triple.
    pub(crate) fn text(&self) -> &str {
        self.spec_path().and_then(Path::to_str).unwrap_or(&self.triple)
    }
}

/// Whether a text names a target spec, and no triple.
pub(crate) fn is_spec_path(text: &str) -> bool {
    let has_slash = text.bytes().any(|byte| byte == b'/' || byte == b'\\');
    has_slash || text.rsplit_once('.').is_some_and(|(stem, end)| !stem.is_empty() && end.eq_ignore_ascii_case("json"))
}

// The name of a target spec's file up to its last dot; the text where it names no file, which the library refuses.
fn stem(path: &str) -> &str {
    Path::new(path).file_stem().and_then(|stem| stem.to_str()).unwrap_or(path)
}

impl PartialEq for TargetTripleRef<'_> {
    fn eq(&self, other: &Self) -> bool {
        self.text() == other.text()
    }
}

impl Eq for TargetTripleRef<'_> {}

impl PartialOrd for TargetTripleRef<'_> {
    fn partial_cmp(&self, other: &Self) -> Option<Ordering> {
        Some(self.cmp(other))
    }
}

impl Ord for TargetTripleRef<'_> {
    fn cmp(&self, other: &Self) -> Ordering {
        self.text().cmp(other.text())
    }
}

impl Hash for TargetTripleRef<'_> {
    fn hash<H: Hasher>(&self, state: &mut H) {
        self.text().hash(state);
    }
}

impl<'a> From<&'a str> for TargetTripleRef<'a> {
    fn from(text: &'a str) -> Self {
        TargetTripleRef::of_text(Cow::Borrowed(text))
    }
}

impl<'a> From<&'a String> for TargetTripleRef<'a> {
    fn from(text: &'a String) -> Self {
        TargetTripleRef::from(text.as_str())
    }
}

impl From<String> for TargetTripleRef<'static> {
    fn from(text: String) -> Self {
        TargetTripleRef::of_text(Cow::Owned(text))
    }
}

impl<'a> From<&'a Box<str>> for TargetTripleRef<'a> {
    fn from(text: &'a Box<str>) -> Self {
        TargetTripleRef::from(&**text)
    }
}

impl From<Box<str>> for TargetTripleRef<'static> {
    fn from(text: Box<str>) -> Self {
        TargetTripleRef::from(text.into_string())
    }
}

impl<'a> From<&'a TargetTripleRef<'_>> for TargetTripleRef<'a> {
    fn from(target: &'a TargetTripleRef<'_>) -> Self {
        TargetTripleRef { triple: Cow::Borrowed(&target.triple), spec_path: target.spec_path().map(Cow::Borrowed) }
    }
}

impl FromCell for Vec<TargetTriple> {
    fn from_cell(reader: &mut Reader<'_>) -> Option<Self> {
        reader.list()?.rest(|text| TargetTriple::from(text.to_owned()))
    }
}

#[cfg(test)]
mod tests {
    use super::*;

    #[test]
    fn a_triple_and_a_path() {
        let triple = TargetTripleRef::from("x86_64-unknown-linux-gnu");
        assert_eq!((triple.triple(), triple.spec_path()), ("x86_64-unknown-linux-gnu", None));
        let spec = TargetTripleRef::from("a/b.JSON".to_owned());
        assert_eq!((spec.triple(), spec.spec_path()), ("b", Some(Path::new("a/b.JSON"))));
        assert_eq!(TargetTripleRef::from(&spec), spec.clone().into_owned());
        assert_eq!(TargetTripleRef::from("./").triple(), "./");
        for (text, is_path) in
            [("a.json", true), ("a.b.json", true), ("\\", true), (".json", false), ("json", false), ("a.json.b", false)]
        {
            assert_eq!(is_spec_path(text), is_path, "{text}");
        }
    }
}
