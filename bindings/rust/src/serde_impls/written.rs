//! Values as they are written.
use crate::choices::{Color, Frequency, RegistriesProtocol, VersionControlSoftware, When};
use crate::de;
use crate::tables::{CredentialProvider, EnvConfigValue, GlobalCredentialProviders, StringList};
use crate::{Flags, PathAndArgs, TargetTripleRef};
use std::cell::RefCell;
use std::collections::BTreeMap;
use std::ffi::OsStr;
use std::path::PathBuf;

/// What is written. A table keeps the order of its keys, which is that of a type's fields.
pub(super) enum Written {
    Boolean(bool),
    Integer(i64),
    Text(String),
    List(Vec<Written>),
    Table(Vec<(String, Written)>),
}

/// A value that can be written.
pub(super) trait Write {
    /// What is written; none where nothing is set.
    fn written(&self) -> Option<Written>;
}

/// The table of those fields that are set.
pub(super) fn table_of<const N: usize>(fields: [(&str, Option<Written>); N]) -> Vec<(String, Written)> {
    fields.into_iter().filter_map(|(key, value)| Some((key.to_owned(), value?))).collect()
}

fn text(text: &str) -> Option<Written> {
    Some(Written::Text(text.to_owned()))
}

// A list, or its texts joined by spaces.
fn joined(list: Option<Written>, is_text: bool) -> Option<Written> {
    match list? {
        Written::List(words) if is_text => {
            let words = words.into_iter().filter_map(|word| match word {
                Written::Text(word) => Some(word),
                _ => None,
            });
            Some(Written::Text(words.collect::<Vec<_>>().join(" ")))
        }
        list => Some(list),
    }
}

fn texts<'a>(texts: impl IntoIterator<Item = &'a OsStr>) -> Option<Written> {
    Some(Written::List(texts.into_iter().map(|text| Written::Text(text.to_string_lossy().into_owned())).collect()))
}

impl Write for bool {
    fn written(&self) -> Option<Written> {
        Some(Written::Boolean(*self))
    }
}

impl Write for i32 {
    fn written(&self) -> Option<Written> {
        Some(Written::Integer(i64::from(*self)))
    }
}

impl Write for u32 {
    fn written(&self) -> Option<Written> {
        Some(Written::Integer(i64::from(*self)))
    }
}

impl Write for String {
    fn written(&self) -> Option<Written> {
        text(self)
    }
}

impl Write for PathBuf {
    fn written(&self) -> Option<Written> {
        text(&self.to_string_lossy())
    }
}

impl Write for TargetTripleRef<'_> {
    fn written(&self) -> Option<Written> {
        text(self.text())
    }
}

impl<T: Write> Write for Option<T> {
    fn written(&self) -> Option<Written> {
        self.as_ref()?.written()
    }
}

impl<T: Write> Write for Vec<T> {
    fn written(&self) -> Option<Written> {
        Some(Written::List(self.iter().filter_map(Write::written).collect()))
    }
}

// Tables by names: an empty one is written, and none where there are no names.
impl<T: Write> Write for BTreeMap<String, T> {
    fn written(&self) -> Option<Written> {
        let written = |value: &T| value.written().unwrap_or_else(|| Written::Table(Vec::new()));
        let table: Vec<_> = self.iter().map(|(key, value)| (key.clone(), written(value))).collect();
        (!table.is_empty()).then_some(Written::Table(table))
    }
}

impl<T: Write> Write for RefCell<T> {
    fn written(&self) -> Option<Written> {
        self.borrow().written()
    }
}

macro_rules! words {
    ($($name:ident)*) => {$(
        impl Write for $name {
            fn written(&self) -> Option<Written> {
                text(self.as_str())
            }
        }
    )*};
}

words! { Color Frequency VersionControlSoftware When }

impl Write for RegistriesProtocol {
    fn written(&self) -> Option<Written> {
        text(self.word())
    }
}

impl Write for Flags {
    fn written(&self) -> Option<Written> {
        self.flags.written()
    }
}

impl Write for StringList {
    fn written(&self) -> Option<Written> {
        self.list.written()
    }
}

impl Write for PathAndArgs {
    fn written(&self) -> Option<Written> {
        texts([self.path.as_os_str()].into_iter().chain(self.args.iter().map(AsRef::as_ref)))
    }
}

impl Write for EnvConfigValue {
    fn written(&self) -> Option<Written> {
        let value = Written::Text(self.value.to_string_lossy().into_owned());
        if !self.force && !self.relative {
            return Some(value);
        }
        let [force, relative] = [self.force, self.relative].map(|flag| flag.then_some(Written::Boolean(true)));
        Some(Written::Table(table_of([("value", Some(value)), ("force", force), ("relative", relative)])))
    }
}

impl Write for CredentialProvider {
    fn written(&self) -> Option<Written> {
        let (first, command) = match self {
            CredentialProvider::CargoToken => ("cargo:token", None),
            CredentialProvider::CargoWincred => ("cargo:wincred", None),
            CredentialProvider::CargoMacosKeychain => ("cargo:macos-keychain", None),
            CredentialProvider::CargoLibsecret => ("cargo:libsecret", None),
            CredentialProvider::Alias(name) => (name.as_str(), None),
            CredentialProvider::CargoTokenFromStdout(command) => ("cargo:token-from-stdout", Some(command)),
            CredentialProvider::Plugin(command) => return command.written(),
        };
        let command =
            command.iter().flat_map(|it| [it.path.as_os_str()].into_iter().chain(it.args.iter().map(AsRef::as_ref)));
        texts([OsStr::new(first)].into_iter().chain(command))
    }
}

impl Write for GlobalCredentialProviders {
    fn written(&self) -> Option<Written> {
        (!self.as_ref().is_empty()).then(|| self.as_ref().to_vec().written())?
    }
}

impl<T: Write> Write for de::Value<T> {
    fn written(&self) -> Option<Written> {
        self.val.written()
    }
}

impl Write for de::StringOrArray {
    fn written(&self) -> Option<Written> {
        match self {
            de::StringOrArray::String(text) => text.written(),
            de::StringOrArray::Array(list) => list.written(),
        }
    }
}

impl Write for de::Flags {
    fn written(&self) -> Option<Written> {
        self.flags.written()
    }
}

impl Write for de::StringList {
    fn written(&self) -> Option<Written> {
        joined(self.list.written(), self.is_text)
    }
}

impl Write for de::PathAndArgs {
    fn written(&self) -> Option<Written> {
        joined([vec![self.path.value().clone()], self.args.clone()].concat().written(), self.is_text)
    }
}

impl Write for de::EnvConfigValue {
    fn written(&self) -> Option<Written> {
        match self {
            de::EnvConfigValue::Value(value) => value.written(),
            de::EnvConfigValue::Table { value, force, relative } => {
                let fields = [("value", value.written()), ("force", force.written()), ("relative", relative.written())];
                Some(Written::Table(table_of(fields)))
            }
        }
    }
}

// The nested tables come after the fields.
impl Write for de::TargetConfig {
    fn written(&self) -> Option<Written> {
        let (linker, runner) = (self.linker.written(), self.runner.written());
        let flags = (self.rustflags.written(), self.rustdocflags.written());
        let mut table =
            table_of([("linker", linker), ("runner", runner), ("rustflags", flags.0), ("rustdocflags", flags.1)]);
        if let Some(Written::Table(nested)) = self.nested.written() {
            table.extend(nested);
        }
        (!table.is_empty()).then_some(Written::Table(table))
    }
}

impl Write for de::CredentialProvider {
    fn written(&self) -> Option<Written> {
        use de::CredentialProviderKind as Kind;
        let words = |first: &str, command: Option<&de::PathAndArgs>| {
            let mut list = vec![Written::Text(first.to_owned())];
            if let Some(Written::List(command)) = command.and_then(Write::written) {
                list.extend(command);
            }
            Some(Written::List(list))
        };
        let list = match &self.kind {
            Kind::CargoToken => words("cargo:token", None),
            Kind::CargoWincred => words("cargo:wincred", None),
            Kind::CargoMacosKeychain => words("cargo:macos-keychain", None),
            Kind::CargoLibsecret => words("cargo:libsecret", None),
            Kind::CargoTokenFromStdout(command) => words("cargo:token-from-stdout", Some(command)),
            Kind::Plugin(command) => command.written(),
            Kind::MaybeAlias(word) => words(&word.val, None),
        };
        joined(list, self.is_text)
    }
}

impl Write for de::GlobalCredentialProviders {
    fn written(&self) -> Option<Written> {
        (!self.as_ref().is_empty()).then(|| self.as_ref().to_vec().written())?
    }
}
