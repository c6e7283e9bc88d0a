//! Credential providers.
use super::lists::split;
use super::value::Words;
use super::{PathAndArgs, Value};
use crate::error::{Error, Result};
use crate::from_json::FromJson;
use crate::json::Reader;

/// What provides the token of a registry.
#[derive(Clone, Debug)]
pub struct CredentialProvider {
    /// Which provider it is.
    pub kind: CredentialProviderKind,
    // Whether it was one text.
    #[cfg_attr(not(feature = "serde"), allow(dead_code))]
    pub(crate) is_text: bool,
}

/// A [provider of tokens](https://doc.rust-lang.org/cargo/reference/registry-authentication.html).
#[derive(Clone, Debug)]
#[non_exhaustive]
pub enum CredentialProviderKind {
    /// `cargo:token`: the token in Cargo's configuration or its file of credentials.
    CargoToken,
    /// `cargo:wincred`: Windows Credential Manager.
    CargoWincred,
    /// `cargo:macos-keychain`: the keychain of macOS.
    CargoMacosKeychain,
    /// `cargo:libsecret`: libsecret.
    CargoLibsecret,
    /// `cargo:token-from-stdout`: what a program prints.
    CargoTokenFromStdout(PathAndArgs),
    /// A program that speaks Cargo's protocol of credential providers.
    Plugin(PathAndArgs),
    /// One word: a key of the table `credential-alias`, else a program.
    MaybeAlias(Value<String>),
}

/// The credential providers of all registries without their own.
#[derive(Clone, Debug, Default)]
pub struct GlobalCredentialProviders(Vec<CredentialProvider>);

impl CredentialProviderKind {
    // The provider of these words; none where a program is missing.
    fn of_words(mut words: Vec<Value<String>>) -> Option<Self> {
        let first = words.first()?;
        Some(match (first.val.as_str(), words.len()) {
            ("cargo:token", 1) => CredentialProviderKind::CargoToken,
            ("cargo:wincred", 1) => CredentialProviderKind::CargoWincred,
            ("cargo:macos-keychain", 1) => CredentialProviderKind::CargoMacosKeychain,
            ("cargo:libsecret", 1) => CredentialProviderKind::CargoLibsecret,
            ("cargo:token-from-stdout", _) => {
                CredentialProviderKind::CargoTokenFromStdout(PathAndArgs::of_list(words.split_off(1))?)
            }
            (_, 1) => CredentialProviderKind::MaybeAlias(words.remove(0)),
            _ => CredentialProviderKind::Plugin(PathAndArgs::of_list(words)?),
        })
    }
}

impl FromJson for CredentialProvider {
    fn from_json(reader: &mut Reader<'_>) -> Result<Self> {
        let (words, is_text) = match reader.value()? {
            Words::Text(text) => (split(&text), true),
            Words::List(list) => (list, false),
        };
        let kind = CredentialProviderKind::of_words(words).ok_or_else(Error::unread)?;
        Ok(CredentialProvider { kind, is_text })
    }
}

impl FromJson for GlobalCredentialProviders {
    fn from_json(reader: &mut Reader<'_>) -> Result<Self> {
        reader.value().map(GlobalCredentialProviders)
    }
}

impl AsRef<[CredentialProvider]> for GlobalCredentialProviders {
    fn as_ref(&self) -> &[CredentialProvider] {
        &self.0
    }
}
