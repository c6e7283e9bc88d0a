//! Credential providers.
use crate::cells::{Key, Reader};
use crate::from_cells::{FromCell, FromCells};
use crate::path_and_args::PathAndArgs;

/// What provides the token of a registry, as
/// [registry authentication](https://doc.rust-lang.org/cargo/reference/registry-authentication.html) says.
#[derive(Clone, Debug, PartialEq)]
#[non_exhaustive]
pub enum CredentialProvider {
    /// `cargo:token`: the token in Cargo's configuration or its file of credentials.
    CargoToken,
    /// `cargo:wincred`: Windows Credential Manager.
    CargoWincred,
    /// `cargo:macos-keychain`: the keychain of macOS.
    CargoMacosKeychain,
    /// `cargo:libsecret`: libsecret.
    CargoLibsecret,
    /// `cargo:token-from-stdout`: what a program prints.
    CargoTokenFromStdout(PathAndArgs),
    /// A program that speaks Cargo's protocol of credential providers.
    Plugin(PathAndArgs),
    /// A key of the table `credential-alias`.
    Alias(String),
}

/// The credential providers of all registries without their own, the first that is tried last:
/// [`registry.global-credential-providers`](https://doc.rust-lang.org/cargo/reference/config.html#registryglobal-credential-providers).
#[derive(Clone, Debug, Default, PartialEq)]
pub struct GlobalCredentialProviders(Vec<CredentialProvider>);

impl CredentialProvider {
    // The provider with this name: one that Cargo has, else an alias.
    fn of_name(name: &str) -> Self {
        match name {
            "cargo:token" => CredentialProvider::CargoToken,
            "cargo:wincred" => CredentialProvider::CargoWincred,
            "cargo:macos-keychain" => CredentialProvider::CargoMacosKeychain,
            "cargo:libsecret" => CredentialProvider::CargoLibsecret,
            _ => CredentialProvider::Alias(name.to_owned()),
        }
    }
}

// A name is a text. A command is a list, in which one word may come first.
impl FromCell for CredentialProvider {
    fn from_cell(reader: &mut Reader<'_>) -> Option<Self> {
        if reader.kind() == Some(b't') {
            return reader.text().map(CredentialProvider::of_name);
        }
        let mut list = reader.list()?;
        if list.takes("cargo:token-from-stdout") {
            return PathAndArgs::of_cell(list).map(CredentialProvider::CargoTokenFromStdout);
        }
        PathAndArgs::of_cell(list).map(CredentialProvider::Plugin)
    }
}

impl FromCells for GlobalCredentialProviders {
    fn put(&mut self, keys: &[Key<'_>], reader: &mut Reader<'_>) -> Option<bool> {
        if !keys.is_empty() {
            return Some(false);
        }
        if !self.0.is_empty() {
            return None;
        }
        self.0 = reader.providers()?;
        Some(true)
    }
}

impl AsRef<[CredentialProvider]> for GlobalCredentialProviders {
    fn as_ref(&self) -> &[CredentialProvider] {
        &self.0
    }
}

impl From<Vec<CredentialProvider>> for GlobalCredentialProviders {
    fn from(providers: Vec<CredentialProvider>) -> Self {
        GlobalCredentialProviders(providers)
    }
}

#[cfg(test)]
mod tests {
    use super::*;
    use crate::cells::written::{list, read_value, text};

    fn provider(texts: &[&str]) -> Option<CredentialProvider> {
        read_value(&list(texts))
    }

    fn named(name: &str) -> Option<CredentialProvider> {
        read_value(&text(name))
    }

    #[test]
    fn providers_of_all_kinds() {
        let mut command = PathAndArgs::new("p");
        command.arg("-x");
        assert_eq!(named("cargo:token"), Some(CredentialProvider::CargoToken));
        assert_eq!(named("cargo:wincred"), Some(CredentialProvider::CargoWincred));
        assert_eq!(named("cargo:macos-keychain"), Some(CredentialProvider::CargoMacosKeychain));
        assert_eq!(named("cargo:libsecret"), Some(CredentialProvider::CargoLibsecret));
        assert_eq!(named("my"), Some(CredentialProvider::Alias("my".into())));
        let wanted = CredentialProvider::CargoTokenFromStdout(command.clone());
        assert_eq!(provider(&["cargo:token-from-stdout", "p", "-x"]), Some(wanted));
        assert_eq!(provider(&["p", "-x"]), Some(CredentialProvider::Plugin(command)));
        assert_eq!(provider(&["my"]), Some(CredentialProvider::Plugin(PathAndArgs::new("my"))));
        assert_eq!((provider(&[]), provider(&["cargo:token-from-stdout"])), (None, None));
        assert_eq!(read_value::<CredentialProvider>(b"b\x01"), None);
    }
}
