//! Serde's traits: resolved tables and those of `de` are written as files have them, and those of `de` are read.
mod read;
mod tables;
mod written;

use crate::from_json::FromJson;
use crate::{de, json, tables as resolved};
use read::Json;
use serde::de::{Deserialize, Deserializer, Error as _};
use serde::ser::{Serialize, Serializer};
use written::{Write, Written};

impl Serialize for Written {
    fn serialize<S: Serializer>(&self, serializer: S) -> Result<S::Ok, S::Error> {
        match self {
            Written::Boolean(value) => serializer.serialize_bool(*value),
            Written::Integer(number) => serializer.serialize_i64(*number),
            Written::Text(text) => serializer.serialize_str(text),
            Written::List(list) => serializer.collect_seq(list),
            Written::Table(table) => serializer.collect_map(table.iter().map(|(key, value)| (key, value))),
        }
    }
}

// Types that are written. Where nothing is set that is an empty table.
macro_rules! serialize {
    ($($name:ty)*) => {$(
        impl Serialize for $name {
            fn serialize<S: Serializer>(&self, serializer: S) -> Result<S::Ok, S::Error> {
                self.written().unwrap_or_else(|| Written::Table(Vec::new())).serialize(serializer)
            }
        }
    )*};
}

impl FromJson for crate::TargetTriple {
    fn from_json(reader: &mut json::Reader<'_>) -> crate::error::Result<Self> {
        String::from_json(reader).map(crate::TargetTriple::from)
    }
}

// Types that are read from values without origins.
macro_rules! deserialize {
    ($($name:ty)*) => {$(
        impl<'de> Deserialize<'de> for $name {
            fn deserialize<D: Deserializer<'de>>(deserializer: D) -> Result<Self, D::Error> {
                json::read(&Json::deserialize(deserializer)?.0).map_err(D::Error::custom)
            }
        }
    )*};
}

serialize! {
    crate::Config resolved::BuildConfig resolved::CargoNewConfig resolved::CredentialProvider resolved::DocConfig
    resolved::EnvConfigValue resolved::FutureIncompatReportConfig resolved::GlobalCredentialProviders resolved::HttpConfig
    resolved::NetConfig resolved::RegistriesConfigValue resolved::RegistryConfig resolved::SourceConfigValue
    resolved::StringList resolved::TargetConfig resolved::TermConfig resolved::TermProgressConfig crate::Flags
    crate::PathAndArgs crate::TargetTripleRef<'_>
    de::Color de::Frequency de::RegistriesProtocol de::VersionControlSoftware de::When
    de::Config de::BuildConfig de::CargoNewConfig de::CredentialProvider de::DocConfig de::EnvConfigValue
    de::FutureIncompatReportConfig de::GlobalCredentialProviders de::HttpConfig de::NetConfig de::RegistriesConfigValue
    de::RegistryConfig de::SourceConfigValue de::StringList de::TargetConfig de::TermConfig de::TermProgress de::Flags
    de::PathAndArgs de::StringOrArray
}

deserialize! {
    de::Color de::Frequency de::RegistriesProtocol de::VersionControlSoftware de::When
    de::Config de::BuildConfig de::CargoNewConfig de::CredentialProvider de::DocConfig de::EnvConfigValue
    de::FutureIncompatReportConfig de::GlobalCredentialProviders de::HttpConfig de::NetConfig de::RegistriesConfigValue
    de::RegistryConfig de::SourceConfigValue de::StringList de::TargetConfig de::TermConfig de::TermProgress de::Flags
    de::PathAndArgs de::StringOrArray de::ConfigRelativePath crate::TargetTriple
}

impl<T: Serialize> Serialize for de::Value<T> {
    fn serialize<S: Serializer>(&self, serializer: S) -> Result<S::Ok, S::Error> {
        self.val.serialize(serializer)
    }
}

impl<'de, T: Deserialize<'de>> Deserialize<'de> for de::Value<T> {
    fn deserialize<D: Deserializer<'de>>(deserializer: D) -> Result<Self, D::Error> {
        Ok(de::Value { val: T::deserialize(deserializer)?, definition: None })
    }
}
