//! Each leaf read by itself from a TOML value, and printed again; or refused at its key path.
use crate::low::made::printed;
use cc2_leaf::{
    CredentialProvider, Decode, EnvConfigValue, Flags, GlobalCredentialProviders, PathAndArgs,
    StringList, StringOrArray, Value,
};
use serde::Serialize;
use std::alloc::Global;
use std::process::Abort;
use std::result::Result;
use std::test::Fail;

// The value at the key `k` of this text, printed; of a refusal its text, which no context is before.
fn decoded<T: Decode + Serialize>(alloc: Global, text: &str) -> Result<String, Fail> {
    let table = toml::table_from_str(alloc, text)?;
    let Some(value) = table.get("k") else {
        return Err(Fail::new("no value at `k`"));
    };
    match T::decode(alloc, value, "k") {
        Ok(read) => printed(alloc, read),
        Err(error) => Ok(format!(in alloc; "{error}")?),
    }
}

// Checks what is printed of each of these.
fn expect_printed<T: Decode + Serialize>(
    rt: &impl Abort,
    alloc: Global,
    rows: &[(&str, &str)],
) -> Result<(), Fail> {
    for (text, expected) in rows {
        let shown = decoded::<T>(alloc, *text)?;
        assert_eq!(rt; shown.as_str(), *expected);
    }
    Ok(())
}

const LISTS: &[(&str, &str)] = &[
    ("k = \"build  --release\"", "k = \"build --release\"\n"),
    ("k = [\"a b\", \"\"]", "k = [\"a b\", \"\"]\n"),
    ("k = [\"a\", 1]", "wrong type at `k`"),
];

const FLAGS: &[(&str, &str)] = &[
    ("k = \"x  y\"", "k = [\"x\", \"y\"]\n"),
    ("k = []", "k = []\n"),
    ("k = 3", "wrong type at `k`"),
];

const COMMANDS: &[(&str, &str)] = &[
    ("k = \"b  --new\"", "k = \"b --new\"\n"),
    (
        "k = \"\"",
        "invalid length 0, expected at least one element",
    ),
];

const WHOLES: &[(&str, &str)] = &[
    ("k = \"a b\"", "k = \"a b\"\n"),
    ("k = [\"a\", \"b c\"]", "k = [\"a\", \"b c\"]\n"),
];

const PROVIDERS: &[(&str, &str)] = &[
    ("k = \"a b\"", "k = \"a b\"\n"),
    (
        "k = \"cargo:token x\"",
        "args should be empty for credential provider of kind \"cargo:token\"",
    ),
    (
        "k = [\"cargo:token-from-stdout\"]",
        "invalid length 1, expected at least two elements for registry of kind \"cargo:token-from-stdout\"",
    ),
    ("k = []", "invalid length 0, expected at least one element"),
];

const MANY: &[(&str, &str)] = &[
    (
        "k = [\"cargo:token\", \"a b\"]",
        "k = [\"cargo:token\", \"a b\"]\n",
    ),
    ("k = \"x\"", "wrong type at `k`"),
    (
        "k = [\"\"]",
        "invalid length 0, expected at least one element",
    ),
];

const VARIABLES: &[(&str, &str)] = &[
    ("k = \"v\"", "k = \"v\"\n"),
    (
        "k = { value = \"v\", force = true }",
        "[k]\nvalue = \"v\"\nforce = true\n",
    ),
    ("k = { force = true }", "wrong type at `k.value`"),
];

const NUMBERS: &[(&str, &str)] = &[
    ("k = 4294967295", "k = 4294967295\n"),
    ("k = 4294967296", "wrong type at `k`"),
    ("k = -1", "wrong type at `k`"),
];

#[test]
fn leaves_are_decoded(rt: HostRuntime) -> Result<(), Fail> {
    let alloc = rt.alloc();
    expect_printed::<StringList>(&rt, alloc, LISTS)?;
    expect_printed::<Flags>(&rt, alloc, FLAGS)?;
    expect_printed::<PathAndArgs>(&rt, alloc, COMMANDS)?;
    expect_printed::<StringOrArray>(&rt, alloc, WHOLES)?;
    expect_printed::<CredentialProvider>(&rt, alloc, PROVIDERS)?;
    expect_printed::<GlobalCredentialProviders>(&rt, alloc, MANY)?;
    expect_printed::<EnvConfigValue>(&rt, alloc, VARIABLES)?;
    expect_printed::<Value<u32>>(&rt, alloc, NUMBERS)
}
