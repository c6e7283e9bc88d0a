//! Tables and values written as JSON: with where each was set and without, with tokens and without.
use cc2_json::{Form, IntoJson};
use cc2_leaf::{
    CredentialProvider, Decode, EnvConfigValue, Flags, GlobalCredentialProviders, PathAndArgs,
    SetPath, StringList, StringOrArray, Value,
};
use cc2_tables::{BuildConfig, RegistriesConfigValue, TermConfig};
use cc2_target_table::TargetConfig;
use std::alloc::Global;
use std::collections::BTreeMap;
use std::process::Abort;
use std::result::Result;
use std::test::Fail;

const VALUES: Form = Form {
    origins: false,
    tokens: false,
};

const ORIGINS: Form = Form {
    origins: true,
    tokens: false,
};

const TOKENS: Form = Form {
    origins: false,
    tokens: true,
};

// The value that is at the key `k` of this text, read without a file.
fn read<T: Decode>(alloc: Global, text: &str) -> Result<T, Fail> {
    let table = toml::table_from_str(alloc, text)?;
    match table.get("k") {
        Some(value) => Ok(T::decode(alloc, value, "k")?),
        None => Err(Fail::new("no value at `k`")),
    }
}

// The JSON text of a value, `nothing` where it has none.
fn told<T: IntoJson>(alloc: Global, form: Form, value: T) -> Result<String, Fail> {
    match value.into_json(alloc, form)? {
        Some(json) => Ok(json.to_string(alloc)?),
        None => Ok(String::from_str(alloc, "nothing")?),
    }
}

// Checks what is written of the values at the key `k` of these texts.
fn expect_told<T: Decode + IntoJson>(
    rt: &impl Abort,
    alloc: Global,
    form: Form,
    rows: &[(&str, &str)],
) -> Result<(), Fail> {
    for (text, expected) in rows {
        let value = read::<T>(alloc, *text)?;
        let shown = told(alloc, form, value)?;
        assert_eq!(rt; shown.as_str(), *expected);
    }
    Ok(())
}

// Checks what is written of the same values where the file `/f` set them.
fn expect_placed<T: Decode + IntoJson + SetPath>(
    rt: &impl Abort,
    alloc: Global,
    rows: &[(&str, &str)],
) -> Result<(), Fail> {
    for (text, expected) in rows {
        let mut value = read::<T>(alloc, *text)?;
        value.set_path(alloc, "/f")?;
        let shown = told(alloc, ORIGINS, value)?;
        assert_eq!(rt; shown.as_str(), *expected);
    }
    Ok(())
}

#[test]
fn single_values_are_numbers_truths_and_texts(rt: HostRuntime) -> Result<(), Fail> {
    let alloc = rt.alloc();
    expect_told::<Value<i32>>(&rt, alloc, VALUES, &[("k = -3", "-3")])?;
    expect_told::<Value<u32>>(&rt, alloc, VALUES, &[("k = 4294967295", "4294967295")])?;
    expect_told::<Value<bool>>(&rt, alloc, VALUES, &[("k = true", "true")])?;
    expect_told::<Value<String>>(&rt, alloc, VALUES, &[("k = 'a\"b'", "\"a\\\"b\"")])
}

#[test]
fn lists_and_commands_are_told_as_they_came(rt: HostRuntime) -> Result<(), Fail> {
    let alloc = rt.alloc();
    let lists = [
        ("k = 'a  b'", "\"a b\""),
        ("k = ['a b', '']", "[\"a b\",\"\"]"),
        ("k = []", "[]"),
    ];
    expect_told::<StringList>(&rt, alloc, VALUES, lists.as_slice())?;
    expect_told::<Flags>(&rt, alloc, VALUES, lists.as_slice())?;
    let commands = [
        ("k = 'b  --new'", "\"b --new\""),
        ("k = ['b', 'c d']", "[\"b\",\"c d\"]"),
    ];
    expect_told::<PathAndArgs>(&rt, alloc, VALUES, commands.as_slice())?;
    let wholes = [
        ("k = 'a  b'", "\"a  b\""),
        ("k = ['a', 'b']", "[\"a\",\"b\"]"),
    ];
    expect_told::<StringOrArray>(&rt, alloc, VALUES, wholes.as_slice())
}

#[test]
fn providers_are_told_with_their_words(rt: HostRuntime) -> Result<(), Fail> {
    let alloc = rt.alloc();
    let one = [
        ("k = 'cargo:token'", "\"cargo:token\""),
        ("k = ['cargo:token']", "[\"cargo:token\"]"),
        (
            "k = 'cargo:token-from-stdout p  q'",
            "\"cargo:token-from-stdout p q\"",
        ),
        ("k = 'an-alias'", "\"an-alias\""),
        ("k = ['p', 'q r']", "[\"p\",\"q r\"]"),
    ];
    expect_told::<CredentialProvider>(&rt, alloc, VALUES, one.as_slice())?;
    let many = [
        (
            "k = ['cargo:wincred', 'p q']",
            "[\"cargo:wincred\",\"p q\"]",
        ),
        ("k = []", "nothing"),
    ];
    expect_told::<GlobalCredentialProviders>(&rt, alloc, VALUES, many.as_slice())
}

#[test]
fn each_value_stands_beside_its_file(rt: HostRuntime) -> Result<(), Fail> {
    let alloc = rt.alloc();
    let number = [("k = 3", "{\"origin\":{\"file\":\"/f\"},\"value\":3}")];
    expect_placed::<Value<i32>>(&rt, alloc, number.as_slice())?;
    let lists = [
        (
            "k = ['a', 'b']",
            "[{\"origin\":{\"file\":\"/f\"},\"value\":\"a\"},{\"origin\":{\"file\":\"/f\"},\"value\":\"b\"}]",
        ),
        (
            "k = 'a b'",
            "{\"origin\":{\"file\":\"/f\"},\"value\":\"a b\"}",
        ),
        ("k = ''", "{\"origin\":null,\"value\":\"\"}"),
    ];
    expect_placed::<StringList>(&rt, alloc, lists.as_slice())?;
    let command = [(
        "k = ['p', 'q']",
        "{\"origin\":{\"file\":\"/f\"},\"value\":[\"p\",\"q\"]}",
    )];
    expect_placed::<PathAndArgs>(&rt, alloc, command.as_slice())
}

#[test]
fn a_value_of_no_file_has_the_origin_null(rt: HostRuntime) -> Result<(), Fail> {
    let rows = [("k = 3", "{\"origin\":null,\"value\":3}")];
    expect_told::<Value<i32>>(&rt, rt.alloc(), ORIGINS, rows.as_slice())
}

#[test]
fn tables_are_objects_of_what_they_have(rt: HostRuntime) -> Result<(), Fail> {
    let alloc = rt.alloc();
    let builds = [
        (
            "k = { jobs = 2, target = 'a', rustflags = ['b'], incremental = false }",
            "{\"jobs\":2,\"target\":\"a\",\"rustflags\":[\"b\"],\"incremental\":false}",
        ),
        ("k = {}", "{}"),
    ];
    for (text, expected) in builds {
        let shown = told(alloc, VALUES, read::<BuildConfig>(alloc, text)?)?;
        expect_same_object(&rt, alloc, shown.as_str(), expected)?;
    }
    Ok(())
}

// Checks that two texts are one JSON value: the members of an object have no order.
fn expect_same_object(
    rt: &impl Abort,
    alloc: Global,
    shown: &str,
    expected: &str,
) -> Result<(), Fail> {
    let shown = serde_json::from_str::<cc2_json::Json>(alloc, shown)?;
    let expected = serde_json::from_str::<cc2_json::Json>(alloc, expected)?;
    assert!(rt; shown == expected);
    Ok(())
}

#[test]
fn an_empty_table_within_a_table_is_not_told(rt: HostRuntime) -> Result<(), Fail> {
    let rows = [
        ("k = { quiet = true, progress = {} }", "{\"quiet\":true}"),
        (
            "k = { progress = { width = 3 } }",
            "{\"progress\":{\"width\":3}}",
        ),
    ];
    expect_told::<TermConfig>(&rt, rt.alloc(), VALUES, rows.as_slice())
}

#[test]
fn a_token_is_told_where_it_is_asked_for(rt: HostRuntime) -> Result<(), Fail> {
    let alloc = rt.alloc();
    let text = "k = { token = 'secret' }";
    let hidden = [(text, "{\"token\":\"[REDACTED]\"}")];
    expect_told::<RegistriesConfigValue>(&rt, alloc, VALUES, hidden.as_slice())?;
    let asked = [(text, "{\"token\":\"secret\"}")];
    expect_told::<RegistriesConfigValue>(&rt, alloc, TOKENS, asked.as_slice())?;
    let placed = [(
        text,
        "{\"token\":{\"origin\":{\"file\":\"/f\"},\"redacted\":true}}",
    )];
    expect_placed::<RegistriesConfigValue>(&rt, alloc, placed.as_slice())
}

#[test]
fn names_are_told_even_where_their_table_is_empty(rt: HostRuntime) -> Result<(), Fail> {
    let alloc = rt.alloc();
    let named = [("k = { b = {}, token = {} }", "{\"b\":{},\"token\":{}}")];
    expect_told::<BTreeMap<String, RegistriesConfigValue>>(&rt, alloc, VALUES, named.as_slice())?;
    let variables = [
        (
            "k = { A = 'x', B = { value = 'y', force = true } }",
            "{\"A\":\"x\",\"B\":{\"value\":\"y\",\"force\":true}}",
        ),
        ("k = {}", "{}"),
    ];
    for (text, expected) in variables {
        let value = read::<BTreeMap<String, EnvConfigValue>>(alloc, text)?;
        let shown = told(alloc, VALUES, value)?;
        expect_same_object(&rt, alloc, shown.as_str(), expected)?;
    }
    Ok(())
}

#[test]
fn target_tables_nest_and_a_mark_is_not_told(rt: HostRuntime) -> Result<(), Fail> {
    let rows = [
        (
            "k = { y = { linker = 'l' }, z = 3 }",
            "{\"y\":{\"linker\":\"l\"}}",
        ),
        (
            "k = { runner = ['r', 's'], rustflags = 'a b' }",
            "{\"runner\":[\"r\",\"s\"],\"rustflags\":\"a b\"}",
        ),
    ];
    expect_told_nested(&rt, rt.alloc(), rows.as_slice())
}

// Checks what is written of target tables.
fn expect_told_nested(rt: &impl Abort, alloc: Global, rows: &[(&str, &str)]) -> Result<(), Fail> {
    for (text, expected) in rows {
        let value = read::<TargetConfig>(alloc, *text)?;
        let shown = told(alloc, VALUES, value)?;
        expect_same_object(rt, alloc, shown.as_str(), *expected)?;
    }
    Ok(())
}
