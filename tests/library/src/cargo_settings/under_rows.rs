//! What variables change in settings, and what is refused of them.
use cc2_base::files::FileTable;
use cc2_base::machine::Machine;
use cc2_cargo::{Raw, load_with};
use cc2_cargo_settings::under_variables;
use std::alloc::Global;
use std::collections::BTreeMap;
use std::process::Abort;
use std::test::Fail;

// A machine with these variables.
pub(crate) fn machine(alloc: Global, variables: &[(&str, &str)]) -> Result<Machine, Fail> {
    let mut env = Vec::new(alloc);
    for (name, value) in variables {
        let value = String::from_str(alloc, value)?.into_bytes();
        env.push((String::from_str(alloc, name)?, value))?;
    }
    Ok(Machine {
        current_dir: String::from_str(alloc, "/p")?,
        env,
        home: None,
    })
}

// The settings of the file `/f` with this text, under these overrides.
pub(crate) fn settings(
    alloc: Global,
    text: &str,
    overrides: &[&str],
) -> Result<BTreeMap<String, Raw>, Fail> {
    let mut files = FileTable::new(alloc);
    let content = String::from_str(alloc, text)?.into_bytes();
    files.put(String::from_str(alloc, "/f")?, Some(content))?;
    let mut paths = Vec::new(alloc);
    paths.push(String::from_str(alloc, "/f")?)?;
    let mut list = Vec::new(alloc);
    for text in overrides {
        list.push(String::from_str(alloc, text)?)?;
    }
    match load_with(alloc, "/p", paths.as_slice(), list.as_slice(), &files) {
        Ok(settings) => Ok(settings),
        Err(_) => Ok(BTreeMap::new(alloc)),
    }
}

pub(crate) fn expect(
    rt: &impl Abort,
    alloc: Global,
    text: &str,
    overrides: &[&str],
    variables: &[(&str, &str)],
    expected: &str,
) -> Result<(), Fail> {
    let settings = settings(alloc, text, overrides)?;
    let found = match under_variables(alloc, settings, &machine(alloc, variables)?, &[]) {
        Ok(settings) => format!(in alloc; "{settings:?}")?,
        Err(error) => format!(in alloc; "{error:?}")?,
    };
    assert_eq!(rt; found.as_str(), expected);
    Ok(())
}

const TABLES: &str = "{\"http\": Table({\"debug\": Single(Value { val: Boolean(true), \
    definition: Some(Path(\"/f\")) }), \
    \"timeout\": Single(Value { val: Integer(5), \
    definition: Some(Environment(\"CARGO_HTTP_TIMEOUT\")) })}), \
    \"term\": Table({\"progress\": Table({\"when\": Single(Value { val: String(\"never\"), \
    definition: Some(Environment(\"CARGO_TERM_PROGRESS_WHEN\")) })})})}";

#[test]
fn variables_set_values_and_the_tables_above_them(rt: HostRuntime) -> Result<(), Fail> {
    let variables = &[
        ("CARGO_HTTP_TIMEOUT", "5"),
        ("CARGO_TERM_PROGRESS_WHEN", "never"),
    ];
    expect(&rt, rt.alloc(), "http.debug = true", &[], variables, TABLES)
}

// The settings with this text alone, at `build.rustc`.
fn rustc(alloc: Global, text: &str, definition: &str) -> Result<String, Fail> {
    Ok(format!(in alloc;
        "{{\"build\": Table({{\"rustc\": Single(Value {{ val: String({text:?}), \
        definition: Some({definition}) }})}})}}"
    )?)
}

#[test]
fn a_setting_s_own_variable_precedes_the_command_line(rt: HostRuntime) -> Result<(), Fail> {
    let alloc = rt.alloc();
    let file = "build.rustc = 'file'";
    let cli = &["build.rustc = 'cli'"];
    let by_path = ("CARGO_BUILD_RUSTC", "path");
    let own = ("RUSTC", "own");
    let expected = rustc(alloc, "file", "Path(\"/f\")")?;
    expect(&rt, alloc, file, &[], &[], expected.as_str())?;
    let expected = rustc(alloc, "path", "Environment(\"CARGO_BUILD_RUSTC\")")?;
    expect(&rt, alloc, file, &[], &[by_path], expected.as_str())?;
    let expected = rustc(alloc, "cli", "Cli(None)")?;
    expect(&rt, alloc, file, cli, &[by_path], expected.as_str())?;
    let expected = rustc(alloc, "own", "Environment(\"RUSTC\")")?;
    expect(&rt, alloc, file, cli, &[by_path, own], expected.as_str())
}

const JOINED: &str = "{\"build\": Table({\"rustflags\": Array(RawArray { items: [\
    Value { val: String(\"a\"), definition: Some(Path(\"/f\")) }, \
    Value { val: String(\"b\"), definition: Some(Environment(\"CARGO_BUILD_RUSTFLAGS\")) }, \
    Value { val: String(\"c\"), definition: Some(Environment(\"CARGO_BUILD_RUSTFLAGS\")) }, \
    Value { val: String(\"d\"), definition: Some(Cli(None)) }], \
    definition: None, turn: 0 })})}";

#[test]
fn lists_are_joined(rt: HostRuntime) -> Result<(), Fail> {
    let cli = &["build.rustflags = ['d']"];
    let variables = &[("CARGO_BUILD_RUSTFLAGS", "b c")];
    expect(
        &rt,
        rt.alloc(),
        "build.rustflags = ['a']",
        cli,
        variables,
        JOINED,
    )
}

// The settings with this boolean of `CARGO_INCREMENTAL` alone.
fn incremental(alloc: Global, flag: bool) -> Result<String, Fail> {
    Ok(format!(in alloc;
        "{{\"build\": Table({{\"incremental\": Single(Value {{ val: Boolean({flag}), \
        definition: Some(Environment(\"CARGO_INCREMENTAL\")) }})}})}}"
    )?)
}

#[test]
fn the_incremental_variable_is_true_for_1_alone(rt: HostRuntime) -> Result<(), Fail> {
    let alloc = rt.alloc();
    let cli = &["build.incremental = true"];
    let no = incremental(alloc, false)?;
    expect(
        &rt,
        alloc,
        "",
        cli,
        &[("CARGO_INCREMENTAL", "true")],
        no.as_str(),
    )?;
    let yes = incremental(alloc, true)?;
    expect(
        &rt,
        alloc,
        "",
        &[],
        &[("CARGO_INCREMENTAL", "1")],
        yes.as_str(),
    )
}

const NO_NUMBER: &str =
    "Error { kind: EnvParse { must: \"must be a whole number from 0 to 4294967295\", found: \"9223372036854775808\" }, \
    context: Some(\"failed to parse environment variable `CARGO_NET_RETRY`\") }";

const NO_FLAG: &str = "Error { kind: EnvParse { must: \"must be true or false\", found: \"1\" }, \
    context: Some(\"failed to parse environment variable `CARGO_NET_OFFLINE`\") }";

const WRONG_TYPE: &str =
    "Error { kind: ParseFile(WrongType { path: [\"net\", \"retry\"] }), context: None }";

const BLOCKED: &str = "Error { kind: ParseFile(WrongType { path: [\"net\", \
    \"git-fetch-with-cli\"] }), context: None }";

#[test]
fn what_is_refused(rt: HostRuntime) -> Result<(), Fail> {
    let alloc = rt.alloc();
    let long = ("CARGO_NET_RETRY", "9223372036854775808");
    expect(&rt, alloc, "", &["net.retry = 1"], &[long], NO_NUMBER)?;
    expect(&rt, alloc, "", &[], &[("CARGO_NET_OFFLINE", "1")], NO_FLAG)?;
    let one = ("CARGO_NET_RETRY", "1");
    expect(&rt, alloc, "net.retry = '1'", &[], &[one], WRONG_TYPE)?;
    let yes = ("CARGO_NET_GIT_FETCH_WITH_CLI", "true");
    expect(&rt, alloc, "net = 1", &[], &[yes], BLOCKED)
}

// What is shown where a key with these pieces asks for it.
fn expect_asked(
    rt: &impl Abort,
    alloc: Global,
    asked: &[&str],
    variables: &[(&str, &str)],
    expected: &str,
) -> Result<(), Fail> {
    let settings = settings(alloc, "alias.xa = 'b'", &[])?;
    let found = match under_variables(alloc, settings, &machine(alloc, variables)?, asked) {
        Ok(settings) => format!(in alloc; "{settings:?}")?,
        Err(error) => format!(in alloc; "{error}")?,
    };
    assert_eq!(rt; found.as_str(), expected);
    Ok(())
}

#[test]
fn a_key_asks_for_its_own_settings_alone(rt: HostRuntime) -> Result<(), Fail> {
    let alloc = rt.alloc();
    let wrong = &[("CARGO_HTTP_TIMEOUT", "x")];
    let alias =
        "{\"alias\": Table({\"xa\": Single(Value { val: String(\"b\"), definition: Some(Path(\"/f\")) })})}";
    expect_asked(&rt, alloc, &["alias", "xa"], wrong, alias)?;
    expect_asked(&rt, alloc, &["alias"], wrong, alias)?;
    let error = "failed to parse environment variable `CARGO_HTTP_TIMEOUT`";
    expect_asked(&rt, alloc, &[], wrong, error)?;
    expect_asked(&rt, alloc, &["http"], wrong, error)?;
    expect_asked(&rt, alloc, &["http", "timeout"], wrong, error)?;
    expect_asked(&rt, alloc, &["http", "timeout", "below"], wrong, error)
}
