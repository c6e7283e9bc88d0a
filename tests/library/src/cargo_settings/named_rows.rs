//! What variables change at names that users choose, at `build.jobs` and at `build.target`.
use crate::cargo_settings::under_rows::{expect, machine, settings};
use cc2_cargo_settings::under_variables;
use std::alloc::Global;
use std::process::Abort;
use std::test::Fail;

// What is at a key under variables, where the key is asked for.
fn expect_asked(
    rt: &impl Abort,
    alloc: Global,
    text: &str,
    variables: &[(&str, &str)],
    asked: &[&str],
    expected: &str,
) -> Result<(), Fail> {
    let settings = settings(alloc, text, &[])?;
    let found = match under_variables(alloc, settings, &machine(alloc, variables)?, asked) {
        Ok(settings) => format!(in alloc; "{settings:?}")?,
        Err(error) => format!(in alloc; "{error:?}")?,
    };
    assert_eq!(rt; found.as_str(), expected);
    Ok(())
}

// A text that a variable sets at `TABLE.NAME.KEY`.
fn set(alloc: Global, path: (&str, &str, &str), text: &str, name: &str) -> Result<String, Fail> {
    let (table, middle, key) = path;
    Ok(format!(in alloc;
        "{{{table:?}: Table({{{middle:?}: Table({{{key:?}: Single(Value {{ val: String({text:?}), \
        definition: Some(Environment({name:?})) }})}})}})}}"
    )?)
}

#[test]
fn a_registry_is_set_by_its_name_in_upper_case(rt: HostRuntime) -> Result<(), Fail> {
    let alloc = rt.alloc();
    let name = "CARGO_REGISTRIES_MY_REG_INDEX";
    let index = ("registries", "my-reg", "index");
    let expected = set(alloc, index, "b", name)?;
    let file = "registries.my-reg.index = 'a'";
    expect_asked(&rt, alloc, file, &[(name, "b")], &[], expected.as_str())?;
    let asked = &["registries", "my-reg", "index"];
    expect_asked(&rt, alloc, "", &[(name, "b")], asked, expected.as_str())?;
    expect_asked(&rt, alloc, "", &[(name, "b")], &["registries"], "{}")?;
    let other = &["registries", "my-re", "index"];
    expect_asked(&rt, alloc, "", &[(name, "b")], other, "{}")
}

#[test]
fn an_alias_is_a_text_or_a_list(rt: HostRuntime) -> Result<(), Fail> {
    let alloc = rt.alloc();
    let variables = &[("CARGO_ALIAS_MY_AL", "b c")];
    let text = "{\"alias\": Table({\"my-al\": Single(Value { val: String(\"b c\"), \
        definition: Some(Environment(\"CARGO_ALIAS_MY_AL\")) })})}";
    expect(&rt, alloc, "alias.my-al = 'a'", &[], variables, text)?;
    let list = "{\"alias\": Table({\"my-al\": Array(RawArray { items: [\
        Value { val: String(\"a\"), definition: Some(Path(\"/f\")) }, \
        Value { val: String(\"b\"), definition: Some(Environment(\"CARGO_ALIAS_MY_AL\")) }, \
        Value { val: String(\"c\"), definition: Some(Environment(\"CARGO_ALIAS_MY_AL\")) }], \
        definition: None, turn: 0 })})}";
    expect(&rt, alloc, "alias.my-al = ['a']", &[], variables, list)
}

// What is at `build.KEY` alone.
fn build(alloc: Global, key: &str, shown: &str) -> Result<String, Fail> {
    Ok(format!(in alloc; "{{\"build\": Table({{{key:?}: {shown}}})}}")?)
}

#[test]
fn jobs_are_a_number_or_a_text(rt: HostRuntime) -> Result<(), Fail> {
    let alloc = rt.alloc();
    let three = "Single(Value { val: Integer(3), \
        definition: Some(Environment(\"CARGO_BUILD_JOBS\")) })";
    let three = build(alloc, "jobs", three)?;
    let by_three = &[("CARGO_BUILD_JOBS", "3")];
    for file in &[
        "",
        "build.jobs = 2",
        "build.jobs = true",
        "build.jobs = [1]",
    ] {
        expect(&rt, alloc, *file, &[], by_three, three.as_str())?;
    }
    let text = "Single(Value { val: String(\"default\"), \
        definition: Some(Environment(\"CARGO_BUILD_JOBS\")) })";
    let text = build(alloc, "jobs", text)?;
    let by_text = &[("CARGO_BUILD_JOBS", "default")];
    expect(&rt, alloc, "build.jobs = 2", &[], by_text, text.as_str())?;
    let wrong =
        "Error { kind: ParseFile(WrongType { path: [\"build\", \"jobs\"] }), context: None }";
    expect(&rt, alloc, "build.jobs = [1]", &[], by_text, wrong)?;
    for value in &["true", "3000000000"] {
        expect(&rt, alloc, "", &[], &[("CARGO_BUILD_JOBS", *value)], wrong)?;
    }
    let four = build(
        alloc,
        "jobs",
        "Single(Value { val: Integer(4), definition: Some(Cli(None)) })",
    )?;
    expect(&rt, alloc, "", &["build.jobs = 4"], by_three, four.as_str())
}

#[test]
fn a_target_stays_a_text_or_a_list(rt: HostRuntime) -> Result<(), Fail> {
    let alloc = rt.alloc();
    let variables = &[("CARGO_BUILD_TARGET", "b c")];
    let text = "Single(Value { val: String(\"b c\"), \
        definition: Some(Environment(\"CARGO_BUILD_TARGET\")) })";
    let text = build(alloc, "target", text)?;
    expect(
        &rt,
        alloc,
        "build.target = 'a'",
        &[],
        variables,
        text.as_str(),
    )?;
    let list = "Array(RawArray { items: [Value { val: String(\"b\"), \
        definition: Some(Environment(\"CARGO_BUILD_TARGET\")) }], definition: None, turn: 0 })";
    let list = build(alloc, "target", list)?;
    let variables = &[("CARGO_BUILD_TARGET", "b")];
    expect(
        &rt,
        alloc,
        "build.target = []",
        &[],
        variables,
        list.as_str(),
    )
}
