//! Values of any key as Cargo 1.95 read and merged them, seen with `cargo config get`.
use crate::cargo::row_files::files;
use cc2_cargo::load_paths;
use std::alloc::Global;
use std::process::Abort;
use std::test::Fail;

// What two files are merged to, or the error, as it is shown.
fn both(alloc: Global, near: &str, far: &str) -> Result<String, Fail> {
    let files = files(alloc, &[("near", near), ("far", far)])?;
    let mut paths = Vec::new(alloc);
    paths.push(String::from_str(alloc, "near")?)?;
    paths.push(String::from_str(alloc, "far")?)?;
    match load_paths(alloc, paths.as_slice(), &files) {
        Ok(loaded) => Ok(format!(in alloc; "{loaded:?}")?),
        Err(fault) => Ok(format!(in alloc; "{fault:?}")?),
    }
}

fn expect(
    rt: &impl Abort,
    alloc: Global,
    near: &str,
    far: &str,
    expected: &str,
) -> Result<(), Fail> {
    let found = both(alloc, near, far)?;
    assert_eq!(rt; found.as_str(), expected, "{near} over {far}");
    Ok(())
}

const NEARER_TEXT: &str =
    "{\"a\": Single(Value { val: String(\"x\"), definition: Some(Path(\"near\")) })}";

const FARTHER_TRUTH: &str =
    "{\"a\": Single(Value { val: Boolean(true), definition: Some(Path(\"far\")) })}";

#[test]
fn of_single_values_the_nearer_is_kept(rt: HostRuntime) -> Result<(), Fail> {
    let alloc = rt.alloc();
    expect(&rt, alloc, "a = 'x'", "a = 1", NEARER_TEXT)?;
    expect(&rt, alloc, "a = 'x'", "a = true", NEARER_TEXT)?;
    expect(&rt, alloc, "", "a = true", FARTHER_TRUTH)?;
    expect(
        &rt,
        alloc,
        "a = true",
        "",
        "{\"a\": Single(Value { val: Boolean(true), definition: Some(Path(\"near\")) })}",
    )
}

const JOINED: &str = "{\"a\": Array(RawArray { items: [\
    Value { val: Integer(1), definition: Some(Path(\"far\")) }, \
    Value { val: Integer(-2), definition: Some(Path(\"far\")) }, Value { val: String(\"x\"), definition: Some(Path(\"near\")) }, \
    Value { val: Boolean(true), definition: Some(Path(\"near\")) }], definition: Some(Path(\"near\")), turn: 0 })}";

// An empty array of the nearer file over another one.
const NO_ITEMS: &str =
    "{\"a\": Array(RawArray { items: [], definition: Some(Path(\"near\")), turn: 0 })}";

#[test]
fn arrays_are_joined(rt: HostRuntime) -> Result<(), Fail> {
    let alloc = rt.alloc();
    expect(&rt, alloc, "a = ['x', true]", "a = [1, -2]", JOINED)?;
    expect(&rt, alloc, "a = []", "a = []", NO_ITEMS)
}

const RELEASE: &str =
    "{\"profile\": Table({\"release\": Table({\"lto\": Single(Value { val: String(\"fat\"), \
    definition: Some(Path(\"far\")) }), \"package\": Table({\"*\": Table({\"opt-level\": Single(Value { val: Integer(3), \
    definition: Some(Path(\"near\")) })})})})})}";

#[test]
fn tables_merge_key_by_key(rt: HostRuntime) -> Result<(), Fail> {
    let alloc = rt.alloc();
    expect(
        &rt,
        alloc,
        "[profile.release.package.'*']\nopt-level = 3",
        "[profile.release]\nlto = 'fat'",
        RELEASE,
    )?;
    expect(
        &rt,
        alloc,
        "[a.b]",
        "[a]",
        "{\"a\": Table({\"b\": Table({})})}",
    )
}

#[test]
fn arrays_of_commands_are_replaced(rt: HostRuntime) -> Result<(), Fail> {
    let alloc = rt.alloc();
    expect_nearer(&rt, alloc, "credential-alias.x")?;
    expect_nearer(&rt, alloc, "doc.browser")?;
    expect_nearer(&rt, alloc, "host.runner")?;
    expect_nearer(&rt, alloc, "registries.r.credential-provider")?;
    expect_nearer(&rt, alloc, "registry.credential-provider")?;
    expect_nearer(&rt, alloc, "target.t.runner")
}

#[test]
fn arrays_near_commands_are_joined(rt: HostRuntime) -> Result<(), Fail> {
    let alloc = rt.alloc();
    expect_both(&rt, alloc, "credential-alias")?;
    expect_both(&rt, alloc, "credential-alias.x.y")?;
    expect_both(&rt, alloc, "doc.browser.x")?;
    expect_both(&rt, alloc, "host.t.runner")?;
    expect_both(&rt, alloc, "registries.credential-provider")?;
    expect_both(&rt, alloc, "registry.x.credential-provider")?;
    expect_both(&rt, alloc, "target.runner")?;
    expect_both(&rt, alloc, "target.t.u.runner")
}

// What is at a key that the nearer file has as `[1]` and the farther one as `[2]`.
fn items_at(alloc: Global, key: &str) -> Result<String, Fail> {
    let near = format!(in alloc; "{key} = [1]")?;
    let far = format!(in alloc; "{key} = [2]")?;
    both(alloc, near.as_str(), far.as_str())
}

fn expect_nearer(rt: &impl Abort, alloc: Global, key: &str) -> Result<(), Fail> {
    let found = items_at(alloc, key)?;
    assert!(rt; found.as_str().contains("Integer(1)"), "{key}: {found}");
    assert!(rt; !found.as_str().contains("Integer(2)"), "{key}: {found}");
    Ok(())
}

fn expect_both(rt: &impl Abort, alloc: Global, key: &str) -> Result<(), Fail> {
    let found = items_at(alloc, key)?;
    assert!(rt; found.as_str().contains("Integer(1)"), "{key}: {found}");
    assert!(rt; found.as_str().contains("Integer(2)"), "{key}: {found}");
    Ok(())
}

#[test]
fn arrays_may_have_arrays_and_tables(rt: HostRuntime) -> Result<(), Fail> {
    let alloc = rt.alloc();
    expect(
        &rt,
        alloc,
        "a = [[1, ['x']]]",
        "a = [{ b = true }]",
        "{\"a\": Array(RawArray { items: [\
        Value { val: Table({\"b\": Boolean(true)}), definition: Some(Path(\"far\")) }, \
        Value { val: Array([Integer(1), Array([String(\"x\")])]), definition: Some(Path(\"near\")) }], \
        definition: Some(Path(\"near\")), turn: 0 })}",
    )
}

// What two files are merged to has this part.
fn expect_part(
    rt: &impl Abort,
    alloc: Global,
    near: &str,
    far: &str,
    part: &str,
) -> Result<(), Fail> {
    let found = both(alloc, near, far)?;
    assert!(rt; found.as_str().contains(part), "{near} over {far}: {found}");
    Ok(())
}

#[test]
fn a_table_over_other_shapes(rt: HostRuntime) -> Result<(), Fail> {
    let alloc = rt.alloc();
    let over_single =
        "Layer(Mixed(Path(\"near\"), Error { kind: Merge { path: [\"a\"], expected: Table, found: String }";
    expect_part(&rt, alloc, "a.b = 1", "a = 1", over_single)?;
    let over_array = "path: [\"a\"], expected: Table, found: Array";
    expect_part(&rt, alloc, "a.b = 1", "a = ['x']", over_array)
}

#[test]
fn an_array_over_other_shapes(rt: HostRuntime) -> Result<(), Fail> {
    let alloc = rt.alloc();
    let over_single = "path: [\"a\"], expected: Array, found: String";
    expect_part(&rt, alloc, "a = ['x']", "a = 1", over_single)?;
    let over_table = "path: [\"a\"], expected: Array, found: Table";
    expect_part(&rt, alloc, "a = ['x']", "a.b = 1", over_table)
}

#[test]
fn a_single_value_over_other_shapes(rt: HostRuntime) -> Result<(), Fail> {
    let alloc = rt.alloc();
    let over_array = "path: [\"a\"], expected: String, found: Array";
    expect_part(&rt, alloc, "a = 1", "a = ['x']", over_array)?;
    let over_table = "path: [\"a\"], expected: String, found: Table";
    expect_part(&rt, alloc, "a = 1", "a.b = 1", over_table)
}

#[test]
fn floats_and_dates_are_refused(rt: HostRuntime) -> Result<(), Fail> {
    let alloc = rt.alloc();
    let at_key = "Layer(Value(Path(\"near\"), Error { kind: ParseFile(WrongType { path: [\"a\"] })";
    expect_part(&rt, alloc, "a = 1.5", "", at_key)?;
    expect_part(&rt, alloc, "a = [1.5]", "", at_key)?;
    expect_part(&rt, alloc, "a = [[1, [1.5]]]", "", at_key)?;
    expect_part(&rt, alloc, "a = ['x', { b = 1979-05-27 }]", "", at_key)?;
    expect_part(
        &rt,
        alloc,
        "a.b = 1979-05-27",
        "",
        "WrongType { path: [\"a\", \"b\"] }",
    )
}
