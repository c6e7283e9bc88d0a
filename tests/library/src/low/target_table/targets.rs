//! Target tables, read from literal texts, looked into and merged.
use cc2_leaf::{Decode, Merge};
use cc2_target_table::{Nested, TargetConfig};
use std::alloc::Global;
use std::process::Abort;
use std::result::Result;
use std::test::Fail;

// The table of this text, which is at the key `x`.
fn read(alloc: Global, text: &str) -> Result<TargetConfig, Fail> {
    let value = toml::Value::Table(toml::table_from_str(alloc, text)?);
    read_value(alloc, &value)
}

// The table that a value is, which is at the key `x`.
fn read_value(alloc: Global, value: &toml::Value) -> Result<TargetConfig, Fail> {
    Ok(TargetConfig::decode(alloc, value, "x")?)
}

// The tables of two texts merged, the near one first.
fn merged(alloc: Global, near: &str, far: &str) -> Result<TargetConfig, Fail> {
    let near = read(alloc, near)?;
    let far = read(alloc, far)?;
    Ok(near.merge(alloc, far)?)
}

// What is below a key.
fn below(table: &TargetConfig, key: &str) -> &'static str {
    match table.nested(key) {
        None => "nothing",
        Some(Nested::Table(_)) => "table",
        Some(Nested::Undecoded) => "undecoded",
    }
}

// Checks what is below a key.
fn expect_below(rt: &impl Abort, table: &TargetConfig, key: &str, what: &str) {
    assert_eq!(rt; below(table, key), what);
}

// Checks that the linker is `l`, and that there is a table below `y`.
fn expect_linker_and_table(rt: &impl Abort, table: &TargetConfig) {
    expect_below(rt, table, "y", "table");
    assert!(rt; matches!(&table.linker, Some(linker) if linker.val.as_str() == "l"));
}

#[test]
fn the_other_grouping_gives_the_same(rt: HostRuntime) -> Result<(), Fail> {
    let alloc = rt.alloc();
    let near = read(alloc, "y = 3")?;
    let far = merged(alloc, "linker = \"l\"", "[y]\nlinker = \"m\"")?;
    let all = near.merge(alloc, far)?;
    expect_linker_and_table(&rt, &all);
    Ok(())
}

#[test]
fn an_empty_table_has_nothing(rt: HostRuntime) -> Result<(), Fail> {
    let empty = TargetConfig::empty(rt.alloc());
    assert!(rt; empty.linker.is_none());
    expect_below(&rt, &empty, "y", "nothing");
    Ok(())
}

#[test]
fn an_empty_table_takes_what_is_far(rt: HostRuntime) -> Result<(), Fail> {
    let alloc = rt.alloc();
    let far = read(alloc, "[y]\nlinker = \"l\"")?;
    let all = TargetConfig::empty(alloc).merge(alloc, far)?;
    expect_below(&rt, &all, "y", "table");
    Ok(())
}

#[test]
fn what_does_not_read_below_is_a_mark(rt: HostRuntime) -> Result<(), Fail> {
    let alloc = rt.alloc();
    for text in ["y = 3", "[y]\nlinker = 3", "[y]\nrunner = \"\""] {
        let table = read(alloc, text)?;
        expect_below(&rt, &table, "y", "undecoded");
    }
    Ok(())
}
