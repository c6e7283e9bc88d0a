//! Values of `include` that Cargo 1.95 took, and those that it refused.
use cc2_cargo::{Include, includes};
use std::alloc::Global;
use std::process::Abort;
use std::test::Fail;

// What a file with this text includes, or the fault.
fn found(alloc: Global, text: &str) -> Result<String, Fail> {
    let table = toml::table_from_str(alloc, text)?;
    match includes(alloc, &table) {
        Ok(list) => shown(alloc, list.as_slice()),
        Err(fault) => Ok(format!(in alloc; "{fault:?}")?),
    }
}

// The paths, each after `?` where the file may be absent.
fn shown(alloc: Global, list: &[Include]) -> Result<String, Fail> {
    let mut text = String::new(alloc);
    for include in list {
        text.push_str(if include.optional { " ?" } else { " " })?;
        text.push_str(include.path.as_str())?;
    }
    Ok(text)
}

fn expect(rt: &impl Abort, alloc: Global, text: &str, expected: &str) -> Result<(), Fail> {
    let found = found(alloc, text)?;
    assert_eq!(rt; found.as_str(), expected, "{text}");
    Ok(())
}

#[test]
fn files_are_included_in_their_order(rt: HostRuntime) -> Result<(), Fail> {
    let alloc = rt.alloc();
    expect(&rt, alloc, "", "")?;
    expect(&rt, alloc, "include = []", "")?;
    expect(
        &rt,
        alloc,
        "include = ['b.toml', '../a.toml', '/c/d.toml']",
        " b.toml ../a.toml /c/d.toml",
    )?;
    expect(
        &rt,
        alloc,
        "include = [{ path = 'a.toml' }, './b.c.toml']",
        " a.toml ./b.c.toml",
    )?;
    expect(
        &rt,
        alloc,
        "include = [{ path = 'a.toml', optional = true, x = 1 }]",
        " ?a.toml",
    )?;
    expect(
        &rt,
        alloc,
        "include = [{ path = 'a.toml', optional = false }]",
        " a.toml",
    )
}

#[test]
fn other_values_are_refused(rt: HostRuntime) -> Result<(), Fail> {
    let alloc = rt.alloc();
    expect(&rt, alloc, "include = 'a.toml'", "NoArray")?;
    expect(&rt, alloc, "include = { path = 'a.toml' }", "NoArray")?;
    expect(&rt, alloc, "include = ['a.toml', 1]", "WrongType(1)")?;
    expect(&rt, alloc, "include = [['a.toml']]", "WrongType(0)")?;
    expect(
        &rt,
        alloc,
        "include = [{ optional = true }]",
        "WrongType(0)",
    )?;
    expect(
        &rt,
        alloc,
        "include = [{ path = 'a.toml', optional = 1 }]",
        "WrongType(0)",
    )
}

#[test]
fn other_paths_are_refused(rt: HostRuntime) -> Result<(), Fail> {
    let alloc = rt.alloc();
    expect(&rt, alloc, "include = ['']", "WrongPath(0)")?;
    expect(&rt, alloc, "include = ['a.toml', '.toml']", "WrongPath(1)")?;
    expect(&rt, alloc, "include = ['a.tomlx']", "WrongPath(0)")?;
    expect(&rt, alloc, "include = ['a/']", "WrongPath(0)")?;
    expect(&rt, alloc, "include = ['*.toml']", "WrongPath(0)")?;
    expect(&rt, alloc, "include = ['{a.toml']", "WrongPath(0)")?;
    expect(
        &rt,
        alloc,
        "include = [{ path = 'a?.toml', optional = true }]",
        "WrongPath(0)",
    )
}
