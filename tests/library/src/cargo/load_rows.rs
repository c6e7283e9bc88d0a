//! What files have with those that they include, as Cargo 1.95 merged and refused them.
use crate::cargo::row_files::files;
use cc2_base::files::FileTable;
use cc2_cargo::{LoadFault, Raw, load_paths};
use std::alloc::Global;
use std::collections::BTreeMap;
use std::process::Abort;
use std::test::Fail;

// What is loaded of these paths, or why nothing is, as it is shown.
fn shown(alloc: Global, files: &FileTable, paths: &[String]) -> Result<String, Fail> {
    match load_paths(alloc, paths, files) {
        Ok(loaded) => settings(alloc, loaded),
        Err(fault) => refused(alloc, fault),
    }
}

fn settings(alloc: Global, loaded: BTreeMap<String, Raw>) -> Result<String, Fail> {
    Ok(format!(in alloc; "{loaded:?}")?)
}

fn refused(alloc: Global, fault: LoadFault) -> Result<String, Fail> {
    Ok(format!(in alloc; "{fault:?}")?)
}

fn expect(
    rt: &impl Abort,
    alloc: Global,
    texts: &[(&str, &str)],
    paths: &[&str],
    expected: &str,
) -> Result<(), Fail> {
    let files = files(alloc, texts)?;
    let mut list = Vec::new(alloc);
    for path in paths {
        list.push(String::from_str(alloc, path)?)?;
    }
    let found = shown(alloc, &files, list.as_slice())?;
    assert_eq!(rt; found.as_str(), expected);
    Ok(())
}

const OWN_OVER_INCLUDED: &str =
    "{\"l\": Array(RawArray { items: [Value { val: String(\"c\"), definition: Some(Path(\"/p/c.toml\")) }, \
    Value { val: String(\"a\"), definition: Some(Path(\"/p/a.toml\")) }, \
    Value { val: String(\"own\"), definition: Some(Path(\"/p/own.toml\")) }], \
    definition: Some(Path(\"/p/c.toml\")), turn: 0 }), \
    \"x\": Single(Value { val: String(\"own\"), definition: Some(Path(\"/p/own.toml\")) }), \
    \"y\": Single(Value { val: String(\"b\"), definition: Some(Path(\"/p/b.toml\")) })}";

#[test]
fn a_file_is_stronger_than_what_it_includes(rt: HostRuntime) -> Result<(), Fail> {
    let alloc = rt.alloc();
    expect(
        &rt,
        alloc,
        &[
            (
                "/p/own.toml",
                "include = ['a.toml', 'b.toml']\nx = 'own'\nl = ['own']",
            ),
            (
                "/p/a.toml",
                "include = ['c.toml']\nx = 'a'\ny = 'a'\nl = ['a']",
            ),
            ("/p/b.toml", "x = 'b'\ny = 'b'"),
            ("/p/c.toml", "l = ['c']"),
        ],
        &["/p/own.toml"],
        OWN_OVER_INCLUDED,
    )?;
    expect(&rt, alloc, &[], &[], "{}")?;
    expect(&rt, alloc, &[("/a", "include = []")], &["/a"], "{}")
}

const NEARER_OVER_FARTHER: &str =
    "{\"k\": Single(Value { val: Integer(2), definition: Some(Path(\"/i.toml\")) }), \
    \"x\": Single(Value { val: Integer(1), definition: Some(Path(\"/near\")) })}";

#[test]
fn what_a_nearer_file_includes_is_stronger_than_a_farther_file(
    rt: HostRuntime,
) -> Result<(), Fail> {
    let alloc = rt.alloc();
    expect(
        &rt,
        alloc,
        &[
            ("/near", "include = ['i.toml']\nx = 1"),
            ("/i.toml", "k = 2\nx = 2"),
            ("/far", "include = ['i.toml']\nk = 3\nx = 3"),
        ],
        &["/near", "/far"],
        NEARER_OVER_FARTHER,
    )
}

#[test]
fn what_is_refused(rt: HostRuntime) -> Result<(), Fail> {
    let alloc = rt.alloc();
    expect(
        &rt,
        alloc,
        &[("/a", "include = 1")],
        &["/a"],
        "File(Include(\"/a\", NoArray))",
    )?;
    let float = files(alloc, &[("/a", "[b]\nx = 1.5")])?;
    let mut paths = Vec::new(alloc);
    paths.push(String::from_str(alloc, "/a")?)?;
    let found = shown(alloc, &float, paths.as_slice())?;
    assert!(rt;
        found.as_str().starts_with("Layer(Value(Path(\"/a\"), "),
        "{found}"
    );
    let mixed = files(alloc, &[("/a", "x = [1]"), ("/b", "[x]")])?;
    paths.push(String::from_str(alloc, "/b")?)?;
    let found = shown(alloc, &mixed, paths.as_slice())?;
    assert!(rt;
        found.as_str().starts_with("Layer(Mixed(Path(\"/a\"), "),
        "{found}"
    );
    Ok(())
}
