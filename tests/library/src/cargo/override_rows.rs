//! What files have under overrides, as Cargo 1.95 merged and refused them.
use crate::cargo::row_files::files;
use cc2_cargo::{LoadFault, load_with};
use std::alloc::Global;
use std::process::Abort;
use std::test::Fail;

fn texts(alloc: Global, list: &[&str]) -> Result<Vec<String>, Fail> {
    let mut texts = Vec::new(alloc);
    for text in list {
        texts.push(String::from_str(alloc, text)?)?;
    }
    Ok(texts)
}

// What is loaded in `/p` of these paths under these overrides, or why nothing is, as it is shown.
fn found(
    alloc: Global,
    held: &[(&str, &str)],
    paths: &[&str],
    overrides: &[&str],
) -> Result<String, Fail> {
    let files = files(alloc, held)?;
    let paths = texts(alloc, paths)?;
    let overrides = texts(alloc, overrides)?;
    let loaded = load_with(alloc, "/p", paths.as_slice(), overrides.as_slice(), &files);
    let shown = match loaded {
        Ok(loaded) => format!(in alloc; "{loaded:?}")?,
        Err(fault) => refused(alloc, fault)?,
    };
    Ok(shown)
}

fn refused(alloc: Global, fault: LoadFault) -> Result<String, Fail> {
    Ok(format!(in alloc; "{fault:?}")?)
}

fn expect(
    rt: &impl Abort,
    alloc: Global,
    held: &[(&str, &str)],
    paths: &[&str],
    overrides: &[&str],
    expected: &str,
) -> Result<(), Fail> {
    let found = found(alloc, held, paths, overrides)?;
    assert_eq!(rt; found.as_str(), expected);
    Ok(())
}

#[test]
fn a_text_is_stronger_than_files(rt: HostRuntime) -> Result<(), Fail> {
    let alloc = rt.alloc();
    let text = "{\"x\": Single(Value { val: Integer(1), definition: Some(Cli(None)) })}";
    expect(&rt, alloc, &[], &[], &["x = 1"], text)?;
    expect(&rt, alloc, &[("/f", "x = 2")], &["/f"], &["x = 1"], text)?;
    let file = "{\"x\": Single(Value { val: Integer(2), definition: Some(Path(\"/f\")) })}";
    expect(&rt, alloc, &[("/f", "x = 2")], &["/f"], &[], file)
}

#[test]
fn a_later_override_is_stronger(rt: HostRuntime) -> Result<(), Fail> {
    let alloc = rt.alloc();
    let last = "{\"x\": Single(Value { val: Integer(2), definition: Some(Cli(None)) })}";
    expect(&rt, alloc, &[], &[], &["x = 1", "x = 2"], last)?;
    let file =
        "{\"x\": Single(Value { val: Integer(3), definition: Some(Cli(Some(\"/p/o.toml\"))) })}";
    let held = &[("/p/o.toml", "x = 3")];
    expect(&rt, alloc, held, &[], &["x = 1", "o.toml"], file)?;
    let text = "{\"x\": Single(Value { val: Integer(1), definition: Some(Cli(None)) })}";
    expect(&rt, alloc, held, &[], &["o.toml", "x = 1"], text)
}

const JOINED: &str = "{\"l\": Array(RawArray { items: [\
    Value { val: Integer(1), definition: Some(Path(\"/f\")) }, \
    Value { val: Integer(2), definition: Some(Cli(Some(\"/p/i.toml\"))) }, \
    Value { val: Integer(3), definition: Some(Cli(Some(\"/p/o.toml\"))) }, \
    Value { val: Integer(4), definition: Some(Cli(None)) }], \
    definition: Some(Path(\"/f\")), turn: 0 })}";

#[test]
fn arrays_are_joined_from_low_to_high(rt: HostRuntime) -> Result<(), Fail> {
    let alloc = rt.alloc();
    let held = &[
        ("/f", "l = [1]"),
        ("/p/o.toml", "include = ['i.toml']\nl = [3]"),
        ("/p/i.toml", "l = [2]"),
    ];
    expect(&rt, alloc, held, &["/f"], &["o.toml", "l = [4]"], JOINED)
}

const INCLUDED: &str = "{\"l\": Array(RawArray { items: [\
    Value { val: Integer(1), definition: Some(Cli(Some(\"/p/d/a.toml\"))) }, \
    Value { val: Integer(2), definition: Some(Cli(Some(\"/p/b.toml\"))) }], \
    definition: Some(Cli(Some(\"/p/d/a.toml\"))), turn: 0 })}";

#[test]
fn a_text_includes_files_of_the_directory(rt: HostRuntime) -> Result<(), Fail> {
    let alloc = rt.alloc();
    let held = &[("/p/d/a.toml", "l = [1]"), ("/p/b.toml", "l = [2]")];
    let text = "include = ['d/a.toml', 'b.toml', { path = 'c.toml', optional = true }]";
    expect(&rt, alloc, held, &[], &[text], INCLUDED)?;
    // The files of texts are only compared among themselves.
    let once =
        "{\"x\": Single(Value { val: Integer(1), definition: Some(Cli(Some(\"/p/a.toml\"))) })}";
    let held = &[("/p/a.toml", "x = 1")];
    let text = "include = ['a.toml']";
    expect(&rt, alloc, held, &[], &["a.toml", text, text], once)?;
    let twice = "File(Twice(\"/p/a.toml\"))";
    let text = "include = ['a.toml', './a.toml']";
    expect(
        &rt,
        alloc,
        &[("/p/a.toml", ""), ("/p/./a.toml", "")],
        &[],
        &[text],
        twice,
    )
}

#[test]
fn a_file_is_read_once(rt: HostRuntime) -> Result<(), Fail> {
    let alloc = rt.alloc();
    let held = &[
        ("/p/a.toml", "include = ['i.toml']"),
        ("/p/b.toml", "include = ['i.toml']"),
        ("/p/i.toml", ""),
    ];
    let twice = "File(Twice(\"/p/a.toml\"))";
    expect(&rt, alloc, held, &[], &["a.toml", "a.toml"], twice)?;
    let twice = "File(Twice(\"/p/i.toml\"))";
    expect(&rt, alloc, held, &[], &["a.toml", "x = 1", "b.toml"], twice)?;
    // A walked file may be an override too.
    expect(&rt, alloc, held, &["/p/a.toml"], &["a.toml"], "{}")
}

#[test]
fn what_is_refused(rt: HostRuntime) -> Result<(), Fail> {
    let alloc = rt.alloc();
    expect(
        &rt,
        alloc,
        &[],
        &[],
        &["[a]"],
        "Override(\"[a]\", NoDottedKey)",
    )?;
    expect(&rt, alloc, &[], &[], &[""], "Override(\"\", NoDottedKey)")?;
    expect(
        &rt,
        alloc,
        &[],
        &[],
        &["include = 1"],
        "OverrideInclude(\"include = 1\", NoArray)",
    )?;
    expect(
        &rt,
        alloc,
        &[],
        &[],
        &["include = ['a.toml']"],
        "File(Unreadable(\"/p/a.toml\"))",
    )?;
    let found = found(alloc, &[("/f", "x = [1]")], &["/f"], &["x = 1"])?;
    assert!(rt;
        found.as_str().starts_with("Layer(Mixed(Cli(None), "),
        "{found}"
    );
    Ok(())
}
