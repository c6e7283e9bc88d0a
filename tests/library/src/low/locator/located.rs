//! Keys that are looked up in a text.
use crate::low::made::texts;
use cc2_reports::Locator;
use std::alloc::Global;
use std::process::Abort;
use std::result::Result;
use std::test::Fail;

// Where the key of a path is in a text, as LINE:COLUMN, or `nowhere`.
fn located(alloc: Global, text: &str, path: &[&str]) -> Result<String, Fail> {
    let locator = Locator::read(alloc, text)?;
    let keys = texts(alloc, path)?;
    match locator.locate(alloc, keys.as_slice())? {
        Some(found) => Ok(format!(in alloc; "{}:{}", found.line, found.column)?),
        None => Ok(String::from_str(alloc, "nowhere")?),
    }
}

// Checks where the keys of these paths are in a text.
fn expect_located(
    rt: &impl Abort,
    alloc: Global,
    text: &str,
    rows: &[(&[&str], &str)],
) -> Result<(), Fail> {
    for (path, expected) in rows {
        let found = located(alloc, text, *path)?;
        assert_eq!(rt; found.as_str(), *expected);
    }
    Ok(())
}

#[test]
fn keys_stand_behind_headers_and_dots(rt: HostRuntime) -> Result<(), Fail> {
    let text =
        "a = 1\n\n[build]\njobs = 4\n  net.retry = 3 # x = 1\n[ target . 'cfg(unix)' ]\nlinker = \"l\"\n";
    let rows: [(&[&str], &str); 8] = [
        (&["a"], "1:1"),
        (&["build"], "3:2"),
        (&["build", "jobs"], "4:1"),
        (&["build", "net"], "5:3"),
        (&["build", "net", "retry"], "5:7"),
        (&["target"], "6:3"),
        (&["target", "cfg(unix)"], "6:13"),
        (&["target", "cfg(unix)", "linker"], "7:1"),
    ];
    expect_located(&rt, rt.alloc(), text, rows.as_slice())
}

#[test]
fn what_is_not_there_is_found_nowhere(rt: HostRuntime) -> Result<(), Fail> {
    let text = "[build]\njobs = 4\n# x = 1\ns = \"y = 1\"\n";
    let rows: [(&[&str], &str); 6] = [
        (&[], "nowhere"),
        (&["jobs"], "nowhere"),
        (&["build", "x"], "nowhere"),
        (&["build", "y"], "nowhere"),
        (&["build", "jobs", "4"], "nowhere"),
        (&["build\njobs"], "nowhere"),
    ];
    expect_located(&rt, rt.alloc(), text, rows.as_slice())
}

#[test]
fn inline_tables_and_arrays_are_looked_into(rt: HostRuntime) -> Result<(), Fail> {
    let text =
        "env = { A = \"x\", B = { value = 'y', force = true } }\nlist = [1,\n  [2], { k = 3 }]\nafter = 1\n";
    let rows: [(&[&str], &str); 6] = [
        (&["env", "A"], "1:9"),
        (&["env", "B"], "1:18"),
        (&["env", "B", "force"], "1:37"),
        (&["list"], "2:1"),
        (&["list", "k"], "3:10"),
        (&["after"], "4:1"),
    ];
    expect_located(&rt, rt.alloc(), text, rows.as_slice())
}

#[test]
fn texts_of_several_lines_are_passed_over(rt: HostRuntime) -> Result<(), Fail> {
    let text =
        "a = \"\"\"\nb = 1 \\\"\"\" c\n\"\"\"\"\"\nd = ''''\ne = 1\n'''\nf = \"\"\ng = 'h\"'\ni = 1\n";
    let rows: [(&[&str], &str); 7] = [
        (&["a"], "1:1"),
        (&["b"], "nowhere"),
        (&["d"], "4:1"),
        (&["e"], "nowhere"),
        (&["f"], "7:1"),
        (&["g"], "8:1"),
        (&["i"], "9:1"),
    ];
    expect_located(&rt, rt.alloc(), text, rows.as_slice())
}

#[test]
fn a_column_counts_characters(rt: HostRuntime) -> Result<(), Fail> {
    let text = "\u{e9} = { \"\u{1f600}b\" = 1, c = 2 }\r\nd = 1\n";
    let rows: [(&[&str], &str); 2] = [(&["d"], "2:1"), (&["\u{e9}"], "1:1")];
    expect_located(&rt, rt.alloc(), text, rows.as_slice())?;
    let quoted: [(&[&str], &str); 1] = [(&["\u{e9}", "c"], "1:17")];
    expect_located(&rt, rt.alloc(), text, quoted.as_slice())
}

#[test]
fn deep_paths_are_not_found(rt: HostRuntime) -> Result<(), Fail> {
    let text = "k.k.k.k.k.k.k.k.k = 1\n";
    let rows: [(&[&str], &str); 2] = [
        (&["k", "k", "k", "k", "k", "k", "k", "k"], "1:15"),
        (&["k", "k", "k", "k", "k", "k", "k", "k", "k"], "nowhere"),
    ];
    expect_located(&rt, rt.alloc(), text, rows.as_slice())
}

#[test]
fn the_first_of_a_path_stands(rt: HostRuntime) -> Result<(), Fail> {
    let text = "[[a]]\nb = 1\n[[a]]\nb = 2\n";
    let rows: [(&[&str], &str); 2] = [(&["a"], "1:3"), (&["a", "b"], "2:1")];
    expect_located(&rt, rt.alloc(), text, rows.as_slice())
}
