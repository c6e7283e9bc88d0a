//! What files expand to with those that they include, as Cargo 1.95 merged and refused them.
use crate::cargo::row_files::files;
use cc2_cargo::{ConfigFile, FileFault, expanded};
use std::alloc::Global;
use std::process::Abort;
use std::test::Fail;

// The paths of the files that `/p/c.toml` expands to, the strongest first, or why they aren't read.
fn found(alloc: Global, texts: &[(&str, &str)]) -> Result<String, Fail> {
    let files = files(alloc, texts)?;
    match expanded(alloc, "/p/c.toml", &files) {
        Ok(list) => paths(alloc, list.as_slice()),
        Err(fault) => shown(alloc, &fault),
    }
}

fn paths(alloc: Global, list: &[ConfigFile]) -> Result<String, Fail> {
    let mut text = String::new(alloc);
    for file in list {
        text.push_str(file.path.as_str())?;
        text.push_str(" ")?;
    }
    Ok(text)
}

fn shown(alloc: Global, fault: &FileFault) -> Result<String, Fail> {
    let text = match fault {
        FileFault::Unreadable(path) => format!(in alloc; "{path} unreadable")?,
        FileFault::NotText(path) => format!(in alloc; "{path} not text")?,
        FileFault::NoToml(path, _) => format!(in alloc; "{path} no TOML")?,
        FileFault::Include(path, why) => format!(in alloc; "{path}: {why:?}")?,
        FileFault::Twice(path) => format!(in alloc; "{path} twice")?,
        FileFault::Memory => format!(in alloc; "memory")?,
    };
    Ok(text)
}

fn expect(
    rt: &impl Abort,
    alloc: Global,
    texts: &[(&str, &str)],
    expected: &str,
) -> Result<(), Fail> {
    let found = found(alloc, texts)?;
    assert_eq!(rt; found.as_str(), expected);
    Ok(())
}

#[test]
fn the_last_include_comes_next(rt: HostRuntime) -> Result<(), Fail> {
    let alloc = rt.alloc();
    expect(&rt, alloc, &[("/p/c.toml", "")], "/p/c.toml ")?;
    expect(
        &rt,
        alloc,
        &[
            ("/p/c.toml", "include = ['a.toml', 'b.toml']"),
            ("/p/a.toml", "include = ['d/c.toml']"),
            ("/p/b.toml", ""),
            ("/p/d/c.toml", "include = ['../e.toml', '/f.toml']"),
            ("/p/d/../e.toml", ""),
            ("/f.toml", ""),
        ],
        "/p/c.toml /p/b.toml /p/a.toml /p/d/c.toml /f.toml /p/d/../e.toml ",
    )
}

#[test]
fn a_file_may_be_absent(rt: HostRuntime) -> Result<(), Fail> {
    let alloc = rt.alloc();
    expect(
        &rt,
        alloc,
        &[
            (
                "/p/c.toml",
                "include = [{ path = 'a.toml', optional = true }, 'b.toml']",
            ),
            ("/p/b.toml", ""),
        ],
        "/p/c.toml /p/b.toml ",
    )?;
    expect(
        &rt,
        alloc,
        &[("/p/c.toml", "include = ['a.toml']")],
        "/p/a.toml unreadable",
    )?;
    expect(
        &rt,
        alloc,
        &[
            (
                "/p/c.toml",
                "include = [{ path = 'a.toml', optional = true }]",
            ),
            ("/p/a.toml", "x ="),
        ],
        "/p/a.toml no TOML",
    )
}

#[test]
fn a_file_is_included_once(rt: HostRuntime) -> Result<(), Fail> {
    let alloc = rt.alloc();
    for again in ["c.toml", "./c.toml", ".//c.toml", "/p/c.toml"] {
        let text = format!(in alloc; "include = ['{again}']")?;
        let twice = found(alloc, &[("/p/c.toml", text.as_str())])?;
        assert!(rt; twice.as_str().ends_with(" twice"), "{again}");
    }
    expect(
        &rt,
        alloc,
        &[
            ("/p/c.toml", "include = ['a.toml', 'b.toml']"),
            ("/p/a.toml", "include = ['d.toml']"),
            ("/p/b.toml", "include = ['d.toml']"),
            ("/p/d.toml", ""),
        ],
        "/p/d.toml twice",
    )?;
    // No `..` is followed, so this is another file.
    expect(
        &rt,
        alloc,
        &[
            ("/p/c.toml", "include = ['../p/a.toml', 'a.toml']"),
            ("/p/a.toml", ""),
            ("/p/../p/a.toml", ""),
        ],
        "/p/c.toml /p/a.toml /p/../p/a.toml ",
    )
}

#[test]
fn a_file_is_known_by_any_spelling(rt: HostRuntime) -> Result<(), Fail> {
    let alloc = rt.alloc();
    for again in [
        "a.toml",
        "./a.toml",
        ".//a.toml",
        "././a.toml",
        "/p/a.toml",
        "//p/./a.toml",
    ] {
        let text = format!(in alloc; "include = ['{again}', 'b.toml', 'a.toml']")?;
        let twice = found(
            alloc,
            &[
                ("/p/c.toml", text.as_str()),
                ("/p/a.toml", ""),
                ("/p/b.toml", ""),
            ],
        )?;
        assert!(rt; twice.as_str().ends_with(" twice"), "{again}");
    }
    // Names that are equal in different folders, and parts that read the same one after the other.
    expect(
        &rt,
        alloc,
        &[
            (
                "/p/c.toml",
                "include = ['a.toml', 'd/a.toml', 'e/a.toml', 'd/e/a.toml', 'de/a.toml', 'd/../a.toml']",
            ),
            ("/p/a.toml", ""),
            ("/p/d/a.toml", ""),
            ("/p/e/a.toml", ""),
            ("/p/d/e/a.toml", ""),
            ("/p/de/a.toml", ""),
            ("/p/d/../a.toml", ""),
        ],
        "/p/c.toml /p/d/../a.toml /p/de/a.toml /p/d/e/a.toml /p/e/a.toml /p/d/a.toml /p/a.toml ",
    )?;
    // A file that is absent isn't read, so it may be included again.
    expect(
        &rt,
        alloc,
        &[(
            "/p/c.toml",
            "include = [{ path = 'a.toml', optional = true }, { path = './a.toml', optional = true }]",
        )],
        "/p/c.toml ",
    )
}

#[test]
fn a_wrong_include_names_its_file(rt: HostRuntime) -> Result<(), Fail> {
    let alloc = rt.alloc();
    expect(
        &rt,
        alloc,
        &[
            ("/p/c.toml", "include = ['a.toml']"),
            ("/p/a.toml", "include = 'b.toml'"),
        ],
        "/p/a.toml: NoArray",
    )?;
    expect(
        &rt,
        alloc,
        &[("/p/c.toml", "include = ['a.toml', 'b']")],
        "/p/c.toml: WrongPath(1)",
    )
}
