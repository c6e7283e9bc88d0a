//! Tables, files and loads that are refused: of a table by its own line, of a file after a line that names it.
use crate::files::made::of_text;
use crate::files::outcomes::refusal;
use cc2_base::files::FileTable;
use cc2_de::Config;
use std::alloc::Global;
use std::result::Result;
use std::test::Fail;

// A text, and what its table is refused for; nothing where it is read.
const TABLES: &[(&str, &str)] = &[
    ("build = 3", "wrong type at `build`"),
    ("build.jobs = \"default\"", "wrong type at `build.jobs`"),
    (
        "build.rustflags = [\"a\", 1]",
        "wrong type at `build.rustflags`",
    ),
    ("env.N = { force = true }", "wrong type at `env.N.value`"),
    ("target.x.linker = 3", "wrong type at `target.x.linker`"),
    (
        "target.x.runner = \"\"",
        "invalid length 0, expected at least one element",
    ),
    ("target.x.y.linker = 3", ""),
    ("target.x.y.runner = \"\"", ""),
    (
        "registry.credential-provider = \"cargo:token x\"",
        "args should be empty for credential provider of kind \"cargo:token\"",
    ),
    (
        "registry.credential-provider = [\"cargo:token-from-stdout\"]",
        "invalid length 1, expected at least two elements for registry of kind \"cargo:token-from-stdout\"",
    ),
    (
        "registry.credential-provider = []",
        "invalid length 0, expected at least one element",
    ),
    ("registry.credential-provider = \"a b\"", ""),
    (
        "registry.global-credential-providers = \"x\"",
        "wrong type at `registry.global-credential-providers`",
    ),
    (
        "registry.global-credential-providers = [\"\"]",
        "invalid length 0, expected at least one element",
    ),
    ("registry.token = 3", "wrong type at `registry.token`"),
    ("http.timeout = 4294967295", ""),
    ("http.timeout = 4294967296", "wrong type at `http.timeout`"),
    ("net.retry = -1", "wrong type at `net.retry`"),
];

#[test]
fn tables_are_refused_without_context(rt: HostRuntime) -> Result<(), Fail> {
    let alloc = rt.alloc();
    for (text, expected) in TABLES {
        let found = refusal(alloc, of_text(alloc, *text))?;
        assert_eq!(rt; found.as_str(), *expected, "{text}");
    }
    Ok(())
}

// A file's bytes, none for a fault, and what it is refused for.
const FILES: &[(Option<&[u8]>, &str)] = &[
    (
        Some(b"[build"),
        "failed to parse `/f` as cargo configuration\nTOML parse error at line 1, column 7\nunclosed table, expected `]`",
    ),
    (Some(b"\xff"), "failed to read `/f`\nfile is not UTF-8"),
    (None, "failed to read `/f`\nfile cannot be read"),
    (
        Some(b"build.jobs = 'x'"),
        "failed to parse `/f` as cargo configuration\nwrong type at `build.jobs`",
    ),
    (Some(b"build.jobs = 1"), ""),
];

#[test]
fn files_are_refused_by_their_path(rt: HostRuntime) -> Result<(), Fail> {
    let alloc = rt.alloc();
    for (content, expected) in FILES {
        let mut files = FileTable::new(alloc);
        let bytes = match content {
            Some(content) => Some(Vec::from_slice(alloc, content)?),
            None => None,
        };
        files.put(String::from_str(alloc, "/f")?, bytes)?;
        let found = refusal(alloc, Config::load_file(alloc, "/f", &files))?;
        assert_eq!(rt; found.as_str(), *expected);
    }
    let none = FileTable::new(alloc);
    let found = refusal(alloc, Config::load_file(alloc, "/f", &none))?;
    assert_eq!(rt; found.as_str(), "failed to read `/f`\nfile cannot be read");
    Ok(())
}
