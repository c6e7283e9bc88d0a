//! Walks over tables of files, and over files that refuse memory.
use crate::low::base::made::{machine, must, text};
use cc2_base::files::{FileTable, Files, ReadFault};
use cc2_base::walk::Walk;
use cc2_error::error::{ErrorKind, NoMemory};
use std::alloc::Global;
use std::process::Abort;

// A table with empty files at these paths.
fn table(rt: &impl Abort, alloc: Global, paths: &[&str]) -> FileTable {
    let mut files = FileTable::new(alloc);
    for path in paths {
        must(rt, files.put(text(rt, alloc, path), Some(Vec::new(alloc))));
    }
    files
}

// Checks all that a walk gives.
fn expect_walked<F: Files>(rt: &impl Abort, walk: Walk<'_, F>, expected: &[&str]) {
    let mut walk = walk;
    for wanted in expected {
        match walk.next() {
            Some(Ok(path)) => assert!(rt; path.as_str() == *wanted, "{path}"),
            _ => panic!(rt; "no file"),
        }
    }
    assert!(rt; walk.next().is_none());
    assert!(rt; walk.next().is_none());
}

#[test]
fn the_machine_knows_the_home(rt: HostRuntime) {
    let alloc = rt.alloc();
    let files = table(&rt, alloc, &["/u/.cargo/config.toml"]);
    let home = machine(&rt, alloc, ("CARGO_HOME", b""), Some("/u"));
    let walk = must(&rt, Walk::new(alloc, "/p", &home, &files));
    expect_walked(&rt, walk, &["/u/.cargo/config.toml"]);
}

// A directory, a home, the files that are there, and what a walk gives.
struct Row {
    directory: &'static str,
    home: Option<&'static str>,
    files: &'static [&'static str],
    walked: &'static [&'static str],
}

const ROWS: &[Row] = &[
    Row {
        directory: "/p/a/b/c",
        home: Some("/p/a/.cargo"),
        files: &[
            "/p/a/.cargo/config",
            "/p/a/b/.cargo/config",
            "/p/a/b/.cargo/config.toml",
            "/p/a/b/c/.cargo/config.toml",
        ],
        walked: &[
            "/p/a/b/c/.cargo/config.toml",
            "/p/a/b/.cargo/config",
            "/p/a/.cargo/config",
        ],
    },
    Row {
        directory: ".",
        home: None,
        files: &["./.cargo/config.toml", ".cargo/config.toml"],
        walked: &["./.cargo/config.toml", ".cargo/config.toml"],
    },
];

#[test]
fn walks_over_tables(rt: HostRuntime) {
    let alloc = rt.alloc();
    for row in ROWS {
        let files = table(&rt, alloc, row.files);
        let home = match row.home {
            Some(home) => Some(text(&rt, alloc, home)),
            None => None,
        };
        let walk = Walk::with_cargo_home(alloc, row.directory, home, &files);
        expect_walked(&rt, walk, row.walked);
    }
}

// Files that find no memory.
#[derive(Drop)]
struct Full;

impl Files for Full {
    ghost use Rattle.std.specs.Prelude.{None};

    ghost told = { λ _ _. ⊥ };

    fn exists(&self, _path: &str) -> Result<bool, NoMemory> {
        Err(NoMemory)
    }

    fn read(&self, _alloc: Global, _path: &str) -> Result<Vec<u8>, ReadFault> {
        Err(ReadFault::Memory)
    }
}

#[test]
fn a_walk_ends_without_memory(rt: HostRuntime) {
    let alloc = rt.alloc();
    let home = Some(text(&rt, alloc, "/u"));
    let mut walk = Walk::with_cargo_home(alloc, "/p/q", home, &Full);
    match walk.next() {
        Some(Err(e)) => assert!(rt; matches!(e.kind(), ErrorKind::Memory)),
        _ => panic!(rt; "no refusal"),
    }
    assert!(rt; walk.next().is_none());
    assert_eq!(rt; Full.read(alloc, "/p"), Err(ReadFault::Memory));
}
