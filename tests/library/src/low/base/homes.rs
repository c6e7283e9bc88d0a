//! Homes by what a machine has, and how a machine is shown.
use crate::low::base::made::{machine, must};
use cc2_base::home::{cargo_home_with_cwd, rustup_home_with_cwd};
use cc2_error::error::{Error, ErrorKind};
use std::alloc::Global;
use std::process::Abort;
use std::test::Fail;

#[test]
fn rustup_homes(rt: HostRuntime) {
    let alloc = rt.alloc();
    let machine = machine(&rt, alloc, ("RUSTUP_HOME", b"/r"), Some("/u"));
    let rustup = must(&rt, rustup_home_with_cwd(alloc, "/p", &machine));
    assert_eq!(rt; rustup.as_deref(), Some("/r"));
    let cargo = must(&rt, cargo_home_with_cwd(alloc, "/p", &machine));
    assert_eq!(rt; cargo.as_deref(), Some("/u/.cargo"));
}

// A variable, the home, and Cargo's home as it is seen from `/p`.
const ROWS: &[((&str, &[u8]), Option<&str>, Option<&str>)] = &[
    (("CARGO_HOME", b"h"), None, Some("/p/h")),
    (("CARGO_HOME", b""), Some("/u"), Some("/u/.cargo")),
    (("X", b""), Some(""), Some(".cargo")),
    (("X", b""), None, None),
];

#[test]
fn cargo_homes(rt: HostRuntime) {
    let alloc = rt.alloc();
    for (variable, home, expected) in ROWS {
        let machine = machine(&rt, alloc, *variable, *home);
        let found = must(&rt, cargo_home_with_cwd(alloc, "/p", &machine));
        assert_eq!(rt; found.as_deref(), *expected);
    }
}

// Checks that it is refused for a variable that isn't text.
fn expect_no_text(
    rt: &impl Abort,
    alloc: Global,
    found: Result<Option<String>, Error>,
    line: &str,
) -> Result<(), Fail> {
    match found {
        Ok(_) => panic!(rt; "a home"),
        Err(error) => {
            assert!(rt; matches!(error.kind(), ErrorKind::EnvNotText { .. }));
            let shown = error.to_string(alloc)?;
            assert_eq!(rt; shown.as_str(), line);
        }
    }
    Ok(())
}

#[test]
fn homes_that_are_no_text(rt: HostRuntime) -> Result<(), Fail> {
    let alloc = rt.alloc();
    let cargo = machine(&rt, alloc, ("CARGO_HOME", b"\x80"), Some("/u"));
    let found = cargo_home_with_cwd(alloc, "/p", &cargo);
    expect_no_text(
        &rt,
        alloc,
        found,
        "failed to parse environment variable `CARGO_HOME`",
    )?;
    let rustup = machine(&rt, alloc, ("RUSTUP_HOME", b"\x80"), Some("/u"));
    let found = rustup_home_with_cwd(alloc, "/p", &rustup);
    expect_no_text(
        &rt,
        alloc,
        found,
        "failed to parse environment variable `RUSTUP_HOME`",
    )
}

#[test]
fn a_machine_shows_no_value(rt: HostRuntime) -> Result<(), Fail> {
    let alloc = rt.alloc();
    let machine = machine(&rt, alloc, ("CARGO_REGISTRY_TOKEN", b"secret"), Some("/u"));
    let shown = format!(in alloc; "{machine:?}")?;
    assert_eq!(rt;
        shown.as_str(),
        "Machine { current_dir: \"/q\", env: [\"CARGO_REGISTRY_TOKEN\"], home: Some(\"/u\") }"
    );
    Ok(())
}
