//! What the refusals print that no program shows.
use crate::low::base::made::{must, text};
use cc2_error::error::{CfgValueFault, Error, ErrorKind, NoMemory, Separator};
use std::alloc::Global;
use std::process::Abort;

// What an error prints, as `Display` says it.
fn text_of(alloc: Global, error: &Error) -> Result<String, NoMemory> {
    Ok(error.to_string(alloc)?)
}

// Checks what an error of this kind prints.
fn expect_line(rt: &impl Abort, alloc: Global, kind: ErrorKind, line: &str) {
    let shown = must(rt, text_of(alloc, &Error::new(kind)));
    assert!(rt; shown.as_str() == line, "{shown}");
}

// The kinds whose line is fixed, beside those that programs print.
fn lines() -> [(ErrorKind, &'static str); 4] {
    [
        (ErrorKind::Memory, "out of memory"),
        (
            ErrorKind::Separator(Separator::Unit),
            r"flag in rustflags must not contain its separator ('\u{1f}')",
        ),
        (
            ErrorKind::Separator(Separator::Space),
            "flag in rustflags must not contain its separator (' ')",
        ),
        (
            ErrorKind::BadSpelling {
                must: "must be git or sparse",
            },
            "must be git or sparse",
        ),
    ]
}

#[test]
fn lines_that_no_program_prints(rt: HostRuntime) {
    let alloc = rt.alloc();
    for (kind, line) in lines() {
        expect_line(&rt, alloc, kind, line);
    }
    for (fault, line) in [
        (
            CfgValueFault::Absent,
            "target_os cfg should be always available in cfg list from rustc --print cfg",
        ),
        (CfgValueFault::TooMany, "too many target_os cfg"),
        (
            CfgValueFault::Unreadable,
            "failed to parse value of target_os cfg",
        ),
    ] {
        let key = text(&rt, alloc, "target_os");
        expect_line(&rt, alloc, ErrorKind::CfgValue { key, fault }, line);
    }
}
