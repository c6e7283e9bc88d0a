//! Versions, hosts and the targets of a build, asked for in turn.
use crate::resolved_config::asking::{Row, expect_answers};
use std::result::Result;
use std::test::Fail;

const OLD_CARGO: (&str, &str) = ("cargo -vV", "release: 1.70.0");

const NIGHTLY: &str = "release: 1.70.0-nightly\nhost: h\n";

const ROWS: &[Row] = &[
    Row {
        far: "",
        root: "",
        variable: ("", ""),
        said: &[OLD_CARGO],
        asks: &[
            (
                "host",
                "could not execute process `rustc -vV` (never executed)",
                2,
            ),
            (
                "cargo",
                "CargoVersion { major: 1, minor: 70, patch: 0, nightly: false }",
                2,
            ),
            (
                "rustc",
                "could not execute process `rustc -vV` (never executed)",
                5,
            ),
            (
                "targets",
                "could not execute process `rustc -vV` (never executed)",
                7,
            ),
        ],
    },
    Row {
        far: "",
        root: "",
        variable: ("", ""),
        said: &[OLD_CARGO, ("rustc -vV", "release: 1.70\nhost: h")],
        asks: &[
            ("host", "h", 2),
            ("host", "h", 2),
            (
                "rustc",
                "RustcVersion { major: 1, minor: 70, patch: None, nightly: false }",
                2,
            ),
            ("targets", " h", 2),
        ],
    },
    Row {
        far: "",
        root: "",
        variable: ("RUSTC_BOOTSTRAP", "-1"),
        said: &[("cargo -vV", NIGHTLY), ("rustc -vV", NIGHTLY)],
        asks: &[
            (
                "rustc",
                "RustcVersion { major: 1, minor: 70, patch: Some(0), nightly: false }",
                2,
            ),
            (
                "cargo",
                "CargoVersion { major: 1, minor: 70, patch: 0, nightly: true }",
                2,
            ),
            ("targets", " h", 2),
        ],
    },
    // the channel is all that is after the first hyphen
    Row {
        far: "",
        root: "",
        variable: ("", ""),
        said: &[("cargo -vV", "release: 1.70.0-nightly-x\nhost: h\n")],
        asks: &[(
            "cargo",
            "CargoVersion { major: 1, minor: 70, patch: 0, nightly: false }",
            1,
        )],
    },
    Row {
        far: "build.target = [\"a\", \"s/b.json\"]\nbuild.rustc-wrapper = \"w\"",
        root: "",
        variable: ("", ""),
        said: &[
            (
                "w rustc -Z unstable-options --print cfg --target d/x.json",
                "target_os=\"a\"\n",
            ),
            ("w rustc --print cfg --target x", "target_os=\"b\"\n"),
        ],
        asks: &[
            ("targets", " a /p/s/b.json", 0),
            ("command line", " a /p/s/b.json", 0),
            ("d/x.json", "a", 1),
            ("x", "b", 2),
            ("d/x.json", "a", 2),
            (
                "y",
                "could not execute process `w rustc --print cfg --target y` (never executed)",
                3,
            ),
        ],
    },
    // a host that rustc prints is kept
    Row {
        far: "",
        root: "",
        variable: ("", ""),
        said: &[OLD_CARGO, ("rustc -vV", "release: 1.70.0\nhost: h")],
        asks: &[("host", "h", 2), ("host", "h", 2)],
    },
    Row {
        far: "",
        root: "",
        variable: ("", ""),
        said: &[OLD_CARGO, ("rustc -vV", "release: 1.70.0")],
        asks: &[
            (
                "host",
                "unexpected version output from `rustc -vV`: release: 1.70.0",
                2,
            ),
            (
                "host",
                "unexpected version output from `rustc -vV`: release: 1.70.0",
                4,
            ),
        ],
    },
    Row {
        far: "",
        root: "",
        variable: ("", ""),
        said: &[
            ("cargo -vV", "release: 1.70.0-nightly"),
            ("rustc -vV", "release: 1.70.0-dev"),
        ],
        asks: &[
            (
                "rustc",
                "RustcVersion { major: 1, minor: 70, patch: Some(0), nightly: true }",
                2,
            ),
            (
                "cargo",
                "CargoVersion { major: 1, minor: 70, patch: 0, nightly: true }",
                2,
            ),
        ],
    },
    Row {
        far: "",
        root: "",
        variable: ("", ""),
        said: &[("rustc -vV", "release: 1.70.0-nightly")],
        asks: &[(
            "rustc",
            "RustcVersion { major: 1, minor: 70, patch: Some(0), nightly: true }",
            2,
        )],
    },
    Row {
        far: "",
        root: "",
        variable: ("", ""),
        said: &[
            ("cargo -vV", "release: 1.70"),
            ("rustc -vV", "release: 1.70"),
        ],
        asks: &[
            (
                "rustc",
                "RustcVersion { major: 1, minor: 70, patch: None, nightly: false }",
                2,
            ),
            (
                "cargo",
                "unexpected version output from `cargo -vV`: release: 1.70",
                5,
            ),
        ],
    },
    Row {
        far: "",
        root: "",
        variable: ("", ""),
        said: &[("cargo -vV", "release: +1.70.0\nhost: h")],
        asks: &[(
            "cargo",
            "CargoVersion { major: 1, minor: 70, patch: 0, nightly: false }",
            1,
        )],
    },
    Row {
        far: "",
        root: "",
        variable: ("", ""),
        said: &[
            ("cargo -vV", "release: 1.70.0.1"),
            ("rustc -vV", "release: 4294967296.0.0"),
        ],
        asks: &[
            (
                "cargo",
                "unexpected version output from `cargo -vV`: release: 1.70.0.1",
                3,
            ),
            (
                "rustc",
                "unexpected version output from `rustc -vV`: release: 4294967296.0.0",
                6,
            ),
        ],
    },
    // a host without a file name is none that is built for
    Row {
        far: "",
        root: "",
        variable: ("", ""),
        said: &[("cargo -vV", "release: 1.70.0\nhost: a/..")],
        asks: &[
            ("host", "a/..", 1),
            ("targets", "target spec path has no file name", 1),
            ("given targets", " y d/z.json", 1),
        ],
    },
    // a list without targets counts as none
    Row {
        far: "build.target = []",
        root: "",
        variable: ("", ""),
        said: &[("cargo -vV", "release: 1.70.0\nhost: h")],
        asks: &[
            ("given targets", " y d/z.json", 0),
            ("given on the command line", " y ./", 0),
            ("command line", "", 0),
            ("targets", " h", 1),
        ],
    },
    Row {
        far: "build.target = \"s/a.json\"",
        root: "",
        variable: ("", ""),
        said: &[],
        asks: &[
            ("command line", " /p/s/a.json", 0),
            ("targets", " /p/s/a.json", 0),
            ("given on the command line", " y ./", 0),
            ("given targets", " y d/z.json", 0),
        ],
    },
];

#[test]
fn versions_and_hosts_are_asked_once(rt: HostRuntime) -> Result<(), Fail> {
    expect_answers(&rt, rt.alloc(), ROWS)
}
