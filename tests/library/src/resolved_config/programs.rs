//! The settings of targets and cfg names, asked for in turn.
use crate::resolved_config::asking::{Row, expect_answers};
use std::result::Result;
use std::test::Fail;

const LISTED: (&str, &str) = (
    "rustc --print cfg --target x",
    "unix\ntarget_os=\"linux\"\n",
);

const ROWS: &[Row] = &[
    Row {
        far: "",
        root: "",
        variable: ("", ""),
        said: &[
            LISTED,
            ("rustc --print cfg --target y", "unix"),
            (
                "rustc --print cfg --target z",
                "target_os=\"b\"\ntarget_os=\"a\"",
            ),
        ],
        asks: &[
            ("x", "linux", 1),
            ("x", "linux", 1),
            (
                "y",
                "target_os cfg should be always available in cfg list from rustc --print cfg",
                2,
            ),
            ("z", "too many target_os cfg", 3),
            ("z", "too many target_os cfg", 3),
        ],
    },
    // the whole list, once it is found; what isn't found isn't known
    Row {
        far: "",
        root: "",
        variable: ("", ""),
        said: &[
            LISTED,
            (
                "rustc --print cfg --target z",
                "target_os=\"b\"\ntarget_os=\"a\"",
            ),
        ],
        asks: &[
            ("known z", "none", 0),
            ("found z", " a b", 1),
            ("found z", " a b", 1),
            ("known x", "none", 1),
            ("x", "linux", 2),
            ("known x", " linux", 2),
            ("copy", "", 2),
            ("known z", " a b", 2),
            (
                "found y",
                "could not execute process `rustc --print cfg --target y` (never executed)",
                3,
            ),
            ("known y", "none", 3),
        ],
    },
    // one list for the settings of a target and its cfg names, whichever is asked for first
    Row {
        far: "target.'cfg(all())'.linker = \"bin/ld\"\ntarget.x.rustflags = \"a b\"",
        root: "",
        variable: ("", ""),
        said: &[LISTED],
        asks: &[
            ("linker x", "/p/bin/ld", 1),
            ("x", "linux", 1),
            ("runner x", "none", 1),
            ("rustflags x", "a b", 1),
            ("rustdocflags x", "none", 1),
            ("target x", "/p/bin/ld", 1),
            ("copy", "", 1),
            ("target x", "/p/bin/ld", 1),
            ("x", "linux", 1),
        ],
    },
    Row {
        far: "target.'cfg(target_os = \"linux\")'.runner = \"r\"",
        root: "",
        variable: ("", ""),
        said: &[LISTED],
        asks: &[("x", "linux", 1), ("runner x", "r", 1)],
    },
    // by the text and not by the triple, and none is lost
    Row {
        far: "target.'cfg(unix)'.rustflags = \"u\"\ntarget.'cfg(windows)'.rustflags = \"w\"",
        root: "",
        variable: ("", ""),
        said: &[
            (
                "rustc -Z unstable-options --print cfg --target a/x.json",
                "unix",
            ),
            (
                "rustc -Z unstable-options --print cfg --target b/x.json",
                "windows",
            ),
        ],
        asks: &[
            ("rustflags a/x.json", "u", 1),
            ("rustflags b/x.json", "w", 2),
            ("rustflags a/x.json", "u", 2),
            (
                "printed",
                "[target.\"a/x.json\"]\nrustflags = [\"u\"]\n\n[target.\"b/x.json\"]\nrustflags = [\"w\"]\n",
                2,
            ),
        ],
    },
    // what was found before a refusal stays
    Row {
        far: "",
        root: "target.'cfg(unix)'.linker = \"a/l\"",
        variable: ("", ""),
        said: &[LISTED],
        asks: &[
            ("linker x", "no root above `/config.toml` for `a/l`", 1),
            ("x", "linux", 1),
            ("linker x", "no root above `/config.toml` for `a/l`", 1),
        ],
    },
    // no key asks
    Row {
        far: "target.x.linker = \"l\"\ntarget.'cfg()'.linker = \"m\"",
        root: "",
        variable: ("CARGO_TARGET_Y_RUNNER", "r s"),
        said: &[],
        asks: &[
            ("linker x", "l", 0),
            ("linker y", "none", 0),
            ("runner y", "r", 0),
        ],
    },
    // of a name without a default
    Row {
        far: "",
        root: "",
        variable: ("", ""),
        said: &[
            ("rustc --print cfg --target x", "target_os=\"linux\""),
            (
                "rustc --print cfg --target y",
                " unix \nx=\"\nx=\"\"\n=\"v\"\na=b\n",
            ),
        ],
        asks: &[
            ("x", "linux", 1),
            (
                "value x",
                "x cfg should be always available in cfg list from rustc --print cfg",
                1,
            ),
            ("value y", "\"\"", 2),
        ],
    },
    // one key, and either question first
    Row {
        far: "target.'cfg(all())'.linker = \"l\"",
        root: "",
        variable: ("", ""),
        said: &[("rustc --print cfg --target x", "target_os=\"linux\"")],
        asks: &[("linker x", "l", 1), ("x", "linux", 1)],
    },
    Row {
        far: "target.'cfg(all())'.linker = \"l\"",
        root: "",
        variable: ("", ""),
        said: &[("rustc --print cfg --target x", "target_os=\"linux\"")],
        asks: &[("x", "linux", 1), ("linker x", "l", 1)],
    },
    // a bad key refuses each query, though a variable gives the flags
    Row {
        far: "target.'cfg(a b)'.linker = \"l\"\ntarget.x.rustdocflags = \"d\"",
        root: "",
        variable: ("RUSTFLAGS", "q"),
        said: &[LISTED],
        asks: &[
            ("linker x", "a b\n  ^ expected one of `=`, `,`, `)` here", 0),
            ("runner x", "a b\n  ^ expected one of `=`, `,`, `)` here", 0),
            (
                "rustflags x",
                "a b\n  ^ expected one of `=`, `,`, `)` here",
                0,
            ),
            (
                "rustdocflags x",
                "a b\n  ^ expected one of `=`, `,`, `)` here",
                0,
            ),
            ("target x", "a b\n  ^ expected one of `=`, `,`, `)` here", 0),
        ],
    },
    Row {
        far: "target.x.rustflags = []\ntarget.x.rustdocflags = \"c  d\"\nbuild.rustflags = [\"z\"]",
        root: "",
        variable: ("", ""),
        said: &[],
        asks: &[("rustflags x", "z", 0), ("rustdocflags x", "c d", 0)],
    },
];

#[test]
fn programs_are_asked_once(rt: HostRuntime) -> Result<(), Fail> {
    expect_answers(&rt, rt.alloc(), ROWS)
}
