//! Three configurations merged two by two, in both groupings: one outcome, with no context where it is a refusal.
use crate::files::made::of_text;
use crate::files::outcomes::{merged, printed};
use cc2_de::Config;
use cc2_error::error::Error;
use std::alloc::Global;
use std::result::Result;
use std::test::Fail;

// Three texts, the nearest first, and what they come to.
const ROWS: &[([&str; 3], &str)] = &[
    (
        ["build.rustflags = [\"a\"]", "build.rustflags = [\"b\"]", ""],
        "[build]\nrustflags = [\"b\", \"a\"]\n",
    ),
    (
        ["build.rustflags = \"a\"", "build.rustflags = [\"b\"]", ""],
        "expected string, but found array",
    ),
    (
        ["", "build.rustflags = \"s\"", "build.rustflags = [\"t\"]"],
        "expected string, but found array",
    ),
    (
        [
            "env.X = { value = \"v\" }",
            "",
            "env.X = { value = \"w\", relative = true }",
        ],
        "[env.X]\nvalue = \"v\"\nrelative = true\n",
    ),
    (
        ["env.X = \"v\"", "", "env.X = { value = \"w\" }"],
        "expected string, but found table",
    ),
    (
        [
            "registry.global-credential-providers = [\"a\"]",
            "",
            "registry.global-credential-providers = [\"b\"]",
        ],
        "[registry]\nglobal-credential-providers = [\"b\", \"a\"]\n",
    ),
    (
        ["target.x.y = 3", "", "target.x.y.linker = \"l\""],
        "[target.x.y]\nlinker = \"l\"\n",
    ),
    (
        ["doc.browser = \"a\"", "", "doc.browser = [\"b\"]"],
        "[doc]\nbrowser = \"a\"\n",
    ),
    (
        [
            "registry.credential-provider = \"a\"",
            "registry.credential-provider = [\"b\", \"c\"]",
            "",
        ],
        "[registry]\ncredential-provider = \"a\"\n",
    ),
];

// The two nearer ones first.
fn nearer_first(alloc: Global, texts: &[&str; 3]) -> Result<Config, Error> {
    let high = merged(alloc, of_text(alloc, texts[0]), of_text(alloc, texts[1]));
    merged(alloc, high, of_text(alloc, texts[2]))
}

// The two farther ones first.
fn farther_first(alloc: Global, texts: &[&str; 3]) -> Result<Config, Error> {
    let low = merged(alloc, of_text(alloc, texts[1]), of_text(alloc, texts[2]));
    merged(alloc, of_text(alloc, texts[0]), low)
}

#[test]
fn both_groupings_come_to_the_same(rt: HostRuntime) -> Result<(), Fail> {
    let alloc = rt.alloc();
    for (texts, expected) in ROWS {
        let nearer = printed(alloc, nearer_first(alloc, texts))?;
        assert_eq!(rt; nearer.as_str(), *expected);
        let farther = printed(alloc, farther_first(alloc, texts))?;
        assert_eq!(rt; farther.as_str(), *expected);
    }
    Ok(())
}
