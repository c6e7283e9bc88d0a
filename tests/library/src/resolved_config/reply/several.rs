//! What several questions of a directory are replied.
use crate::resolved_config::reply::requests::{add_version, asking, of_one_file, replied};
use std::alloc::Global;
use std::result::Result;
use std::test::Fail;

const FILE: &str = "[build]
jobs = 4
rustc = 'bin/r'
target = ['a', 's/b.json']
rustflags = []
incremental = false
[target.t]
linker = 'l'
rustflags = 'x y'
";

// The reply to these words about the directory /p, whose one file has a table `build` and a target. Cargo and rustc tell
// their versions.
fn several(alloc: Global, words: &[&str]) -> Result<String, Fail> {
    by_file(alloc, words, FILE)
}

// The same by a file with this text.
fn by_file(alloc: Global, words: &[&str], text: &str) -> Result<String, Fail> {
    let mut request = of_one_file(alloc, words, text.as_bytes())?;
    add_version(
        &mut request,
        "cargo",
        b"cargo 1.90.2\nrelease: 1.90.2-nightly\nhost: h\n",
    )?;
    add_version(
        &mut request,
        "/p/bin/r",
        b"rustc 1.91.0\nrelease: 1.91.0\nhost: g\n",
    )?;
    replied(alloc, request.as_slice())
}

#[test]
fn the_table_build_has_its_paths_resolved(rt: HostRuntime) -> Result<(), Fail> {
    let reply = several(rt.alloc(), &["/p", "several", "build"])?;
    let wanted = "0 build.jobs = 4
build.rustc = \"/p/bin/r\"
build.target[0] = \"a\"
build.target[1] = \"/p/s/b.json\"
build.rustflags = []
build.incremental = false

";
    assert_eq!(rt; reply.as_str(), wanted);
    Ok(())
}

#[test]
fn each_item_has_its_lines(rt: HostRuntime) -> Result<(), Fail> {
    let alloc = rt.alloc();
    let reply = several(alloc, &["/p", "several", "rustc", "host", "target", "t"])?;
    let wanted = "0 rustc[0] = \"/p/bin/r\"

host = \"h\"

linker = \"l\"
rustflags[0] = \"x\"
rustflags[1] = \"y\"

";
    assert_eq!(rt; reply.as_str(), wanted);
    let reply = several(alloc, &["/p", "several", "rustc-version", "cargo-version"])?;
    let wanted = "0 rustc-version.major = 1
rustc-version.minor = 91
rustc-version.patch = 0
rustc-version.nightly = false

cargo-version.major = 1
cargo-version.minor = 90
cargo-version.patch = 2
cargo-version.nightly = true

";
    assert_eq!(rt; reply.as_str(), wanted);
    Ok(())
}

#[test]
fn a_target_may_have_no_lines_and_be_asked_twice(rt: HostRuntime) -> Result<(), Fail> {
    let words = [
        "/p", "several", "target", "u", "target", "build", "target", "u",
    ];
    let reply = by_file(rt.alloc(), &words, "[target.u]\nrunner = ['r/s', '-v']\n")?;
    let wanted = "0 runner[0] = \"/p/r/s\"
runner[1] = \"-v\"


runner[0] = \"/p/r/s\"
runner[1] = \"-v\"

";
    assert_eq!(rt; reply.as_str(), wanted);
    Ok(())
}

#[test]
fn choices_stand_above_the_file(rt: HostRuntime) -> Result<(), Fail> {
    let words = ["/p", "several", "rustc", "--config", "build.rustc = 'q'"];
    let reply = several(rt.alloc(), &words)?;
    assert_eq!(rt; reply.as_str(), "0 rustc[0] = \"q\"\n\n");
    Ok(())
}

#[test]
fn a_refusal_is_the_whole_answer(rt: HostRuntime) -> Result<(), Fail> {
    let alloc = rt.alloc();
    let reply = several(
        alloc,
        &["/p", "several", "rustc", "target", "/", "target", "cfg("],
    )?;
    assert_eq!(rt;
        reply.as_str(),
        "1 error: target spec path has no file name\n"
    );
    let words = ["/p", "several", "rustc", "build"];
    let reply = by_file(alloc, &words, "build.jobs = true\n")?;
    let wanted = "1 error: failed to parse `/p/.cargo/config.toml` as cargo configuration
cause: wrong type at `build.jobs`
";
    assert_eq!(rt; reply.as_str(), wanted);
    Ok(())
}

#[test]
fn other_words_ask_nothing(rt: HostRuntime) -> Result<(), Fail> {
    let alloc = rt.alloc();
    for word in ["--config", "target", "show", ""] {
        let reply = several(alloc, &["/p", "several", word])?;
        assert_eq!(rt; reply.as_str(), "2 ");
        let reply = several(alloc, &["/p", "several", "rustc", word])?;
        assert_eq!(rt; reply.as_str(), "2 ");
    }
    let reply = several(alloc, &["/p", "several"])?;
    assert_eq!(rt; reply.as_str(), "2 ");
    let reply = several(alloc, &["/p", "several", "--config", "build.jobs = 1"])?;
    assert_eq!(rt; reply.as_str(), "2 ");
    let words = [
        "/p",
        "several",
        "rustc",
        "--config",
        "build.jobs = 1",
        "rustc",
    ];
    let reply = several(alloc, &words)?;
    assert_eq!(rt; reply.as_str(), "2 ");
    Ok(())
}

#[test]
fn the_files_of_the_walk_are_needed(rt: HostRuntime) -> Result<(), Fail> {
    let alloc = rt.alloc();
    let request = asking(alloc, &["/p", "several", "rustc", "build"])?;
    let reply = replied(alloc, request.as_slice())?;
    assert_eq!(rt;
        reply.as_str(),
        "content /p/.cargo/config\ncontent /p/.cargo/config.toml\ncontent /.cargo/config\ncontent /.cargo/config.toml\n"
    );
    Ok(())
}
