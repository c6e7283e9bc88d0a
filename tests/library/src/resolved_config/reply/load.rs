//! What a load is replied, and items by the state that it leaves.
use crate::resolved_config::reply::requests::{add_version, asking, of_one_file, replied};
use cc2_ask::{Reply, push_field};
use cc2_reply::reply_to;
use std::alloc::Global;
use std::result::Result;
use std::test::Fail;

const FILE: &str = "[build]
rustc = 'bin/r'
rustflags = ['-b']
[target.t]
linker = 'l'
runner = ['r', 'x']
rustflags = 'x y'
[target.'cfg(unix)']
rustflags = ['u']
";

// The cells and the state of a load from /p, whose one file has this text; nothing where the reply is another one.
fn loaded(alloc: Global, text: &str) -> Result<(Vec<u8>, Vec<u8>), Fail> {
    let request = of_one_file(alloc, &["/p", "load"], text.as_bytes())?;
    match reply_to(alloc, request.as_slice()) {
        Ok(Reply::Loaded(cells, state)) => Ok((cells, state)),
        _ => Ok((Vec::new(alloc), Vec::new(alloc))),
    }
}

// Adds what cargo, rustc and the latter's cfg print.
fn add_programs(request: &mut Vec<u8>) -> Result<(), Fail> {
    add_version(
        request,
        "cargo",
        b"cargo 1.90.2\nrelease: 1.90.2\nhost: h\n",
    )?;
    add_version(
        request,
        "/p/bin/r",
        b"rustc 1.91.0\nrelease: 1.91.0\nhost: g\n",
    )?;
    request.push(b'P')?;
    push_field(request, b"/p/bin/r")?;
    request.extend_from_slice(&[4, 0, 0, 0])?;
    for arg in ["--print", "cfg", "--target", "t"] {
        push_field(request, arg.as_bytes())?;
    }
    push_field(request, &[0])?;
    push_field(request, b"unix\n")?;
    Ok(push_field(request, b"")?)
}

// The reply to these words by a state, without a file.
fn by_state(alloc: Global, words: &[&str], state: &[u8]) -> Result<String, Fail> {
    let mut request = asking(alloc, words)?;
    request.push(b'S')?;
    push_field(&mut request, state)?;
    add_programs(&mut request)?;
    replied(alloc, request.as_slice())
}

#[test]
fn a_load_gives_cells(rt: HostRuntime) -> Result<(), Fail> {
    let (cells, state) = loaded(rt.alloc(), "[build]\njobs = 4\n")?;
    let wanted =
        b"\x02\x00\x00\x00f\x05\x00\x00\x00buildf\x04\x00\x00\x00jobsi\x00\x04\x00\x00\x00";
    assert_eq!(rt; cells.as_slice(), wanted.as_slice());
    assert_eq!(rt; state.is_empty(), false);
    Ok(())
}

#[test]
fn items_by_a_state_are_those_by_the_files(rt: HostRuntime) -> Result<(), Fail> {
    let alloc = rt.alloc();
    let words = [
        "/p",
        "several",
        "rustc",
        "host",
        "target",
        "t",
        "rustc-version",
        "cfg",
        "t",
        "unix",
    ];
    let (_, state) = loaded(alloc, FILE)?;
    let mut request = of_one_file(alloc, &words, FILE.as_bytes())?;
    add_programs(&mut request)?;
    let by_files = replied(alloc, request.as_slice())?;
    let found = by_state(alloc, &words, state.as_slice())?;
    assert_eq!(rt; found.as_str(), by_files.as_str());
    let found = by_state(alloc, &["/p", "several", "target", "t"], state.as_slice())?;
    let wanted = "0 linker = \"l\"
runner[0] = \"r\"
runner[1] = \"x\"
rustflags[0] = \"x\"
rustflags[1] = \"y\"
rustflags[2] = \"u\"

";
    assert_eq!(rt; found.as_str(), wanted);
    Ok(())
}

#[test]
fn other_words_and_bytes_are_no_question(rt: HostRuntime) -> Result<(), Fail> {
    let alloc = rt.alloc();
    let (_, state) = loaded(alloc, FILE)?;
    let found = by_state(alloc, &["/p", "several", "build"], state.as_slice())?;
    assert_eq!(rt; found.as_str(), "2 ");
    let found = by_state(alloc, &["/p", "several", "rustc"], b"no state")?;
    assert_eq!(rt; found.as_str(), "2 ");
    let request = of_one_file(alloc, &["/p", "load", "--config"], FILE.as_bytes())?;
    let found = replied(alloc, request.as_slice())?;
    assert_eq!(rt; found.as_str(), "2 ");
    Ok(())
}

#[test]
fn nested_tables_leave_no_state(rt: HostRuntime) -> Result<(), Fail> {
    let (cells, state) = loaded(
        rt.alloc(),
        "[build]\njobs = 4\n[target.a.b]\nlinker = 'l'\n",
    )?;
    assert_eq!(rt; cells.is_empty(), false);
    assert_eq!(rt; state.is_empty(), true);
    Ok(())
}
