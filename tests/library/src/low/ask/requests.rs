//! What requests give, and which are none.
use crate::low::ask::made::{given, is_malformed, ran, record, record_of_two};
use cc2_ask::{Given, Known, KnownPaths, Need, Reply, push_field, write_front};
use cc2_base::programs::RunAnswer;
use std::alloc::Global;
use std::process::Abort;
use std::result::Result;
use std::test::Fail;

// What is known of a path, in a word.
fn known(paths: &KnownPaths, path: &str) -> &'static str {
    match paths.get(path) {
        None => "nothing",
        Some(Known::Reads(_)) => "reads",
        Some(Known::Unreadable) => "unreadable",
        Some(Known::Unread) => "unread",
        Some(Known::Absent) => "absent",
    }
}

// The text that a file is known to hold.
fn content<'a>(given: &'a Given, path: &str) -> &'a [u8] {
    match given.paths.get(path) {
        Some(Known::Reads(bytes)) => bytes.as_slice(),
        _ => b"-".as_slice(),
    }
}

// The status and the output of a command without arguments.
fn answered(given: &Given, program: &str) -> (Option<i32>, usize) {
    match given.runs.get(program, &[]) {
        Some(RunAnswer::Done { code, stdout, .. }) => (*code, stdout.len()),
        Some(RunAnswer::NotRun) => (Some(-1), 0),
        None => (Some(-2), 0),
    }
}

#[test]
fn the_empty_request_gives_nothing(rt: HostRuntime) -> Result<(), Fail> {
    let given = given(rt.alloc(), b"")?;
    assert!(rt; given.words.is_empty());
    assert_eq!(rt; given.machine.current_dir.as_str(), "");
    assert!(rt; given.machine.env.is_empty());
    assert!(rt; given.machine.home.is_none());
    assert_eq!(rt; known(&given.paths, "/p"), "nothing");
    Ok(())
}

#[test]
fn words_and_variables_come_in_their_order(rt: HostRuntime) -> Result<(), Fail> {
    let mut request = Vec::new(rt.alloc());
    record(&mut request, b'W', "/p")?;
    record_of_two(&mut request, b'V', "A", b"1")?;
    record(&mut request, b'W', "build")?;
    record_of_two(&mut request, b'V', "A", b"\xff")?;
    record(&mut request, b'C', "/q")?;
    record(&mut request, b'H', "/h")?;
    let given = given(rt.alloc(), request.as_slice())?;
    assert_eq!(rt; given.words.len(), 2);
    assert_eq!(rt; given.words[0].as_str(), "/p");
    assert_eq!(rt; given.words[1].as_str(), "build");
    assert_eq!(rt; given.machine.env.len(), 2);
    assert_eq!(rt; given.machine.env[1].0.as_str(), "A");
    assert!(rt; given.machine.env[1].1.as_slice() == b"\xff".as_slice());
    assert_eq!(rt; given.machine.current_dir.as_str(), "/q");
    assert!(rt; matches!(&given.machine.home, Some(home) if home.as_str() == "/h"));
    Ok(())
}

#[test]
fn each_kind_of_path_is_known(rt: HostRuntime) -> Result<(), Fail> {
    let mut request = Vec::new(rt.alloc());
    record_of_two(&mut request, b'F', "/f", b"text")?;
    record(&mut request, b'U', "/u")?;
    record(&mut request, b'T', "/t")?;
    record(&mut request, b'N', "/n")?;
    let given = given(rt.alloc(), request.as_slice())?;
    assert!(rt; content(&given, "/f") == b"text".as_slice());
    assert_eq!(rt; known(&given.paths, "/u"), "unreadable");
    assert_eq!(rt; known(&given.paths, "/t"), "unread");
    assert_eq!(rt; known(&given.paths, "/n"), "absent");
    Ok(())
}

#[test]
fn a_later_record_holds(rt: HostRuntime) -> Result<(), Fail> {
    let mut request = Vec::new(rt.alloc());
    record(&mut request, b'N', "/f")?;
    record_of_two(&mut request, b'F', "/f", b"text")?;
    ran(&mut request, "p", b"\x00", b"one")?;
    ran(&mut request, "p", b"\x07", b"second")?;
    record(&mut request, b'C', "/a")?;
    record(&mut request, b'C', "/b")?;
    let given = given(rt.alloc(), request.as_slice())?;
    assert!(rt; content(&given, "/f") == b"text".as_slice());
    assert!(rt; answered(&given, "p") == (Some(7), 6));
    assert_eq!(rt; given.machine.current_dir.as_str(), "/b");
    Ok(())
}

#[test]
fn programs_end_by_themselves_by_a_signal_or_never_start(rt: HostRuntime) -> Result<(), Fail> {
    let mut request = Vec::new(rt.alloc());
    ran(&mut request, "well", b"\x00", b"out")?;
    ran(&mut request, "killed", b"", b"")?;
    record(&mut request, b'X', "gone")?;
    cc2_ask::push_list(&mut request, &[])?;
    let given = given(rt.alloc(), request.as_slice())?;
    assert!(rt; answered(&given, "well") == (Some(0), 3));
    assert!(rt; answered(&given, "killed") == (None, 0));
    assert!(rt; answered(&given, "gone") == (Some(-1), 0));
    assert!(rt; answered(&given, "other") == (Some(-2), 0));
    Ok(())
}

#[test]
fn what_is_no_list_of_records_is_malformed(rt: HostRuntime) -> Result<(), Fail> {
    let alloc = rt.alloc();
    for request in [
        // no such kind
        b"Z\x00\x00\x00\x00".as_slice(),
        // the length ends, and the field
        b"W\x01\x00".as_slice(),
        b"W\x02\x00\x00\x00a".as_slice(),
        // no UTF-8
        b"W\x01\x00\x00\x00\xff".as_slice(),
        // a length beyond all memory
        b"W\xff\xff\xff\xffa".as_slice(),
        // something after the last record
        b"W\x01\x00\x00\x00aW".as_slice(),
        // a status of two bytes
        b"P\x01\x00\x00\x00p\x00\x00\x00\x00\x02\x00\x00\x00ab\x00\x00\x00\x00\x00\x00\x00\x00".as_slice(),
    ] {
        assert!(rt; is_malformed(alloc, request));
    }
    Ok(())
}

#[test]
fn replies_are_written_to_the_byte(rt: HostRuntime) -> Result<(), Fail> {
    let alloc = rt.alloc();
    let mut text = Vec::new(alloc);
    text.extend_from_slice(b"ok\n")?;
    let answer = Reply::Answer(1, text).to_bytes(alloc)?;
    assert!(rt; answer.as_slice() == b"A\x01\x03\x00\x00\x00ok\n".as_slice());
    let mut needs = Vec::new(alloc);
    needs.push(Need::Exists(String::from_str(alloc, "/e")?))?;
    needs.push(Need::Content(String::from_str(alloc, "/c")?))?;
    let asked = Reply::Needs(needs).to_bytes(alloc)?;
    assert!(rt; asked.as_slice() == b"E\x02\x00\x00\x00/eR\x02\x00\x00\x00/c".as_slice());
    Ok(())
}

#[test]
fn what_fits_of_a_reply_is_written(rt: HostRuntime) -> Result<(), Fail> {
    let alloc = rt.alloc();
    expect_front(&rt, alloc, b"abcd", b"ab")?;
    expect_front(&rt, alloc, b"a", b"a--")?;
    expect_front(&rt, alloc, b"", b"---")
}

// Checks what is in so much room, filled with `-`, when bytes were written to its front.
fn expect_front(rt: &impl Abort, alloc: Global, bytes: &[u8], expected: &[u8]) -> Result<(), Fail> {
    let mut room = Vec::new(alloc);
    for _ in expected {
        room.push(b'-')?;
    }
    write_front(bytes, room.as_mut_slice());
    assert!(rt; room.as_slice() == expected);
    Ok(())
}

#[test]
fn a_field_is_its_length_and_its_bytes(rt: HostRuntime) -> Result<(), Fail> {
    let mut out = Vec::new(rt.alloc());
    push_field(&mut out, b"abc")?;
    assert!(rt; out.as_slice() == b"\x03\x00\x00\x00abc".as_slice());
    Ok(())
}
