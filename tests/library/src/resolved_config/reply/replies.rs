//! What requests are replied to.
use crate::resolved_config::reply::requests::{add_absent, asking, of_one_file, replied};
use cc2_reply::reply_bytes;
use std::result::Result;
use std::test::Fail;

#[test]
fn a_tree_that_is_given_whole_is_answered(rt: HostRuntime) -> Result<(), Fail> {
    let alloc = rt.alloc();
    let request = of_one_file(alloc, &["/p", "build"], b"[build]\njobs = 4\n")?;
    let reply = replied(alloc, request.as_slice())?;
    assert_eq!(rt;
        reply.as_str(),
        "0 build.jobs = 4 # /p/.cargo/config.toml\n"
    );
    Ok(())
}

#[test]
fn a_refusal_is_answered(rt: HostRuntime) -> Result<(), Fail> {
    let alloc = rt.alloc();
    let request = of_one_file(alloc, &["/p", "rustc"], b"[build]\njobs = true\n")?;
    let reply = replied(alloc, request.as_slice())?;
    assert!(rt; reply.as_str().starts_with("1 error: "));
    Ok(())
}

#[test]
fn the_files_of_the_walk_are_needed(rt: HostRuntime) -> Result<(), Fail> {
    let alloc = rt.alloc();
    let request = asking(alloc, &["/p", "build"])?;
    let reply = replied(alloc, request.as_slice())?;
    assert_eq!(rt;
        reply.as_str(),
        "content /p/.cargo/config\ncontent /p/.cargo/config.toml\ncontent /.cargo/config\ncontent /.cargo/config.toml\n"
    );
    Ok(())
}

#[test]
fn what_a_program_answers_is_needed(rt: HostRuntime) -> Result<(), Fail> {
    let alloc = rt.alloc();
    let mut request = of_one_file(alloc, &["/p", "host"], b"")?;
    let beside = replied(alloc, request.as_slice())?;
    assert_eq!(rt; beside.as_str(), "exists rustc\n");
    add_absent(&mut request, &["rustc"])?;
    let reply = replied(alloc, request.as_slice())?;
    assert_eq!(rt; reply.as_str(), "answer cargo\n");
    Ok(())
}

#[test]
fn other_words_have_an_empty_answer(rt: HostRuntime) -> Result<(), Fail> {
    let alloc = rt.alloc();
    let request = asking(alloc, &["/p", "else"])?;
    let reply = replied(alloc, request.as_slice())?;
    assert_eq!(rt; reply.as_str(), "2 ");
    let none = replied(alloc, b"")?;
    assert_eq!(rt; none.as_str(), "2 ");
    Ok(())
}

#[test]
fn what_is_no_request_is_malformed(rt: HostRuntime) -> Result<(), Fail> {
    let alloc = rt.alloc();
    let reply = replied(alloc, b"?")?;
    assert_eq!(rt; reply.as_str(), "malformed");
    let bytes = reply_bytes(alloc, b"?")?;
    assert_eq!(rt; bytes.as_slice(), b"B".as_slice());
    Ok(())
}

#[test]
fn a_configuration_is_shown(rt: HostRuntime) -> Result<(), Fail> {
    let alloc = rt.alloc();
    let words = ["/p", "show", "--show-origin", "--format", "json"];
    let request = of_one_file(alloc, &words, b"[build]\njobs = 4\n")?;
    let reply = replied(alloc, request.as_slice())?;
    assert_eq!(rt;
        reply.as_str(),
        "0 {\"build\":{\"jobs\":{\"origin\":{\"file\":\"/p/.cargo/config.toml\"},\"value\":4}}}\n"
    );
    Ok(())
}

#[test]
fn what_stands_at_a_key_is_shown(rt: HostRuntime) -> Result<(), Fail> {
    let alloc = rt.alloc();
    let words = ["/p", "show", "build.jobs", "--config", "build.jobs = 5"];
    let request = of_one_file(alloc, &words, b"[build]\njobs = 4\n")?;
    let reply = replied(alloc, request.as_slice())?;
    assert_eq!(rt; reply.as_str(), "0 build.jobs = 5\n");
    Ok(())
}

#[test]
fn the_files_are_shown_as_toml(rt: HostRuntime) -> Result<(), Fail> {
    let alloc = rt.alloc();
    let request = of_one_file(alloc, &["/p", "show", "--files"], b"build.jobs = 4\n")?;
    let reply = replied(alloc, request.as_slice())?;
    assert_eq!(rt; reply.as_str(), "0 build.jobs = 4\n");
    Ok(())
}

#[test]
fn a_key_at_which_nothing_stands_is_answered(rt: HostRuntime) -> Result<(), Fail> {
    let alloc = rt.alloc();
    let request = of_one_file(alloc, &["/p", "show", "build.jobs"], b"")?;
    let reply = replied(alloc, request.as_slice())?;
    assert_eq!(rt;
        reply.as_str(),
        "1 error: config value `build.jobs` is not set\n"
    );
    Ok(())
}

#[test]
fn words_that_show_nothing_have_an_empty_answer(rt: HostRuntime) -> Result<(), Fail> {
    let alloc = rt.alloc();
    for word in ["--else", "a..b"] {
        let request = asking(alloc, &["/p", "show", word])?;
        let reply = replied(alloc, request.as_slice())?;
        assert_eq!(rt; reply.as_str(), "2 ");
    }
    Ok(())
}

#[test]
fn what_is_shown_needs_the_files_of_the_walk(rt: HostRuntime) -> Result<(), Fail> {
    let alloc = rt.alloc();
    let request = asking(alloc, &["/p", "show"])?;
    let reply = replied(alloc, request.as_slice())?;
    assert_eq!(rt;
        reply.as_str(),
        "content /p/.cargo/config\ncontent /p/.cargo/config.toml\ncontent /.cargo/config\ncontent /.cargo/config.toml\n"
    );
    Ok(())
}
