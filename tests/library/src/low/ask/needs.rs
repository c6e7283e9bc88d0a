//! What has to be known next: of files and programs that a request gives, and for a reply.
use crate::low::ask::made::{given, ran, record, record_of_two};
use cc2_ask::{AskedFiles, AskedPrograms, Need, needs_for};
use cc2_base::files::{Files, ReadFault};
use cc2_base::programs::{Programs, RunAnswer};
use cc2_error::path_and_args::PathAndArgs;
use std::alloc::Global;
use std::result::Result;
use std::test::Fail;

// A need in a line: what is asked, and of what.
fn asked(alloc: Global, need: Option<Need>) -> Result<String, Fail> {
    match need {
        None => Ok(String::from_str(alloc, "nothing")?),
        Some(Need::Exists(path)) => Ok(format!(in alloc; "exists {path}")?),
        Some(Need::Content(path)) => Ok(format!(in alloc; "content {path}")?),
        Some(Need::Answer(command)) => command_asked(alloc, &command),
    }
}

fn command_asked(alloc: Global, command: &PathAndArgs) -> Result<String, Fail> {
    let mut line = format!(in alloc; "answer {}", command.path)?;
    for arg in &command.args {
        line.push_str(" ")?;
        line.push_str(arg.as_str())?;
    }
    Ok(line)
}

// All needs for this one by a request, each in a line; `refused` where there is none.
fn needed(alloc: Global, request: &[u8], need: Need) -> Result<String, Fail> {
    let given = given(alloc, request)?;
    let mut others = Vec::new(alloc);
    others.push(String::from_str(alloc, "/x")?)?;
    let mut lines = String::new(alloc);
    match needs_for(alloc, &given, "/p", others.as_slice(), need) {
        Ok(needs) => {
            for need in needs {
                lines.push_str(asked(alloc, Some(need))?.as_str())?;
                lines.push_str("\n")?;
            }
        }
        Err(_) => lines.push_str("refused\n")?,
    }
    Ok(lines)
}

// The answer to whether something is at a path, in a word.
fn stands<F: Files>(files: &F, path: &str) -> &'static str {
    match files.exists(path) {
        Ok(true) => "there",
        Ok(false) => "absent",
        Err(_) => "refused",
    }
}

// How a path is read, in a word.
fn reads<F: Files>(alloc: Global, files: &F, path: &str) -> &'static str {
    match files.read(alloc, path) {
        Ok(_) => "read",
        Err(ReadFault::Unreadable) => "unreadable",
        Err(ReadFault::Memory) => "refused",
    }
}

#[test]
fn files_that_are_given_are_answered(rt: HostRuntime) -> Result<(), Fail> {
    let alloc = rt.alloc();
    let mut request = Vec::new(alloc);
    record_of_two(&mut request, b'F', "/f", b"text")?;
    record(&mut request, b'U', "/u")?;
    record(&mut request, b'N', "/n")?;
    let given = given(alloc, request.as_slice())?;
    let mut files = AskedFiles::new(alloc, &given.paths);
    assert_eq!(rt; stands(&files, "/f"), "there");
    assert_eq!(rt; stands(&files, "/u"), "there");
    assert_eq!(rt; stands(&files, "/n"), "absent");
    assert_eq!(rt; reads(alloc, &files, "/f"), "read");
    assert_eq!(rt; reads(alloc, &files, "/u"), "unreadable");
    assert_eq!(rt; reads(alloc, &files, "/n"), "unreadable");
    let need = asked(alloc, files.take_need())?;
    assert_eq!(rt; need.as_str(), "nothing");
    Ok(())
}

#[test]
fn what_is_not_known_of_files_is_needed(rt: HostRuntime) -> Result<(), Fail> {
    let alloc = rt.alloc();
    let mut request = Vec::new(alloc);
    record(&mut request, b'T', "/t")?;
    let given = given(alloc, request.as_slice())?;
    let mut files = AskedFiles::new(alloc, &given.paths);
    assert_eq!(rt; stands(&files, "/t"), "there");
    assert_eq!(rt; reads(alloc, &files, "/t"), "refused");
    let content = asked(alloc, files.take_need())?;
    assert_eq!(rt; content.as_str(), "content /t");
    assert_eq!(rt; stands(&files, "/other"), "refused");
    let exists = asked(alloc, files.take_need())?;
    assert_eq!(rt; exists.as_str(), "exists /other");
    let taken = asked(alloc, files.take_need())?;
    assert_eq!(rt; taken.as_str(), "nothing");
    Ok(())
}

#[test]
fn programs_answer_what_is_given(rt: HostRuntime) -> Result<(), Fail> {
    let alloc = rt.alloc();
    let mut request = Vec::new(alloc);
    ran(&mut request, "p", b"\x05", b"out")?;
    let given = given(alloc, request.as_slice())?;
    let mut programs = AskedPrograms::new(&given.runs);
    assert!(rt;
        matches!(
            programs.run(alloc, "p", &[])?,
            RunAnswer::Done { code: Some(5), .. }
        )
    );
    let none = asked(alloc, programs.take_need())?;
    assert_eq!(rt; none.as_str(), "nothing");
    let mut args = Vec::new(alloc);
    args.push(String::from_str(alloc, "-vV")?)?;
    assert!(rt; programs.run(alloc, "p", args.as_slice()).is_err());
    let need = asked(alloc, programs.take_need())?;
    assert_eq!(rt; need.as_str(), "answer p -vV");
    Ok(())
}

#[test]
fn all_files_of_a_walk_are_needed_at_once(rt: HostRuntime) -> Result<(), Fail> {
    let alloc = rt.alloc();
    let mut request = Vec::new(alloc);
    record(&mut request, b'W', "/p")?;
    record(&mut request, b'H', "/h")?;
    record(&mut request, b'N', "/p/.cargo/config.toml")?;
    let need = Need::Exists(String::from_str(alloc, "/p/.cargo/config")?);
    let lines = needed(alloc, request.as_slice(), need)?;
    assert_eq!(rt;
        lines.as_str(),
        "content /p/.cargo/config\ncontent /.cargo/config\ncontent /.cargo/config.toml\ncontent /h/.cargo/config\ncontent /h/.cargo/config.toml\n"
    );
    Ok(())
}

#[test]
fn another_need_stands_alone(rt: HostRuntime) -> Result<(), Fail> {
    let alloc = rt.alloc();
    let mut request = Vec::new(alloc);
    record(&mut request, b'W', "/p")?;
    let content = Need::Content(String::from_str(alloc, "/x")?);
    let lines = needed(alloc, request.as_slice(), content)?;
    assert_eq!(rt; lines.as_str(), "content /x\n");
    let command = PathAndArgs::new(alloc, String::from_str(alloc, "rustc")?);
    let lines = needed(alloc, request.as_slice(), Need::Answer(command))?;
    assert_eq!(rt; lines.as_str(), "answer rustc\n");
    Ok(())
}

#[test]
fn a_path_that_is_not_listed_is_not_needed(rt: HostRuntime) -> Result<(), Fail> {
    let alloc = rt.alloc();
    let mut request = Vec::new(alloc);
    record(&mut request, b'W', "/p")?;
    let content = Need::Content(String::from_str(alloc, "/y")?);
    let lines = needed(alloc, request.as_slice(), content)?;
    assert_eq!(rt; lines.as_str(), "refused\n");
    Ok(())
}

#[test]
fn what_is_given_is_not_needed(rt: HostRuntime) -> Result<(), Fail> {
    let alloc = rt.alloc();
    let mut request = Vec::new(alloc);
    record(&mut request, b'N', "/x")?;
    let content = Need::Content(String::from_str(alloc, "/x")?);
    let lines = needed(alloc, request.as_slice(), content)?;
    assert_eq!(rt; lines.as_str(), "refused\n");
    Ok(())
}
