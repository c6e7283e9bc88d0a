//! Requests as tests make them, and their replies as text.
use cc2_ask::{Fault, Need, Reply, push_field};
use cc2_reply::reply_to;
use std::alloc::Global;
use std::result::Result;
use std::test::Fail;

const ABSENT: [&str; 3] = ["/.cargo/config", "/.cargo/config.toml", "/p/.cargo/config"];

/// A request with these words.
pub fn asking(alloc: Global, words: &[&str]) -> Result<Vec<u8>, Fail> {
    let mut request = Vec::new(alloc);
    for word in words {
        add(&mut request, b'W', word)?;
    }
    Ok(request)
}

/// Adds a record of one field.
pub fn add(request: &mut Vec<u8>, kind: u8, field: &str) -> Result<(), Fail> {
    request.push(kind)?;
    Ok(push_field(request, field.as_bytes())?)
}

/// Adds that nothing is at these paths.
pub fn add_absent(request: &mut Vec<u8>, paths: &[&str]) -> Result<(), Fail> {
    for path in paths {
        add(request, b'N', path)?;
    }
    Ok(())
}

/// A request of these words about the directory /p, whose one file has this text.
pub fn of_one_file(alloc: Global, words: &[&str], text: &[u8]) -> Result<Vec<u8>, Fail> {
    let mut request = asking(alloc, words)?;
    add(&mut request, b'C', "/p")?;
    add_absent(&mut request, &ABSENT)?;
    add(&mut request, b'F', "/p/.cargo/config.toml")?;
    push_field(&mut request, text)?;
    Ok(request)
}

/// Adds that a program, asked `-vV`, ended with 0 and wrote this.
pub fn add_version(request: &mut Vec<u8>, program: &str, output: &[u8]) -> Result<(), Fail> {
    add(request, b'P', program)?;
    request.extend_from_slice(&[1, 0, 0, 0])?;
    push_field(request, b"-vV")?;
    push_field(request, &[0])?;
    push_field(request, output)?;
    Ok(push_field(request, b"")?)
}

/// The reply as text: the status and the text of an answer, how many bytes a load gives, or a line for each need, or the fault.
pub fn replied(alloc: Global, request: &[u8]) -> Result<String, Fail> {
    match reply_to(alloc, request) {
        Ok(reply) => told(alloc, &reply),
        Err(Fault::Malformed) => Ok(String::from_str(alloc, "malformed")?),
        Err(Fault::Memory) => Ok(String::from_str(alloc, "out of memory")?),
    }
}

fn told(alloc: Global, reply: &Reply) -> Result<String, Fail> {
    match reply {
        Reply::Answer(status, text) => {
            let text = std::str::from_utf8(text.as_slice()).unwrap_or("no text");
            Ok(format!(in alloc; "{status} {text}")?)
        }
        Reply::Loaded(cells, state) => {
            Ok(format!(in alloc; "loaded {} {}", cells.len(), state.len())?)
        }
        Reply::Needs(needs) => lines(alloc, needs.as_slice()),
    }
}

fn lines(alloc: Global, needs: &[Need]) -> Result<String, Fail> {
    let mut all = String::new(alloc);
    for need in needs {
        let line = match need {
            Need::Exists(path) => format!(in alloc; "exists {path}\n")?,
            Need::Content(path) => format!(in alloc; "content {path}\n")?,
            Need::Answer(command) => format!(in alloc; "answer {}\n", command.path)?,
        };
        all.push_str(line.as_str())?;
    }
    Ok(all)
}
