//! Requests as tests make them.
use cc2_ask::{Fault, Given, push_field, push_list};
use std::alloc::Global;
use std::result::Result;
use std::test::Fail;

/// A record of one field.
pub fn record(out: &mut Vec<u8>, kind: u8, field: &str) -> Result<(), Fail> {
    out.push(kind)?;
    Ok(push_field(out, field.as_bytes())?)
}

/// A record of two fields.
pub fn record_of_two(out: &mut Vec<u8>, kind: u8, first: &str, second: &[u8]) -> Result<(), Fail> {
    record(out, kind, first)?;
    Ok(push_field(out, second)?)
}

/// What a command without arguments answered: its status and its output.
pub fn ran(out: &mut Vec<u8>, program: &str, code: &[u8], stdout: &[u8]) -> Result<(), Fail> {
    record(out, b'P', program)?;
    push_list(out, &[])?;
    push_field(out, code)?;
    push_field(out, stdout)?;
    Ok(push_field(out, b"")?)
}

/// What a request gives that is read.
pub fn given(alloc: Global, request: &[u8]) -> Result<Given, Fail> {
    match Given::read(alloc, request) {
        Ok(given) => Ok(given),
        Err(Fault::Memory) => Err(Fail::new("out of memory")),
        Err(Fault::Malformed) => Err(Fail::new("malformed")),
    }
}

/// Whether a request is malformed.
pub fn is_malformed(alloc: Global, request: &[u8]) -> bool {
    matches!(Given::read(alloc, request), Err(Fault::Malformed))
}
