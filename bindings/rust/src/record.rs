//! Records of a request: a byte for the kind, and fields.
use crate::error::{Error, Result};

// More than a record of two fields takes beside their bytes.
const FRAME: usize = 16;

/// Makes room for a record of so many bytes in two fields at most, be it the last room that there is.
///
/// # Errors
/// Where memory ran out.
pub(crate) fn reserve(out: &mut Vec<u8>, length: usize) -> Result<()> {
    let length = length.saturating_add(FRAME);
    out.try_reserve(length).or_else(|_| out.try_reserve_exact(length)).map_err(|_| Error::out_of_memory())
}

/// Appends a record of fields alone.
pub(crate) fn push_record(out: &mut Vec<u8>, kind: u8, fields: &[&[u8]]) {
    out.push(kind);
    for field in fields {
        push_field(out, field);
    }
}

/// Appends a record that begins with a program and its arguments.
pub(crate) fn push_command_record(out: &mut Vec<u8>, kind: u8, program: &str, args: &[String], fields: &[&[u8]]) {
    push_record(out, kind, &[program.as_bytes()]);
    push_number(out, args.len());
    for field in args.iter().map(|arg| arg.as_bytes()).chain(fields.iter().copied()) {
        push_field(out, field);
    }
}

// Appends a field: its length in four bytes, the lowest first, and its bytes.
fn push_field(out: &mut Vec<u8>, field: &[u8]) {
    push_number(out, field.len());
    out.extend_from_slice(field);
}

// A length of 4 GiB or more can't be encoded: the library then rejects the request.
fn push_number(out: &mut Vec<u8>, number: usize) {
    let number = u32::try_from(number).unwrap_or(u32::MAX);
    out.extend_from_slice(&number.to_le_bytes());
}
