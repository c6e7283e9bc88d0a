//! Keys of a text: which are found, and at which line and column.

mod located;
mod spans;
