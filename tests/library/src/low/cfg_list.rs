//! rustc's list of cfg flags and pairs.

mod rows;
