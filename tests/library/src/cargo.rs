//! Tests of `cc2_cargo`.

mod cfg_rows;
mod dotted_rows;
mod expand_rows;
mod home_rows;
mod include_rows;
mod load_rows;
mod override_rows;
mod raw_rows;
mod row_files;
