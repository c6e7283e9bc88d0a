//! Tests of `cc2_cargo_answers`.

mod get_rows;
mod json_rows;
