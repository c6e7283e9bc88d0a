//! Tests of `cc2_cargo_target`.

mod host_artifacts_rows;
mod variable_table_rows;
