//! Tests of `cc2_cargo_settings`.

mod env_rows;
mod named_rows;
mod under_rows;
