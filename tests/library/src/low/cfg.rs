//! cfg expressions.

mod rows;
