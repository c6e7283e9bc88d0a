//! Options and contexts.

mod contexts;
