//! The tables below `target`.

mod targets;
