//! Targets, flags and lists.

mod flags;
mod lists;
mod printed;
mod targets;
