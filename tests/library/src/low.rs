//! Tests of the crates below the configuration, a folder for each. `cfg` has cfg expressions and `cfg_list` what
//! rustc prints; `base` walks, homes and refusals. `leaf` and `target_table` have what files hold, `context` what a
//! caller chooses. `resolved` has targets and flags, `locator` the positions of keys, `ask` requests in bytes.

mod ask;
mod base;
mod cfg;
mod cfg_list;
mod context;
mod leaf;
mod locator;
mod made;
mod resolved;
mod target_table;
