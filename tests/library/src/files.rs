//! Tests of a configuration as files have it: loads, merging, overrides and refusals, and its tables as JSON.

mod de;
mod json;
mod made;
mod outcomes;
