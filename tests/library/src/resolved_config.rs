//! Tests of the resolved configuration: settings, queries in turn, options and refusals. `resolved_json` has
//! those of its JSON, and `reply` those of replies to requests.

mod asking;
mod every_field;
mod loading;
mod names;
mod options;
mod programs;
mod refusing;
mod reply;
mod resolved_json;
mod settings;
mod targets;
mod versions;
