//! Tests of the libraries, without a proof: they show what no contract says and no program does. A module has those of
//! some crates, or of one. `low` has those below a configuration, `files` those of a configuration as files have it, and
//! `resolved_config` those of the resolved one. The others have those of the crates by Cargo's own rules, and `cells` those
//! of the resolved tables as bytes.
#![tactic(auto)]

#[cfg(test)]
mod cargo;
#[cfg(test)]
mod cargo_answers;
#[cfg(test)]
mod cargo_settings;
#[cfg(test)]
mod cargo_target;
#[cfg(test)]
mod cells;
#[cfg(test)]
mod files;
#[cfg(test)]
mod low;
#[cfg(test)]
mod resolved_config;
#[cfg(test)]
mod rules;
