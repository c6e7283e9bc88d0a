//! Configurations and loads.

mod every_field;
mod groupings;
mod lists;
mod loads;
mod nesting;
mod overrides;
mod refused;
