//! Questions for the values of two cfg names, whose readings have no known meaning.
use cargo_config2::cfg::{Cfg, CfgFault};
use std::alloc::Global;
use std::result::Result;

/// The one operating system of a target, whose reading says nothing.
pub struct System;

impl Cfg for System {
    ghost use Rattle.std.specs.Prelude.{None, codes};

    const KEY: &'static str = "target_os";

    const MAX: usize = 1;

    type Output = String;

    ghost named = { codes "target_os" };

    ghost MAX = { 1 };

    ghost Shown = { Unit {0} };

    ghost shown = { λ _. tt };

    ghost told = { λ _. ⊥ };

    fn name() -> &'static str {
        Self::KEY
    }

    fn default_output() -> Option<String> {
        None
    }

    fn from_values(_alloc: Global, values: &[String]) -> Result<String, CfgFault> {
        match values {
            [value] => Ok(value.clone()?),
            _ => Err(CfgFault::Unreadable),
        }
    }
}

/// The one value of `x`.
pub struct X;

impl Cfg for X {
    ghost use Rattle.std.specs.Prelude.{None, codes};

    const KEY: &'static str = "x";

    const MAX: usize = 1;

    type Output = String;

    ghost named = { codes "x" };

    ghost MAX = { 1 };

    ghost Shown = { Unit {0} };

    ghost shown = { λ _. tt };

    ghost told = { λ _. ⊥ };

    fn name() -> &'static str {
        Self::KEY
    }

    fn default_output() -> Option<String> {
        None
    }

    fn from_values(_alloc: Global, values: &[String]) -> Result<String, CfgFault> {
        match values {
            [value] => Ok(value.clone()?),
            _ => Err(CfgFault::Unreadable),
        }
    }
}
