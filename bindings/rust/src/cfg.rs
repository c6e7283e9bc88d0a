//! Values that rustc prints of a cfg name for a target, as `target_os = "linux"`. `Config::cfg` asks for them by a type, which
//! has the name and says how the values are read.
//!
//! ```no_run
//! use cargo_config2::{cfg, Config};
//!
//! let os = Config::load().unwrap().cfg::<cfg::TargetOs, _>("x86_64-unknown-linux-gnu").unwrap();
//! assert_eq!(os, "linux");
//! match os {
//!     cfg::TargetOs::linux => {}
//!     other => println!("{other}"),
//! }
//! ```
//!
//! [The Rust Reference](https://doc.rust-lang.org/reference/conditional-compilation.html#set-configuration-options) says what
//! the names mean.
mod compare;
mod endian;
mod numbers;
mod texts;

pub use endian::TargetEndian;
pub use numbers::{TargetHasAtomic, TargetPointerWidth};
pub use texts::{Panic, TargetAbi, TargetArch, TargetEnv, TargetFamily, TargetOs, TargetVendor};

use crate::error::{Error, Result};

/// A cfg name, and how its values are read. Implement it to query a name that no type here has.
pub trait Cfg {
    /// What the values are read as.
    type Output: Sized;

    /// The name, as rustc prints it in front of `=`.
    const KEY: &'static str;

    /// The error of values that can't be read.
    type Error: Sized + std::error::Error + Send + Sync + 'static;

    /// How many values it has at most.
    const MAX: usize;

    /// What these values are read as. They come in byte order, each once, at least one of them and no more than `MAX`.
    ///
    /// # Errors
    /// Where they can't be read.
    fn from_values<I: ExactSizeIterator<Item = V>, V: AsRef<str>>(values: I) -> Result<Self::Output, Self::Error>;

    /// The output where rustc prints no value; none where there must be one.
    fn default_output() -> Option<Self::Output>;
}

/// What the values that rustc prints are read as, or the default where it prints none.
///
/// # Errors
/// Where there is no value and no default, where there are too many, and where they can't be read.
pub(crate) fn read<C: Cfg>(values: &[String]) -> Result<C::Output> {
    if values.is_empty() {
        return C::default_output().ok_or_else(|| {
            Error::new(&format!("{} cfg should be always available in cfg list from rustc --print cfg", C::KEY))
        });
    }
    if values.len() > C::MAX {
        return Err(Error::new(&format!("too many {} cfg", C::KEY)));
    }
    C::from_values(values.iter())
        .map_err(|error| Error::because(&format!("failed to parse value of {} cfg", C::KEY), &error))
}

#[cfg(test)]
mod tests {
    use super::*;
    use std::collections::BTreeSet;
    use std::process::Command;

    fn read_of<C: Cfg>(values: &[&str]) -> Result<C::Output> {
        read::<C>(&values.iter().map(|value| (*value).to_owned()).collect::<Vec<_>>())
    }

    #[test]
    fn one_value_or_none_or_many() {
        assert_eq!(read_of::<TargetOs>(&["linux"]).unwrap(), TargetOs::linux);
        assert_eq!(read_of::<TargetArch>(&["q"]).unwrap(), "q");
        assert_eq!(read_of::<TargetAbi>(&[""]).unwrap(), Some(TargetAbi::from("")));
        assert_eq!(read_of::<TargetEnv>(&[]).unwrap(), None);
        assert_eq!(read_of::<TargetFamily>(&["unix", "wasm"]).unwrap(), [TargetFamily::unix, TargetFamily::wasm]);
        assert!(read_of::<TargetFamily>(&[]).unwrap().is_empty());
        assert_eq!(read_of::<TargetPointerWidth>(&["64"]).unwrap(), 64);
        assert_eq!(read_of::<TargetEndian>(&["little"]).unwrap(), TargetEndian::little);
        assert_eq!(TargetEndian::little.to_string(), "little");
    }

    #[test]
    fn numbers() {
        let widths = read_of::<TargetHasAtomic>(&["64", "ptr"]).unwrap();
        assert!(widths.iter().any(|width| width == 64) && widths.iter().any(|width| width == "ptr"));
        assert!(!widths.iter().any(|width| width == 128));
        assert!(8_u16 == "8".parse::<TargetHasAtomic>().unwrap() && 8_u64 == &"8".parse::<TargetHasAtomic>().unwrap());
        assert!("8".parse::<TargetPointerWidth>().unwrap() == 8_i32);
    }

    #[test]
    fn variants_and_texts() {
        assert!(matches!(TargetArch::from("x86_64"), TargetArch::x86_64));
        assert!(matches!("vec-extabi".parse(), Ok(TargetAbi::vec_extabi)));
        assert_eq!(TargetAbi::vec_extabi.as_str(), "vec-extabi");
        assert_eq!((format!("{:?}", TargetOs::from("q")), TargetOs::none.to_string()), ("\"q\"".into(), "none".into()));
        let linux = "linux".to_owned();
        assert_eq!(TargetOs::linux, linux);
        assert_eq!(linux, TargetOs::linux);
        assert_eq!("linux", TargetOs::linux);
        assert!(TargetOs::linux == linux.into_boxed_str() && TargetOs::linux != TargetOs::none);
        let sorted: BTreeSet<_> = ["b", "linux", "a", "linux"].map(TargetOs::from).into();
        assert!(sorted.iter().eq(["a", "b", "linux"].iter()));
    }

    #[test]
    #[allow(deprecated)]
    fn values_of_all_known_targets_are_variants() {
        let printed = |args: &[&str]| {
            let output = Command::new("rustc").arg("--print").args(args).output().unwrap();
            String::from_utf8(output.stdout).unwrap()
        };
        // A part of the targets: each run of rustc takes its time.
        for target in printed(&["target-list"]).lines().step_by(40) {
            let cfg = printed(&["cfg", "--target", target]);
            for (name, value) in cfg.lines().filter_map(|line| line.split_once('=')) {
                let value = value.trim_matches('"');
                let is_other = match name {
                    _ if value.is_empty() => false,
                    "target_abi" => matches!(TargetAbi::from(value), TargetAbi::__Other(_)),
                    "target_arch" => matches!(TargetArch::from(value), TargetArch::__Other(_)),
                    "target_env" => matches!(TargetEnv::from(value), TargetEnv::__Other(_)),
                    "target_family" => matches!(TargetFamily::from(value), TargetFamily::__Other(_)),
                    "target_os" => matches!(TargetOs::from(value), TargetOs::__Other(_)),
                    "target_vendor" => matches!(TargetVendor::from(value), TargetVendor::__Other(_)),
                    "target_endian" => value.parse::<TargetEndian>().is_err(),
                    _ => false,
                };
                assert!(!is_other, "{target}: {name} = {value}");
            }
        }
    }

    #[test]
    fn errors() {
        let error = read_of::<TargetOs>(&[]).unwrap_err();
        assert_eq!(error.to_string(), "target_os cfg should be always available in cfg list from rustc --print cfg");
        let error = read_of::<TargetVendor>(&["a", "b"]).unwrap_err();
        assert_eq!(error.to_string(), "too many target_vendor cfg");
        let error = read_of::<TargetEndian>(&["middle"]).unwrap_err();
        let wanted = Error::because("failed to parse value of target_endian cfg", &"`middle` is none of big, little");
        assert_eq!(error, wanted);
    }
}
