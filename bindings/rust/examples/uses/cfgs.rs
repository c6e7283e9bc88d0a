//! Values that rustc prints for a target.
use crate::tree::{Tree, ARM, HOST, WASM};
use crate::Outcome;
use cargo_config2::cfg::{
    Cfg, TargetAbi, TargetArch, TargetEndian, TargetEnv, TargetFamily, TargetHasAtomic, TargetOs, TargetPointerWidth,
    TargetVendor,
};
use cargo_config2::{Config, Error, TargetTripleRef};
use std::convert::Infallible;
use std::fmt::Debug;

fn load(tree: &Tree) -> Result<Config, Error> {
    Config::load_with_cwd(tree.path("work"))
}

fn extension(os: &TargetOs) -> &'static str {
    match os {
        TargetOs::windows => "exe",
        TargetOs::unknown | TargetOs::wasi => "wasm",
        TargetOs::linux | TargetOs::macos => "",
        _ => "bin",
    }
}

pub fn choose_by_os(tree: &Tree) -> Outcome {
    let config = load(tree)?;
    let spec = tree.path("work/kernel.json").display().to_string();
    for target in [HOST, WASM, spec.as_str()] {
        let os = config.cfg::<TargetOs, _>(target)?;
        tree.say(target, (os.to_string(), extension(&os)));
    }
    Ok(())
}

pub fn compare_cfg_values(tree: &Tree) -> Outcome {
    let config = load(tree)?;
    let arch = config.cfg::<TargetArch, _>(ARM)?;
    let text = String::from("aarch64");
    tree.say("arch", (arch == TargetArch::aarch64, arch == "aarch64", arch == text, text == arch, "arm" == arch));
    let width = config.cfg::<TargetPointerWidth, _>(ARM)?;
    tree.say("width", (width == 64, 64_u64 == width, width == 32_u16, width == "64"));
    let env = config.cfg::<TargetEnv, _>(ARM)?;
    tree.say("env", env.as_ref().is_some_and(|env| env == "gnu"));
    let atomics = config.cfg::<TargetHasAtomic, _>(ARM)?;
    tree.say("atomics", (atomics.iter().any(|it| it == "ptr"), atomics.iter().any(|it| it == 128)));
    let families = config.cfg::<TargetFamily, _>(ARM)?;
    tree.say("unix", families.contains(&TargetFamily::unix));
    Ok(())
}

fn say_cfg<'a, C>(tree: &Tree, config: &Config, target: impl Into<TargetTripleRef<'a>>) -> Outcome
where
    C: Cfg,
    C::Output: Debug,
{
    tree.say(C::KEY, config.cfg::<C, _>(target)?);
    Ok(())
}

pub fn read_every_cfg(tree: &Tree) -> Outcome {
    let config = load(tree)?;
    for target in config.build_target_for_config([HOST, WASM])? {
        tree.say("target", target.triple());
        say_cfg::<TargetAbi>(tree, &config, &target)?;
        say_cfg::<TargetArch>(tree, &config, &target)?;
        say_cfg::<TargetEndian>(tree, &config, &target)?;
        say_cfg::<TargetEnv>(tree, &config, &target)?;
        say_cfg::<TargetFamily>(tree, &config, &target)?;
        say_cfg::<TargetHasAtomic>(tree, &config, &target)?;
        say_cfg::<TargetOs>(tree, &config, &target)?;
        say_cfg::<TargetPointerWidth>(tree, &config, &target)?;
        say_cfg::<TargetVendor>(tree, &config, &target)?;
    }
    Ok(())
}

pub fn parse_cfg_values(tree: &Tree) -> Outcome {
    tree.say("known", matches!(TargetOs::from("freebsd"), TargetOs::freebsd));
    tree.say("unknown", (TargetOs::from("plan9"), "plan9".parse::<TargetOs>()?.as_str()));
    tree.say("endian", ("big".parse::<TargetEndian>()?, "middle".parse::<TargetEndian>().is_err()));
    tree.say("width", "128".parse::<TargetPointerWidth>()? == 128);
    tree.say("vendor", TargetVendor::from("apple").to_string() + "-" + TargetAbi::from("macabi").as_str());
    Ok(())
}

// A name that the crate has no type for.
struct TargetFeature;

impl Cfg for TargetFeature {
    type Output = Vec<String>;
    type Error = Infallible;
    const KEY: &'static str = "target_feature";
    const MAX: usize = usize::MAX;

    fn from_values<I: ExactSizeIterator<Item = V>, V: AsRef<str>>(values: I) -> Result<Self::Output, Self::Error> {
        Ok(values.map(|value| value.as_ref().to_uppercase()).collect())
    }

    fn default_output() -> Option<Self::Output> {
        None
    }
}

pub fn read_cfg_of_client(tree: &Tree) -> Outcome {
    let config = load(tree)?;
    say_cfg::<TargetFeature>(tree, &config, ARM)?;
    tree.say("missing", config.cfg::<TargetFeature, _>(WASM).map_err(|error| error.to_string()));
    Ok(())
}

pub fn print_two_targets(tree: &Tree) -> Outcome {
    let config = load(tree)?;
    let describe = |target: &str| -> Result<String, Error> {
        let (arch, vendor) = (config.cfg::<TargetArch, _>(target)?, config.cfg::<TargetVendor, _>(target)?);
        Ok(format!("{arch} of {}", vendor.map_or_else(|| "nobody".to_owned(), |vendor| vendor.to_string())))
    };
    for target in [ARM, WASM] {
        tree.say(target, describe(target)?);
    }
    tree.say("no such target", describe("z80-unknown-none").is_err());
    Ok(())
}
