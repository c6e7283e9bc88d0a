//! Traits that generic code of clients requires.
use crate::tree::{Tree, ARM, HOST};
use crate::Outcome;
use cargo_config2::{
    cfg, de, BuildConfig, CargoVersion, Color, Config, CredentialProvider, EnvConfigValue, Error, Flags, Frequency,
    PathAndArgs, RegistriesProtocol, ResolveOptions, RustcVersion, StringList, TargetConfig, TargetTriple, TermConfig,
    VersionControlSoftware, When,
};
use std::any::type_name;
use std::fmt::Debug;
use std::hash::Hash;
use std::thread;

// The last name of a type's path. Some compilers print a lifetime after it.
fn name<T>() -> &'static str {
    type_name::<T>().split('<').next().and_then(|path| path.rsplit("::").next()).unwrap_or_default()
}

fn cloned<T: Clone + Debug>() -> &'static str {
    name::<T>()
}

fn shared<T: Send + Sync + 'static>() -> &'static str {
    name::<T>()
}

fn defaulted<T: Default + Clone>() -> T {
    T::default().clone()
}

fn compared<T: PartialEq + Debug>(a: &T, b: &T) -> bool {
    a == b
}

fn keyed<T: Eq + Ord + Hash + Clone>(value: &T) -> bool {
    value.clone() == *value
}

fn copied<T: Copy + Eq>(value: T) -> (T, T) {
    (value, value)
}

pub fn require_traits(tree: &Tree) -> Outcome {
    tree.say("cloned", [cloned::<Config>(), cloned::<ResolveOptions>(), cloned::<EnvConfigValue>()]);
    tree.say("of files", [cloned::<de::Config>(), cloned::<de::Flags>(), cloned::<de::PathAndArgs>()]);
    tree.say("shared", [shared::<Error>(), shared::<de::Config>(), shared::<TargetConfig>(), shared::<BuildConfig>()]);
    tree.say("values", [shared::<de::Definition>(), shared::<TargetTriple>(), shared::<cfg::TargetOs>()]);
    tree.say("defaults", (defaulted::<Flags>(), defaulted::<StringList>(), defaulted::<TermConfig>()));
    tree.say("compared", compared(&PathAndArgs::new("a"), &PathAndArgs::new("b")));
    tree.say("providers", compared(&CredentialProvider::CargoToken, &CredentialProvider::CargoToken));
    tree.say("protocols", compared(&RegistriesProtocol::Git, &RegistriesProtocol::Sparse));
    tree.say("keyed", keyed(&TargetTriple::from("a/b.json")));
    tree.say("copied", (copied(Color::Auto), copied(When::Never), copied(Frequency::Always)));
    tree.say("copied", copied(VersionControlSoftware::Mercurial));
    Ok(())
}

pub fn move_to_thread(tree: &Tree) -> Outcome {
    let config = Config::load_with_cwd(tree.path("work"))?;
    let versions = thread::spawn(move || -> Result<(RustcVersion, CargoVersion), Error> {
        Ok((config.rustc_version()?, config.cargo_version()?))
    });
    tree.say("versions", versions.join().expect("the thread ends")?);
    let of_files = de::Config::load_with_cwd(tree.path("work"))?;
    let jobs = thread::scope(|scope| {
        let asked = [0, 1].map(|_| scope.spawn(|| of_files.build.jobs.as_ref().map(|jobs| jobs.val)));
        asked.map(|it| it.join().expect("the thread ends"))
    });
    tree.say("jobs", jobs);
    Ok(())
}

pub fn clone_and_change(tree: &Tree) -> Outcome {
    let config = Config::load_with_cwd(tree.path("work"))?;
    config.linker(ARM)?;
    let mut changed = config.clone();
    changed.build.jobs = Some(1);
    changed.build.target = Some(vec![ARM.into()]);
    changed.env.clear();
    tree.say("jobs", (config.build.jobs, changed.build.jobs));
    tree.say("variables", (config.env.len(), changed.env.len()));
    tree.say("targets", (changed.build_target_for_cli([""; 0])?, config.build_target_for_cli([""; 0])?));
    tree.say("linkers", (changed.linker(HOST)?, changed.linker(ARM)?));
    Ok(())
}
