//! Programs: rustc, cargo, linkers and runners.
use crate::tree::{Tree, ARM, HOST, WASM};
use crate::Outcome;
use cargo_config2::{CargoVersion, Config, PathAndArgs, ResolveOptions, RustcVersion, TargetConfig};
use std::ffi::OsString;
use std::path::Path;
use std::process::Command;

fn load(tree: &Tree) -> Result<Config, cargo_config2::Error> {
    Config::load_with_cwd(tree.path("work"))
}

// What a program prints.
fn read(command: &mut Command) -> Result<String, Box<dyn std::error::Error>> {
    Ok(String::from_utf8(command.output()?.stdout)?)
}

pub fn run_rustc(tree: &Tree) -> Outcome {
    let config = load(tree)?;
    let printed = read(Command::from(config.rustc()).arg("-vV"))?;
    tree.say("release", printed.lines().find_map(|line| line.strip_prefix("release: ")));
    let printed = read(Command::from(config.rustc().clone()).args(["--print", "cfg", "--target", WASM]))?;
    tree.say("cfg", printed.lines().next());
    Ok(())
}

pub fn run_rustc_through_wrappers(tree: &Tree) -> Outcome {
    let wrapper = tree.path("bin/wrapper");
    let both = [("RUSTC_WRAPPER", wrapper.clone()), ("RUSTC_WORKSPACE_WRAPPER", "clippy".into())];
    let config = Config::load_with_options(tree.path("work"), ResolveOptions::default().env(both))?;
    tree.say("both", config.rustc());
    let other = [("RUSTC_WRAPPER", wrapper.into_os_string()), ("RUSTC", "bin/rustc".into())];
    let config = Config::load_with_options(tree.path(""), ResolveOptions::default().env(other))?;
    tree.say("with another rustc", config.rustc());
    tree.say("printed", read(Command::from(config.rustc()).arg("-vV"))?.lines().next());
    tree.say("build", (&config.build.rustc, &config.build.rustc_wrapper, &config.build.rustc_workspace_wrapper));
    Ok(())
}

pub fn run_tests_with_runner(tree: &Tree) -> Outcome {
    let config = load(tree)?;
    let test = Path::new("target/debug/deps/tests");
    for target in [HOST, ARM, WASM] {
        let command = match config.runner(target)? {
            Some(runner) => {
                let mut command = Command::from(runner);
                command.arg(test);
                command
            }
            None => Command::new(test),
        };
        tree.say(target, command);
    }
    let variable = [("CARGO_TARGET_X86_64_UNKNOWN_LINUX_GNU_RUNNER", "bin/valgrind  -q")];
    let config = Config::load_with_options(tree.path("work"), ResolveOptions::default().env(variable))?;
    tree.say("by a variable", config.runner(HOST)?);
    Ok(())
}

pub fn choose_linker(tree: &Tree) -> Outcome {
    let config = load(tree)?;
    for target in [HOST, ARM, WASM] {
        tree.say(target, config.linker(target)?.unwrap_or_else(|| "rust-lld".into()));
    }
    let variable = [("CARGO_TARGET_AARCH64_UNKNOWN_LINUX_GNU_LINKER", "bin/clang")];
    let config = Config::load_with_options(tree.path("work"), ResolveOptions::default().env(variable))?;
    tree.say("by a variable", config.linker(ARM)?);
    Ok(())
}

pub fn build_command_by_hand(tree: &Tree) -> Outcome {
    let mut made = PathAndArgs::new("qemu");
    made.arg("-L").args(["/usr", "-cpu"]).arg(OsString::from("max"));
    tree.say("made", (&made.path, &made.args));
    let mut same = PathAndArgs::new(Path::new("qemu"));
    same.args(vec!["-L".to_owned(), "/usr".to_owned()]).args(["-cpu", "max"]);
    tree.say("equal", made == same);
    let command = Command::from(&made);
    tree.say("program", command.get_program());
    tree.say("arguments", command.get_args().collect::<Vec<_>>());
    Ok(())
}

pub fn find_host(tree: &Tree) -> Outcome {
    let config = load(tree)?;
    let is_cross = |target: &str| Ok::<_, cargo_config2::Error>(config.host_triple()? != target);
    tree.say("host", config.host_triple()?);
    tree.say("cross", (is_cross(HOST)?, is_cross(ARM)?));
    let options = ResolveOptions::default().cargo("no-such-cargo");
    let config = Config::load_with_options(tree.path("work"), options)?;
    tree.say("by rustc", config.host_triple()?);
    Ok(())
}

pub fn require_rustc_version(tree: &Tree) -> Outcome {
    let version: RustcVersion = load(tree)?.rustc_version()?;
    tree.say("version", version);
    if version.major_minor() < (1, 60) {
        return Err("Rust 1.60 or later is needed".into());
    }
    tree.say("toolchain", if version.nightly { "nightly" } else { "stable" });
    tree.say("at least 1.92", version.major_minor() >= (1, 92));
    Ok(())
}

pub fn treat_nightly_as_stable(tree: &Tree) -> Outcome {
    std::env::set_var("RUSTC_BOOTSTRAP", "-1");
    let config = load(tree)?;
    tree.say("nightly", config.rustc_version().map(|version| version.nightly));
    std::env::remove_var("RUSTC_BOOTSTRAP");
    tree.say("nightly", load(tree)?.rustc_version().map(|version| version.nightly));
    Ok(())
}

pub fn compare_cargo_with_rustc(tree: &Tree) -> Outcome {
    let config = load(tree)?;
    let (cargo, rustc): (CargoVersion, _) = (config.cargo_version()?, config.rustc_version()?);
    tree.say("cargo", (cargo.major, cargo.minor, cargo.patch, cargo.nightly));
    tree.say("the same", cargo.major_minor() == rustc.major_minor());
    tree.say("again", config.cargo_version()? == cargo);
    Ok(())
}

pub fn start_programs_once(tree: &Tree) -> Outcome {
    tree.take_starts()?;
    let config = load(tree)?;
    tree.say("by the load", tree.take_starts()?);
    for _ in 0..2 {
        config.host_triple()?;
        config.cargo_version()?;
        config.rustflags(ARM)?;
        config.linker(ARM)?;
        config.cfg::<cargo_config2::cfg::TargetOs, _>(ARM)?;
        tree.say("by the questions", tree.take_starts()?);
    }
    Ok(())
}

pub fn read_whole_target_table(tree: &Tree) -> Outcome {
    let config = load(tree)?;
    let TargetConfig { linker, runner, rustflags, rustdocflags, .. } = config.target(ARM)?;
    tree.say("linker", linker);
    tree.say("runner", runner);
    tree.say("rustflags", rustflags);
    tree.say("rustdocflags", rustdocflags);
    tree.say("whole", config.target(WASM)?);
    tree.say("default", TargetConfig::default());
    Ok(())
}
