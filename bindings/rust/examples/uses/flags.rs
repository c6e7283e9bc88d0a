//! Flags for rustc and rustdoc.
use crate::tree::{Tree, ARM, HOST, WASM};
use crate::Outcome;
use cargo_config2::{Config, Flags, ResolveOptions};
use std::process::Command;

fn load(tree: &Tree, variables: &[(&str, &str)]) -> Result<Config, cargo_config2::Error> {
    let options = ResolveOptions::default().env(variables.iter().copied());
    Config::load_with_options(tree.path("work"), options)
}

// What a coverage tool does: it adds flags to those of the user.
pub fn add_coverage_flag(tree: &Tree) -> Outcome {
    let config = load(tree, &[])?;
    let mut flags = config.rustflags(HOST)?.unwrap_or_default();
    flags.push("-C");
    flags.push(String::from("instrument-coverage"));
    let mut command = Command::new(config.cargo());
    command.arg("build").env("CARGO_ENCODED_RUSTFLAGS", flags.encode()?);
    let set: Vec<_> = command.get_envs().collect();
    tree.say("set", set);
    tree.say("read back", Flags::from_encoded(&flags.encode()?) == flags);
    Ok(())
}

pub fn pass_flags_with_spaces(tree: &Tree) -> Outcome {
    let flags = Flags::from_space_separated("  --cfg a  -Copt-level=3 ");
    tree.say("read", &flags);
    tree.say("written", flags.encode_space_separated()?);
    tree.say("encoded", flags.encode()?);
    tree.say("with a tab", Flags::from_space_separated("-a\t-b \t -c\n"));
    let spaced = Flags::from(["--cfg", "feature = \"x y\""]);
    tree.say("encoded", spaced.encode()?);
    tree.say("no text for it", spaced.encode_space_separated().map_err(|error| error.to_string()));
    Ok(())
}

pub fn collect_flags(tree: &Tree) -> Outcome {
    let owned = vec!["-a".to_owned(), "-b".to_owned()];
    let [first, second] = [&owned[0], &owned[1]];
    let all = [
        Flags::from(owned.clone()),
        Flags::from(owned.as_slice()),
        Flags::from(["-a", "-b"].as_slice()),
        Flags::from([first.clone(), second.clone()]),
        Flags::from(["-a", "-b"]),
    ];
    tree.say("equal", all.iter().all(|flags| *flags == all[0]));
    let mut joined = Flags::default();
    all.into_iter().flat_map(|flags| flags.flags).for_each(|flag| joined.push(flag));
    tree.say("joined", joined.flags.len());
    tree.say("default", Flags::default());
    Ok(())
}

pub fn refuse_separator_in_flag(tree: &Tree) -> Outcome {
    let flags = Flags::from(["a\u{1f}b"]);
    match flags.encode() {
        Ok(text) => tree.say("taken", text),
        Err(error) => tree.say("refused", error.to_string()),
    }
    tree.say("with a space", flags.encode_space_separated()?);
    Ok(())
}

pub fn encode_empty_flags(tree: &Tree) -> Outcome {
    tree.say("nothing", Flags::from_encoded(""));
    tree.say("two empty ones", Flags::from_encoded("\u{1f}"));
    tree.say("none", Flags::default().encode()?);
    for flags in [["", "a", "b"], ["a", "", "b"], ["a", "b", ""], ["", "", "b"], ["", "", ""]] {
        tree.say("encoded", (flags, Flags::from(flags).encode()?, Flags::from(flags).encode_space_separated()?));
    }
    Ok(())
}

pub fn flags_of_each_target(tree: &Tree) -> Outcome {
    let config = load(tree, &[])?;
    for target in config.build_target_for_config([HOST, ARM, WASM])? {
        let flags = config.rustflags(&target)?.map(|flags| flags.flags).unwrap_or_default();
        tree.say(target.triple(), flags);
    }
    tree.say("of the table build", &config.build.rustflags);
    Ok(())
}

pub fn flags_of_variables(tree: &Tree) -> Outcome {
    for variable in [
        ("RUSTFLAGS", "-Ca -Cb"),
        ("CARGO_ENCODED_RUSTFLAGS", "-C\u{1f}a b"),
        ("CARGO_BUILD_RUSTFLAGS", "-Cx"),
        ("CARGO_TARGET_X86_64_UNKNOWN_LINUX_GNU_RUSTFLAGS", "-Cy -Cz"),
        ("RUSTFLAGS", ""),
    ] {
        let config = load(tree, &[variable])?;
        tree.say(variable.0, (config.rustflags(HOST)?, config.rustflags(WASM)?));
    }
    Ok(())
}

pub fn flags_for_docs(tree: &Tree) -> Outcome {
    let config = load(tree, &[])?;
    tree.say("configured", (config.rustdocflags(HOST)?, config.rustdocflags(WASM)?));
    let config = load(tree, &[("RUSTDOCFLAGS", "-D warnings"), ("CARGO_BUILD_RUSTDOCFLAGS", "-Z x")])?;
    tree.say("by a variable", config.rustdocflags(HOST)?);
    Ok(())
}
