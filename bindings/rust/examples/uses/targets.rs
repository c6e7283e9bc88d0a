//! Selecting what is built.
use crate::tree::{Tree, ARM, HOST, WASM};
use crate::Outcome;
use cargo_config2::{Config, ResolveOptions, TargetTriple, TargetTripleRef};
use std::borrow::Cow;
use std::collections::{BTreeSet, HashMap};

fn load(tree: &Tree) -> Result<Config, cargo_config2::Error> {
    Config::load_with_cwd(tree.path("work"))
}

fn say_targets(tree: &Tree, targets: &[TargetTriple]) {
    for target in targets {
        tree.say(target.triple(), target.spec_path());
    }
}

pub fn build_for_host(tree: &Tree) -> Outcome {
    let config = load(tree)?;
    say_targets(tree, &config.build_target_for_config(None::<&str>)?);
    tree.say("arguments", config.build_target_for_cli(None::<&str>)?);
    Ok(())
}

pub fn build_for_one_target(tree: &Tree) -> Outcome {
    let config = load(tree)?;
    let argument = Some(ARM.to_owned());
    let mut targets = config.build_target_for_config(argument.as_ref())?;
    if targets.len() != 1 {
        return Err(format!("several targets aren't supported: {targets:?}").into());
    }
    tree.say("target", targets.pop().map(|target| target.triple().to_owned()));
    tree.say("argument", config.build_target_for_cli(argument)?.pop());
    Ok(())
}

pub fn build_for_two_targets(tree: &Tree) -> Outcome {
    let config = load(tree)?;
    let arguments = vec![WASM.to_owned(), ARM.to_owned()];
    say_targets(tree, &config.build_target_for_config(&arguments)?);
    say_targets(tree, &config.build_target_for_config([WASM, WASM])?);
    let command: Vec<_> = config.build_target_for_cli(&arguments)?.iter().map(|it| format!("--target={it}")).collect();
    tree.say("arguments", command);
    Ok(())
}

pub fn build_for_spec_path(tree: &Tree) -> Outcome {
    let config = load(tree)?;
    let absolute = tree.path("work/kernel.json").display().to_string();
    for path in ["kernel.json", "specs/kernel.JSON", "specs/plain", absolute.as_str()] {
        say_targets(tree, &config.build_target_for_config([path])?);
        tree.say("argument", config.build_target_for_cli([path])?);
    }
    Ok(())
}

pub fn build_for_configured_targets(tree: &Tree) -> Outcome {
    tree.put("several/.cargo/config.toml", "build.target = ['wasm32-unknown-unknown', 'specs/kernel.json']\n")?;
    let config = Config::load_with_cwd(tree.path("several/below"))?;
    tree.say("configured", config.build.target.as_ref().map(Vec::len));
    say_targets(tree, &config.build_target_for_config([""; 0])?);
    tree.say("arguments", config.build_target_for_cli([""; 0])?);
    tree.say("overridden", config.build_target_for_cli([HOST])?);
    Ok(())
}

pub fn build_for_target_of_variable(tree: &Tree) -> Outcome {
    for value in [ARM, "specs/kernel.json", "/kernel.json"] {
        let options = ResolveOptions::default().env([("CARGO_BUILD_TARGET", value)]);
        let config = Config::load_with_options(tree.path("several"), options)?;
        say_targets(tree, &config.build_target_for_config(None::<String>)?);
        tree.say("arguments", config.build_target_for_cli(None::<String>)?);
    }
    Ok(())
}

pub fn configure_custom_target(tree: &Tree) -> Outcome {
    let text = "[target.kernel]\nlinker = 'bin/ld'\nrunner = 'emulate -m 1G'\nrustflags = '-Cpanic=abort'\n";
    tree.put("custom/.cargo/config.toml", text)?;
    let config = Config::load_with_options(tree.path("custom"), ResolveOptions::default().cargo_home(None))?;
    for target in ["kernel", "specs/kernel.json"] {
        tree.say(target, (config.linker(target)?, config.runner(target)?, config.rustflags(target)?));
    }
    Ok(())
}

pub fn configure_target_with_dot(tree: &Tree) -> Outcome {
    let target = "thumbv8m.main-none-eabi";
    tree.put("dotted/.cargo/config.toml", "[target.\"thumbv8m.main-none-eabi\"]\nlinker = 'flip-link'\n")?;
    tree.put("nested/.cargo/config.toml", "[target.thumbv8m.main-none-eabi]\nlinker = 'flip-link'\n")?;
    let variables = [("CARGO_TARGET_THUMBV8M_MAIN_NONE_EABI_RUNNER", "probe-rs run")];
    for folder in ["dotted", "nested"] {
        let options = ResolveOptions::default().env(variables).cargo_home(None);
        let config = Config::load_with_options(tree.path(folder), options)?;
        tree.say(folder, (config.linker(target)?, config.runner(target)?));
    }
    Ok(())
}

pub fn make_triples(tree: &Tree) -> Outcome {
    let owned = ARM.to_owned();
    let boxed: Box<str> = ARM.into();
    let mut triples = vec![TargetTripleRef::from(ARM), (&owned).into(), (&boxed).into()];
    triples.push(TargetTriple::from(owned.clone()));
    triples.push(boxed.clone().into());
    let first = triples[0].clone();
    triples.push(TargetTripleRef::from(&first));
    tree.say("all equal", triples.iter().all(|triple| *triple == first));
    tree.say("of a path", TargetTriple::from("a/b.json".to_owned()));
    Ok(())
}

pub fn keep_triples_in_collections(tree: &Tree) -> Outcome {
    let config = load(tree)?;
    let mut linkers = HashMap::new();
    for target in config.build_target_for_config([HOST, ARM, WASM])? {
        let linker = config.linker(&target)?;
        linkers.insert(target, linker);
    }
    tree.say("how many", linkers.len());
    tree.say("one", linkers.get(&TargetTriple::from(ARM.to_owned())));
    let sorted: BTreeSet<_> = [WASM, ARM, "x/arm.json", "arm", WASM].map(TargetTripleRef::from).into();
    tree.say("sorted", sorted.iter().map(TargetTripleRef::triple).collect::<Vec<_>>());
    tree.say("a path isn't a name", TargetTripleRef::from("x/arm.json") == TargetTripleRef::from("arm"));
    tree.say("order", TargetTripleRef::from(ARM).cmp(&WASM.into()));
    Ok(())
}

pub fn outlive_borrowed_triple(tree: &Tree) -> Outcome {
    let kept: TargetTriple = {
        let argument = String::from("specs/kernel.json");
        TargetTripleRef::from(&argument).into_owned()
    };
    tree.say("triple", kept.triple());
    tree.say("path", kept.spec_path().map(|path| path.to_string_lossy()).unwrap_or(Cow::Borrowed("none")));
    Ok(())
}
