//! Settings by environment variables, as a build driver or a CI job makes them.
use crate::tree::{Tree, ARM, HOST, WASM};
use crate::Outcome;
use cargo_config2::{Config, ResolveOptions};
use std::ffi::OsString;

fn load(tree: &Tree, below: &str, variables: &[(&str, &str)]) -> Result<Config, cargo_config2::Error> {
    let options = ResolveOptions::default().env(variables.iter().copied());
    Config::load_with_options(tree.path(below), options)
}

pub fn read_settings_of_ci_job(tree: &Tree) -> Outcome {
    let config = load(
        tree,
        "work/member",
        &[
            ("CARGO_INCREMENTAL", "0"),
            ("CARGO_BUILD_JOBS", "2"),
            ("CARGO_HTTP_TIMEOUT", "120"),
            ("CARGO_HTTP_MULTIPLEXING", "false"),
            ("CARGO_NET_RETRY", "10"),
            ("CARGO_NET_GIT_FETCH_WITH_CLI", "false"),
            ("CARGO_TERM_VERBOSE", "false"),
            ("CARGO_TERM_PROGRESS_WIDTH", "120"),
            ("CARGO_FUTURE_INCOMPAT_REPORT_FREQUENCY", "always"),
            ("CARGO_ALIAS_CI", "test --all"),
            ("CARGO_ALIAS_NEW_ONE", "build"),
        ],
    )?;
    tree.say("build", (config.build.incremental, config.build.jobs));
    tree.say("http", (config.http.timeout, config.http.multiplexing));
    tree.say("net", (config.net.retry, config.net.git_fetch_with_cli));
    tree.say("term", (config.term.verbose, config.term.progress.width));
    tree.say("report", config.future_incompat_report.frequency);
    tree.say("aliases", &config.alias);
    Ok(())
}

pub fn read_tokens_of_ci_job(tree: &Tree) -> Outcome {
    let variables = [
        ("CARGO_REGISTRY_TOKEN", "of crates.io"),
        ("CARGO_REGISTRY_DEFAULT", "tools"),
        ("CARGO_REGISTRIES_COMPANY_TOKEN", "of the company"),
        ("CARGO_REGISTRIES_COMPANY_INDEX", "https://other.example/"),
        ("CARGO_REGISTRIES_NEW_TOKEN", "of a registry that no file has"),
        ("CARGO_REGISTRIES_CRATES_IO_PROTOCOL", "git"),
    ];
    let config = load(tree, "work", &variables)?;
    tree.say("registry", (&config.registry.token, &config.registry.default));
    for (name, registry) in &config.registries {
        tree.say(name, (&registry.index, &registry.token, &registry.protocol));
    }
    Ok(())
}

pub fn switch_wrappers_off(tree: &Tree) -> Outcome {
    tree.put("wrapped/.cargo/config.toml", "[build]\nrustc-wrapper = 'sccache'\nrustc-workspace-wrapper = 'w/x'\n")?;
    for variables in [
        &[][..],
        &[("RUSTC_WRAPPER", "")],
        &[("CARGO_BUILD_RUSTC_WRAPPER", "ccache"), ("RUSTC_WORKSPACE_WRAPPER", "")],
        &[("RUSTC_WRAPPER", ""), ("CARGO_BUILD_RUSTC_WRAPPER", "ccache")],
        &[("CARGO_BUILD_RUSTC", "bin/rustc"), ("RUSTC_WORKSPACE_WRAPPER", "")],
    ] {
        let config = load(tree, "wrapped", variables)?;
        tree.say(&format!("{variables:?}"), config.rustc());
    }
    Ok(())
}

pub fn find_rustc_beside_cargo(tree: &Tree) -> Outcome {
    let cargo = tree.path("bin/cargo");
    let config = Config::load_with_options(tree.path("work"), ResolveOptions::default().cargo(cargo.clone()))?;
    tree.say("chosen", (config.cargo(), config.rustc()));
    let variable = [("CARGO", cargo.into_os_string())];
    let config = Config::load_with_options(tree.path("work"), ResolveOptions::default().env(variable))?;
    tree.say("of the variable CARGO", (config.cargo(), config.rustc()));
    tree.say("versions", (config.cargo_version()?.minor, config.rustc_version()?.minor));
    Ok(())
}

pub fn repeat_variable(tree: &Tree) -> Outcome {
    let repeated = [("CARGO_BUILD_JOBS", "5"), ("CARGO_BUILD_JOBS", "6")];
    tree.say("jobs", load(tree, "work", &repeated)?.build.jobs);
    let home: OsString = tree.path("other-home").into();
    let options = ResolveOptions::default().env([("CARGO_HOME", home)]);
    tree.say("the home isn't one of these", Config::load_with_options(tree.path("work"), options)?.term.verbose);
    Ok(())
}

pub fn set_empty_values(tree: &Tree) -> Outcome {
    for name in ["CARGO_BUILD_TARGET_DIR", "CARGO_TARGET_DIR", "CARGO_BUILD_TARGET", "CARGO_BUILD_JOBS"] {
        match load(tree, "work", &[(name, "")]) {
            Ok(config) => tree.say(name, (&config.build.target_dir, &config.build.target)),
            Err(error) => tree.say(name, error.to_string()),
        }
    }
    let of_target = "CARGO_TARGET_WASM32_UNKNOWN_UNKNOWN_RUSTFLAGS";
    for name in ["RUSTFLAGS", "CARGO_ENCODED_RUSTFLAGS", "CARGO_BUILD_RUSTFLAGS", of_target] {
        let config = load(tree, "work", &[(name, "")])?;
        let flags = [config.rustflags(HOST)?, config.rustflags(WASM)?];
        tree.say(name, flags.map(|flags| flags.map(|flags| flags.flags.len())));
    }
    let config = load(tree, "work", &[("CARGO_TARGET_AARCH64_UNKNOWN_LINUX_GNU_RUNNER", " ")])?;
    tree.say("an empty runner", config.runner(ARM).map_err(|error| error.to_string()));
    Ok(())
}

pub fn set_empty_lists(tree: &Tree) -> Outcome {
    let text = "[build]\ntarget = []\nrustflags = []\nrustdocflags = ''\n[alias]\nnone = []\nempty = ''\n\
                [target.aarch64-unknown-linux-gnu]\nrustflags = []\n";
    tree.put("emptied/.cargo/config.toml", text)?;
    let config = Config::load_with_options(tree.path("emptied"), ResolveOptions::default().cargo_home(None))?;
    tree.say("build", (&config.build.target, &config.build.rustflags, &config.build.rustdocflags));
    tree.say("targets", config.build_target_for_config([""; 0])?.len());
    tree.say("flags", (config.rustflags(ARM)?, config.rustdocflags(ARM)?));
    tree.say("aliases", &config.alias);
    Ok(())
}
