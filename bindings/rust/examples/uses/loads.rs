//! Loads, and what is chosen for them.
use crate::tree::{Tree, HOST};
use crate::Outcome;
use cargo_config2::{BuildConfig, Config, PathAndArgs, ResolveOptions};
use std::collections::HashMap;
use std::path::PathBuf;

fn say_build(tree: &Tree, label: &str, build: &BuildConfig) {
    tree.say(label, (build.jobs, &build.target_dir, build.incremental));
}

pub fn load_current_directory(tree: &Tree) -> Outcome {
    let config = Config::load()?;
    say_build(tree, "build", &config.build);
    tree.say("dep-info", config.build.dep_info_basedir);
    Ok(())
}

pub fn load_given_directory(tree: &Tree) -> Outcome {
    let path = tree.path("work");
    say_build(tree, "by a path", &Config::load_with_cwd(&path)?.build);
    say_build(tree, "by a text", &Config::load_with_cwd(path.display().to_string())?.build);
    say_build(tree, "below it", &Config::load_with_cwd(path.join("member/src"))?.build);
    Ok(())
}

pub fn load_relative_directory(tree: &Tree) -> Outcome {
    for path in [".", "..", "../member/src", "", "src/"] {
        say_build(tree, path, &Config::load_with_cwd(path)?.build);
    }
    let path = tree.path("work/member/../member/");
    say_build(tree, "with dots", &Config::load_with_cwd(path)?.build);
    Ok(())
}

pub fn load_nearest_file_first(tree: &Tree) -> Outcome {
    for folder in ["home", "work", "work/member"] {
        let config = Config::load_with_cwd(tree.path(folder))?;
        tree.say(folder, (config.build.jobs, config.term.color, config.net.offline));
    }
    Ok(())
}

pub fn load_without_files(tree: &Tree) -> Outcome {
    let none: [(&str, &str); 0] = [];
    let options = ResolveOptions::default().env(none).cargo_home(None);
    let config = Config::load_with_options(tree.path("empty"), options)?;
    tree.say("build", &config.build.rustflags);
    tree.say("tables", (config.alias.len(), config.env.len(), config.source.len()));
    tree.say("http", &config.http);
    tree.say("programs", (config.rustc(), config.cargo()));
    Ok(())
}

pub fn choose_variables(tree: &Tree) -> Outcome {
    let chosen = [("CARGO_BUILD_JOBS", "16"), ("CARGO_TERM_COLOR", "never"), ("CARGO_NET_OFFLINE", "false")];
    let options = ResolveOptions::default().env(chosen);
    let config = Config::load_with_options(tree.path("work/member"), options)?;
    tree.say("of an array", (config.build.jobs, config.term.color, config.net.offline));

    let map: HashMap<String, PathBuf> = [("CARGO_TARGET_DIR".to_owned(), "chosen".into())].into();
    let config = Config::load_with_options(tree.path("work"), ResolveOptions::default().env(map))?;
    tree.say("of a map", &config.build.target_dir);
    let inherited = std::env::vars_os().chain([("CARGO_BUILD_JOBS".into(), "1".into())]);
    let config = Config::load_with_options(tree.path("work"), ResolveOptions::default().env(inherited))?;
    tree.say("of the process and one more", config.build.jobs);
    Ok(())
}

pub fn choose_programs(tree: &Tree) -> Outcome {
    let mut rustc = PathAndArgs::new("clippy-driver");
    rustc.arg("--rustc");
    let options = ResolveOptions::default().rustc(rustc).cargo(tree.path("none/cargo")).host_triple(HOST);
    let config = Config::load_with_options(tree.path("work"), options)?;
    tree.say("rustc", config.rustc());
    tree.say("cargo", config.cargo());
    tree.say("host", config.host_triple()?);
    tree.say("started", tree.take_starts()?);
    Ok(())
}

pub fn choose_cargo_home(tree: &Tree) -> Outcome {
    let load = |options| Config::load_with_options(tree.path("work"), options);
    tree.put("other-home/config.toml", "build.jobs = 99\nterm.quiet = true\n")?;
    let other = load(ResolveOptions::default().cargo_home(tree.path("other-home")))?;
    tree.say("another", (other.build.jobs, other.term.quiet, other.term.verbose));
    let none = load(ResolveOptions::default().cargo_home(None))?;
    tree.say("none", (none.build.jobs, none.term.quiet, none.term.verbose));
    Ok(())
}

pub fn share_options_between_members(tree: &Tree) -> Outcome {
    let options = ResolveOptions::default().env([("CARGO_BUILD_INCREMENTAL", "true")]).host_triple(HOST);
    for member in ["work", "work/member"] {
        let config = Config::load_with_options(tree.path(member), options.clone())?;
        say_build(tree, member, &config.build);
    }
    Ok(())
}
