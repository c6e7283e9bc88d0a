//! Overrides of a command line above a configuration: what they make of it, and each refusal with its lines.
use crate::files::made::{files, machine};
use crate::files::outcomes::lines;
use cc2_de::{Config, Definition, ResolveContext, ResolveOptions};
use cc2_error::error::Error;
use std::alloc::Global;
use std::result::Result;
use std::test::Fail;

// One override more: a file where `@` is before its path, else a text.
fn choose(alloc: Global, options: ResolveOptions, one: &str) -> Result<ResolveOptions, Error> {
    match one.strip_prefix("@") {
        Some(path) => options.config_file(alloc, String::from_str(alloc, path)?),
        None => options.config_text(alloc, String::from_str(alloc, one)?),
    }
}

// What a test chooses.
fn context(alloc: Global, overrides: &[&str]) -> Result<ResolveContext, Error> {
    let machine = machine(alloc, "/p/q")?;
    let directory = String::from_str(alloc, "/p/q")?;
    let mut options = ResolveOptions::default();
    for one in overrides {
        options = choose(alloc, options, one)?;
    }
    options.into_context(alloc, directory, &machine)
}

// Two files that are merged, and two that overrides name.
const FILES: &[(&str, &str)] = &[
    (
        "/p/q/.cargo/config.toml",
        "build.jobs = 4\nbuild.rustflags = ['a']",
    ),
    (
        "/p/.cargo/config.toml",
        "build.jobs = 8\nbuild.target-dir = 't'\nbuild.rustflags = ['b']",
    ),
    ("/p/q/o.toml", "build.jobs = 1\nbuild.target-dir = 'u'"),
    ("/x/bad.toml", "build.jobs = 'x'"),
];

// The configuration of the walked files under these overrides.
fn under(alloc: Global, overrides: &[&str]) -> Result<Config, Error> {
    let files = files(alloc, FILES)?;
    let context = context(alloc, overrides)?;
    let config = Config::load_with_options(alloc, "/p/q", None, &files)?;
    config.apply_overrides(alloc, &context, &files)
}

// What that configuration sets; of a refusal its lines.
fn told(alloc: Global, overrides: &[&str]) -> Result<String, Fail> {
    match under(alloc, overrides) {
        Ok(config) => {
            let text = settings(alloc, &config);
            drop(config);
            text
        }
        Err(error) => lines(alloc, &error),
    }
}

// The jobs, the target directory and the flags, each with where it was set.
fn settings(alloc: Global, config: &Config) -> Result<String, Fail> {
    let mut text = String::new(alloc);
    if let Some(jobs) = &config.build.jobs {
        text.push_str(line(alloc, &jobs.val, &jobs.definition)?.as_str())?;
    }
    if let Some(dir) = &config.build.target_dir {
        text.push_str(line(alloc, &dir.val, &dir.definition)?.as_str())?;
    }
    if let Some(flags) = &config.build.rustflags {
        for flag in &flags.flags {
            text.push_str(line(alloc, &flag.val, &flag.definition)?.as_str())?;
        }
    }
    Ok(text)
}

fn line<T: std::fmt::Display>(
    alloc: Global,
    value: &T,
    definition: &Option<Definition>,
) -> Result<String, Fail> {
    match definition {
        Some(definition) => Ok(format!(in alloc; "{value} # {definition}\n")?),
        None => Ok(format!(in alloc; "{value}\n")?),
    }
}

#[test]
fn overrides_stand_above_the_files(rt: HostRuntime) -> Result<(), Fail> {
    let alloc = rt.alloc();
    for (overrides, expected) in [
        (
            ["build.jobs=2", "build.rustflags=['c']"].as_slice(),
            "2 # --config cli option\nt # /p/.cargo/config.toml\nb # /p/.cargo/config.toml\na # /p/q/.cargo/config.toml\nc # --config cli option\n",
        ),
        (
            ["build.rustflags=['c']", "build.rustflags=['d']"].as_slice(),
            "4 # /p/q/.cargo/config.toml\nt # /p/.cargo/config.toml\nb # /p/.cargo/config.toml\na # /p/q/.cargo/config.toml\nc # --config cli option\nd # --config cli option\n",
        ),
        (
            ["build.jobs=2", "@o.toml"].as_slice(),
            "1 # /p/q/o.toml\nu # /p/q/o.toml\nb # /p/.cargo/config.toml\na # /p/q/.cargo/config.toml\n",
        ),
        (
            ["@/p/q/o.toml", "build.jobs=2"].as_slice(),
            "2 # --config cli option\nu # /p/q/o.toml\nb # /p/.cargo/config.toml\na # /p/q/.cargo/config.toml\n",
        ),
        (
            [].as_slice(),
            "4 # /p/q/.cargo/config.toml\nt # /p/.cargo/config.toml\nb # /p/.cargo/config.toml\na # /p/q/.cargo/config.toml\n",
        ),
    ] {
        assert_eq!(rt; told(alloc, overrides)?.as_str(), expected);
    }
    Ok(())
}

#[test]
fn overrides_are_refused_by_number_or_path(rt: HostRuntime) -> Result<(), Fail> {
    let alloc = rt.alloc();
    for (overrides, expected) in [
        (
            ["build.jobs=1", "build.jobs='x'"].as_slice(),
            "failed to parse override 2 as cargo configuration\nwrong type at `build.jobs`",
        ),
        (
            ["@/x/bad.toml"].as_slice(),
            "failed to parse `/x/bad.toml` as cargo configuration\nwrong type at `build.jobs`",
        ),
        (
            ["@o.toml", "target.x.runner=''"].as_slice(),
            "failed to parse override 2 as cargo configuration\ninvalid length 0, expected at least one element",
        ),
        (
            ["build.rustflags='c'"].as_slice(),
            "failed to merge config into `--config 1`\nexpected string, but found array",
        ),
        (
            ["build.rustflags=['c']", "build.rustflags='d'"].as_slice(),
            "failed to merge config from `--config 1` into `--config 2`\nexpected string, but found array",
        ),
        (
            [
                "build.rustflags='c'",
                "build.jobs=1",
                "build.rustflags=['d']",
            ]
            .as_slice(),
            "failed to merge config from `--config 1` into `--config 3`\nexpected array, but found string",
        ),
    ] {
        assert_eq!(rt; told(alloc, overrides)?.as_str(), expected);
    }
    Ok(())
}
