//! A directory's configuration, loaded and asked as a caller would.
use cargo_rules::{
    Config, FileTable, Flags, Launcher, Machine, NoMemory, ProgramTable, RealPathTable, RunAnswer,
    TargetConfig, VariableTable,
};
use std::alloc::Global;
use std::fmt::Debug;
use std::process::Abort;
use std::test::Fail;

const HOST: &str = "x86_64-unknown-linux-gnu";

const NEAR: &str =
    "include = ['more.toml']\nbuild.rustc-wrapper = 'w'\n[env]\nRUSTC_BOOTSTRAP = '1'\n\
    [target.'cfg(unix)']\nlinker = 'ld'\nrustflags = ['-b']\n";

fn owned(alloc: Global, texts: &[&str]) -> Result<Vec<String>, NoMemory> {
    let mut all = Vec::new(alloc);
    for text in texts {
        all.push(String::from_str(alloc, *text)?)?;
    }
    Ok(all)
}

fn put(alloc: Global, files: &mut FileTable, path: &str, text: &str) -> Result<(), Fail> {
    let content = String::from_str(alloc, text)?.into_bytes();
    files.put(String::from_str(alloc, path)?, Some(content))?;
    Ok(())
}

fn machine(alloc: Global, variables: &[(&str, &str)]) -> Result<Machine, Fail> {
    let mut env = Vec::new(alloc);
    for (name, text) in variables {
        let name = String::from_str(alloc, name)?;
        env.push((name, String::from_str(alloc, text)?.into_bytes()))?;
    }
    Ok(Machine {
        current_dir: String::from_str(alloc, "/p")?,
        env,
        home: None,
    })
}

// What is asked of the configuration of `/p`, or the error, as they are shown.
fn shown(
    alloc: Global,
    near: &str,
    variables: &[(&str, &str)],
    overrides: &[&str],
    asked: Asked<'_>,
) -> Result<String, Fail> {
    let mut files = FileTable::new(alloc);
    put(alloc, &mut files, "/p/.cargo/config.toml", near)?;
    let more = "build.rustflags = ['-a']";
    put(alloc, &mut files, "/p/.cargo/more.toml", more)?;
    let reals = RealPathTable::new(alloc);
    let machine = machine(alloc, variables)?;
    match Config::load(alloc, "/p", overrides, machine, &files, &reals) {
        Ok(config) => answered(alloc, config, asked),
        Err(error) => Ok(format!(in alloc; "{error}")?),
    }
}

fn answered(alloc: Global, config: Config, asked: Asked<'_>) -> Result<String, Fail> {
    let launcher = &TableLauncher {};
    match asked {
        Asked::Rustc => text(alloc, config.rustc(alloc)),
        Asked::Env => text(alloc, config.env(alloc)),
        Asked::Host => text(alloc, config.host(alloc, launcher)),
        Asked::Targets(texts) => text(alloc, config.targets(alloc, texts, launcher)),
        Asked::Target(triple) => {
            let target = config.target(alloc, triple, launcher);
            settings_text(alloc, target)
        }
        Asked::HostArtifacts(texts) => {
            match config.host_artifacts(alloc, texts, launcher) {
                Ok(found) => settings_text(alloc, Ok(found.settings)),
                Err(error) => Ok(format!(in alloc; "{error}")?),
            }
        }
        Asked::Loaded => Ok(format!(in alloc; "{:?}", config.settings())?),
        Asked::UnderVariables => text(alloc, config.under_variables(alloc, &[])),
    }
}

// A result, as it is shown.
fn text<T: Debug + Drop>(alloc: Global, found: cargo_rules::Result<T>) -> Result<String, Fail> {
    match found {
        Ok(value) => Ok(format!(in alloc; "{value:?}")?),
        Err(error) => Ok(format!(in alloc; "{error}")?),
    }
}

// The linker, the runner and the flags.
fn settings_text(alloc: Global, found: cargo_rules::Result<TargetConfig>) -> Result<String, Fail> {
    match found {
        Ok(target) => {
            let linker = &target.linker;
            let runner = &target.runner;
            let flags = words(&target.rustflags);
            let doc_flags = words(&target.rustdocflags);
            Ok(format!(in alloc; "{linker:?} {runner:?} {flags:?} {doc_flags:?}")?)
        }
        Err(error) => Ok(format!(in alloc; "{error}")?),
    }
}

// Lets the wrapper's rustc write a text.
fn answer(
    alloc: Global,
    programs: &mut ProgramTable,
    args: &[&str],
    text: &str,
) -> Result<(), NoMemory> {
    let done = RunAnswer::Done {
        code: Some(0),
        stdout: String::from_str(alloc, text)?.into_bytes(),
        stderr: Vec::new(alloc),
    };
    programs.put(String::from_str(alloc, "w")?, owned(alloc, args)?, done)?;
    Ok(())
}

// Programs that answer where `RUSTC_BOOTSTRAP` is `1` alone.
fn programs(alloc: Global) -> Result<VariableTable, NoMemory> {
    let mut with = ProgramTable::new(alloc);
    let version = "release: 1.95.0\nhost: x86_64-unknown-linux-gnu\n";
    answer(alloc, &mut with, &["rustc", "-vV"], version)?;
    for flags in ["", "-a", "-b"] {
        let mut args = Vec::new(alloc);
        args.push("rustc")?;
        for flag in flags.split_whitespace() {
            args.push(flag)?;
        }
        for arg in ["--print", "cfg", "--target", HOST] {
            args.push(arg)?;
        }
        answer(alloc, &mut with, args.as_slice(), "unix\n")?;
    }
    let mut variables = Vec::new(alloc);
    let name = String::from_str(alloc, "RUSTC_BOOTSTRAP")?;
    variables.push((name, String::from_str(alloc, "1")?))?;
    let mut table = VariableTable::new(alloc, ProgramTable::new(alloc));
    table.add(variables, with)?;
    Ok(table)
}

// Makes these programs.
#[derive(Drop)]
struct TableLauncher {}

impl Launcher for TableLauncher {
    type Runs = VariableTable;

    ghost told_with = { λ _ _. ⊥ };

    fn launch(&self, alloc: Global) -> Result<VariableTable, NoMemory> {
        programs(alloc)
    }
}

// A question of a configuration.
#[derive(Clone, Copy)]
enum Asked<'a> {
    Rustc,
    Env,
    Host,
    Targets(&'a [&'a str]),
    Target(&'a str),
    HostArtifacts(&'a [&'a str]),
    Loaded,
    UnderVariables,
}

// The words of flags.
fn words(flags: &Option<Flags>) -> &[String] {
    match flags {
        Some(flags) => flags.flags.as_slice(),
        None => &[],
    }
}

fn expect(
    rt: &impl Abort,
    alloc: Global,
    asked: Asked<'_>,
    overrides: &[&str],
    expected: &str,
) -> Result<(), Fail> {
    let found = shown(
        alloc,
        NEAR,
        &[("CARGO_BUILD_RUSTDOCFLAGS", "-d")],
        overrides,
        asked,
    )?;
    assert_eq!(rt; found.as_str(), expected);
    Ok(())
}

#[test]
fn rustc_is_run_by_its_wrapper_under_variables_of_env(rt: HostRuntime) -> Result<(), Fail> {
    let alloc = rt.alloc();
    let rustc = "PathAndArgs { path: \"w\", args: [\"rustc\"] }";
    expect(&rt, alloc, Asked::Rustc, &[], rustc)?;
    expect(
        &rt,
        alloc,
        Asked::Env,
        &[],
        "[(\"RUSTC_BOOTSTRAP\", \"1\")]",
    )?;
    expect(&rt, alloc, Asked::Host, &[], "\"x86_64-unknown-linux-gnu\"")?;
    let none = &["env.RUSTC_BOOTSTRAP='2'"];
    let error = "could not execute process `w rustc -vV` (never executed)";
    expect(&rt, alloc, Asked::Host, none, error)
}

#[test]
fn targets_are_those_that_are_asked_for(rt: HostRuntime) -> Result<(), Fail> {
    let alloc = rt.alloc();
    let host = "[\"x86_64-unknown-linux-gnu\"]";
    expect(&rt, alloc, Asked::Targets(&[]), &[], host)?;
    expect(&rt, alloc, Asked::Targets(&["host-tuple"]), &[], host)?;
    expect(
        &rt,
        alloc,
        Asked::Targets(&["a", "b"]),
        &[],
        "[\"a\", \"b\"]",
    )?;
    expect(
        &rt,
        alloc,
        Asked::Targets(&[]),
        &["build.target='c'"],
        "[\"c\"]",
    )
}

#[test]
fn a_target_has_its_linker_and_flags(rt: HostRuntime) -> Result<(), Fail> {
    let alloc = rt.alloc();
    let both = "Some(\"ld\") None [\"-b\"] [\"-d\"]";
    expect(&rt, alloc, Asked::Target(HOST), &[], both)?;
    let two = &["target.'cfg(all())'.linker='x'"];
    let error =
        "several matching instances of `target.'cfg(..)'.linker`: `cfg(all())` and `cfg(unix)`";
    expect(&rt, alloc, Asked::Target(HOST), two, error)
}

#[test]
fn queries_follow_each_other(rt: HostRuntime) -> Result<(), Fail> {
    let alloc = rt.alloc();
    let mut files = FileTable::new(alloc);
    put(alloc, &mut files, "/p/.cargo/config.toml", NEAR)?;
    put(alloc, &mut files, "/p/.cargo/more.toml", "")?;
    let reals = RealPathTable::new(alloc);
    let machine = machine(alloc, &[])?;
    let config = Config::load(alloc, "/p", &[], machine, &files, &reals)?;
    let launcher = &TableLauncher {};
    for _time in 0..2 {
        let host = config.host(alloc, launcher)?;
        assert_eq!(&rt; host.as_str(), HOST);
        let target = settings_text(alloc, config.target(alloc, HOST, launcher))?;
        assert_eq!(&rt; target.as_str(), "Some(\"ld\") None [\"-b\"] []");
    }
    Ok(())
}

#[test]
fn build_scripts_have_no_flags_where_targets_are_given(rt: HostRuntime) -> Result<(), Fail> {
    let alloc = rt.alloc();
    let all = "Some(\"ld\") None [\"-b\"] [\"-d\"]";
    expect(&rt, alloc, Asked::HostArtifacts(&[]), &[], all)?;
    expect(
        &rt,
        alloc,
        Asked::HostArtifacts(&[HOST]),
        &[],
        "Some(\"ld\") None [] []",
    )
}

#[test]
fn variables_count_where_they_are_asked_for(rt: HostRuntime) -> Result<(), Fail> {
    let alloc = rt.alloc();
    let variables = &[("CARGO_BUILD_JOBS", "2")];
    let found = shown(alloc, "", variables, &[], Asked::Loaded)?;
    assert_eq!(&rt; found.as_str(), "{}");
    let found = shown(alloc, "", variables, &[], Asked::UnderVariables)?;
    let jobs = "{\"build\": Table({\"jobs\": Single(Value { val: Integer(2), \
        definition: Some(Environment(\"CARGO_BUILD_JOBS\")) })})}";
    assert_eq!(&rt; found.as_str(), jobs);
    Ok(())
}

#[test]
fn what_is_not_loaded_is_an_error(rt: HostRuntime) -> Result<(), Fail> {
    let alloc = rt.alloc();
    let error = "failed to parse `/p/.cargo/config.toml` as cargo configuration";
    let found = shown(alloc, "include = 1", &[], &[], Asked::Rustc)?;
    assert_eq!(&rt; found.as_str(), error);
    Ok(())
}
