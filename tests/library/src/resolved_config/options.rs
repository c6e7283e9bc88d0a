//! What is chosen for a load, and what it comes to: Cargo's home, its program, rustc, the host, variables, overrides.
use crate::resolved_config::targets::{behind_spaces, listed};
use cargo_config2::{
    Config, Error, FileTable, Machine, PathAndArgs, ProgramTable, ResolveOptions, RunAnswer,
};
use std::alloc::Global;
use std::result::Result;
use std::test::Fail;

// What is chosen, the directory, the question, the answer, and how many runs there were.
const ROWS: &[(&str, &str, &str, &str, u64)] = &[
    ("nothing", "/d", "jobs", "Some(1)", 0),
    ("no home", "/d", "jobs", "None", 0),
    ("home", "/d", "jobs", "Some(2)", 0),
    ("nothing", "/d", "rustdoc", "Some(\"m\")", 0),
    ("env", "/d", "rustdoc", "Some(\"b\")", 0),
    (
        "nothing",
        "/d",
        "host",
        "could not execute process `rustc -vV` (never executed)",
        2,
    ),
    ("host", "/d", "host", "h", 0),
    ("host", "/d", "targets", " h", 0),
    ("nothing", "/p", "rustc", "w rustc", 0),
    ("rustc", "/p", "rustc", "r -x", 0),
    (
        "rustc",
        "/p",
        "version",
        "RustcVersion { major: 1, minor: 70, patch: Some(0), nightly: false }",
        2,
    ),
    ("cargo", "/d", "cargo", "/", 0),
    ("cargo", "/d", "rustc", "/rustc", 0),
    ("file", "/d", "target-dir", "Some(\"/x/u\")", 0),
    (
        "file without root",
        "/d",
        "target-dir",
        "no root above `/o.toml` for `u`",
        0,
    ),
];

fn text(alloc: Global, text: &str) -> Result<String, Error> {
    Ok(String::from_str(alloc, text)?)
}

fn files(alloc: Global) -> Result<FileTable, Error> {
    let mut files = FileTable::new(alloc);
    for (path, content) in [
        ("/p/.cargo/config.toml", "build.rustc-wrapper = 'w'"),
        ("/u/.cargo/config.toml", "build.jobs = 1"),
        ("/h/config.toml", "build.jobs = 2"),
        ("/x/y/o.toml", "build.target-dir = 'u'"),
        ("/o.toml", "build.target-dir = 'u'"),
        ("/rustc", ""),
    ] {
        let bytes = Vec::from_slice(alloc, content.as_bytes())?;
        files.put(text(alloc, path)?, Some(bytes))?;
    }
    Ok(files)
}

// Variables of one name with these values.
fn variables(alloc: Global, values: &[&str]) -> Result<Vec<(String, Vec<u8>)>, Error> {
    let mut env = Vec::new(alloc);
    for value in values {
        let value = Vec::from_slice(alloc, value.as_bytes())?;
        env.push((text(alloc, "CARGO_BUILD_RUSTDOC")?, value))?;
    }
    Ok(env)
}

fn machine(alloc: Global) -> Result<Machine, Error> {
    Ok(Machine {
        current_dir: text(alloc, "/q")?,
        env: variables(alloc, &["m"])?,
        home: Some(text(alloc, "/u")?),
    })
}

// What the command `r -x` says to `-vV`.
fn programs(alloc: Global) -> Result<ProgramTable, Error> {
    let mut programs = ProgramTable::new(alloc);
    let mut args = Vec::new(alloc);
    args.push(text(alloc, "-x")?)?;
    args.push(text(alloc, "-vV")?)?;
    let answer = RunAnswer::Done {
        code: Some(0),
        stdout: Vec::from_slice(alloc, b"release: 1.70.0\nhost: g\n")?,
        stderr: Vec::new(alloc),
    };
    programs.put(text(alloc, "r")?, args, answer)?;
    Ok(programs)
}

fn options(alloc: Global, chosen: &str) -> Result<ResolveOptions, Error> {
    let options = ResolveOptions::default();
    match chosen {
        "host" => Ok(options.host_triple(text(alloc, "h")?)),
        "rustc" => {
            let mut rustc = PathAndArgs::new(alloc, text(alloc, "r")?);
            rustc.push_arg(text(alloc, "-x")?)?;
            Ok(options.rustc(rustc))
        }
        "cargo" => Ok(options.cargo(text(alloc, "/")?)),
        "no home" => Ok(options.cargo_home(None)),
        "home" => Ok(options.cargo_home(Some(text(alloc, "/h")?))),
        "env" => options.env(alloc, variables(alloc, &["a", "b"])?),
        "file" => options.config_file(alloc, text(alloc, "/x/y/o.toml")?),
        "file without root" => options.config_file(alloc, text(alloc, "/o.toml")?),
        _ => Ok(options),
    }
}

fn answered(
    alloc: Global,
    config: &mut Config,
    question: &str,
    files: &FileTable,
    programs: &mut ProgramTable,
) -> Result<String, Error> {
    match question {
        "jobs" => Ok(format!(in alloc; "{:?}", config.build.jobs)?),
        "rustdoc" => Ok(format!(in alloc; "{:?}", config.build.rustdoc)?),
        "target-dir" => Ok(format!(in alloc; "{:?}", config.build.target_dir)?),
        "cargo" => text(alloc, config.cargo()),
        "rustc" => command_line(alloc, config, files),
        "version" => {
            let version = config.rustc_version(alloc, files, programs)?;
            Ok(format!(in alloc; "{version:?}")?)
        }
        "targets" => {
            let targets = config.build_target_for_config(alloc, &[], files, programs)?;
            listed(alloc, targets.as_slice())
        }
        _ => host(alloc, config, files, programs),
    }
}

fn command_line(alloc: Global, config: &mut Config, files: &FileTable) -> Result<String, Error> {
    match config.rustc(alloc, files) {
        Ok(command) => words_of(alloc, &command),
        Err(error) => Err(error),
    }
}

fn words_of(alloc: Global, command: &PathAndArgs) -> Result<String, Error> {
    let args = behind_spaces(alloc, command.args.as_slice())?;
    let path = command.path.as_str();
    Ok(format!(in alloc; "{path}{args}")?)
}

fn host(
    alloc: Global,
    config: &mut Config,
    files: &FileTable,
    programs: &mut ProgramTable,
) -> Result<String, Error> {
    match config.host_triple(alloc, files, programs) {
        Ok(host) => text(alloc, host.as_str()),
        Err(error) => Err(error),
    }
}

// The answer by a configuration that is loaded for it.
fn asked(
    alloc: Global,
    chosen: &str,
    directory: &str,
    question: &str,
    programs: &mut ProgramTable,
) -> Result<String, Error> {
    let files = files(alloc)?;
    let machine = machine(alloc)?;
    let options = options(alloc, chosen)?;
    let mut config = Config::load_with_options(alloc, directory, options, &machine, &files)?;
    let answer = answered(alloc, &mut config, question, &files, programs);
    drop(config);
    answer
}

#[test]
fn what_is_chosen_counts(rt: HostRuntime) -> Result<(), Fail> {
    let alloc = rt.alloc();
    for (chosen, directory, question, expected, runs) in ROWS {
        let mut programs = programs(alloc)?;
        let shown = match asked(alloc, *chosen, *directory, *question, &mut programs) {
            Ok(answer) => answer,
            Err(error) => format!(in alloc; "{error}")?,
        };
        assert_eq!(rt; shown.as_str(), *expected, "{chosen} {question}");
        assert_eq!(rt; programs.runs(), *runs);
    }
    Ok(())
}
