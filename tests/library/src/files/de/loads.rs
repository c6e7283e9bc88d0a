//! A load from the machine's directory, and origins.
use crate::files::made::{files, machine};
use crate::files::outcomes::printed;
use cc2_de::Config;
use cc2_leaf::Definition;
use std::alloc::Global;
use std::result::Result;
use std::test::Fail;

// The jobs of a configuration; 0 where there are none.
fn jobs(config: &Config) -> i32 {
    match &config.build.jobs {
        Some(jobs) => jobs.val,
        None => 0,
    }
}

#[test]
fn a_machine_names_its_files(rt: HostRuntime) -> Result<(), Fail> {
    let alloc = rt.alloc();
    let files = files(
        alloc,
        &[
            ("p/.cargo/config", "build.jobs = 1"),
            (".cargo/config", "build.jobs = 2"),
        ],
    )?;
    let machine = machine(alloc, "p")?;
    let config = Config::load(alloc, &machine, &files)?;
    assert_eq!(rt; jobs(&config), 1);
    Ok(())
}

// A directory's jobs and, at its home, the flags: those of the home are the farthest.
#[test]
fn a_home_is_chosen(rt: HostRuntime) -> Result<(), Fail> {
    let alloc = rt.alloc();
    let files = files(
        alloc,
        &[
            ("/p/.cargo/config.toml", "build.rustflags = ['p']"),
            ("/h/config", "build = { jobs = 3, rustflags = ['h'] }"),
            ("/h/config.toml", "build.jobs = 4"),
        ],
    )?;
    let config = Config::load_with_options(alloc, "/p/q", Some("/h"), &files);
    let shown = printed(alloc, config)?;
    assert_eq!(rt;
        shown.as_str(),
        "[build]\njobs = 3\nrustflags = [\"h\", \"p\"]\n"
    );
    let config = Config::load_with_options(alloc, "/p/q", None, &files);
    let shown = printed(alloc, config)?;
    assert_eq!(rt; shown.as_str(), "[build]\nrustflags = [\"p\"]\n");
    Ok(())
}

#[test]
fn origins_are_shown(rt: HostRuntime) -> Result<(), Fail> {
    let alloc = rt.alloc();
    let name = String::from_str(alloc, "CARGO_BUILD_JOBS")?;
    let shown = format!(in alloc;
        "{} {}",
        Definition::Environment(name),
        Definition::Cli(None)
    )?;
    assert_eq!(rt;
        shown.as_str(),
        "environment variable `CARGO_BUILD_JOBS` --config cli option"
    );
    Ok(())
}
