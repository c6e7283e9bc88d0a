//! What is chosen and what is kept.
use crate::low::made::{shown, variables};
use cc2_base::machine::Machine;
use cc2_env::{Override, ResolveContext, ResolveOptions};
use cc2_error::error::{Error, ErrorKind};
use cc2_error::path_and_args::PathAndArgs;
use std::alloc::Global;
use std::process::Abort;
use std::result::Result;
use std::test::Fail;

// A machine with these variables, in the directory `/p`.
fn machine(alloc: Global, entries: &[(&str, &[u8])]) -> Result<Machine, Fail> {
    Ok(crate::low::made::machine(alloc, "/p", entries, None)?)
}

// The context of the options in the directory `/p`.
fn made(
    alloc: Global,
    options: ResolveOptions,
    machine: &Machine,
) -> Result<ResolveContext, Error> {
    let directory = String::from_str(alloc, "/p")?;
    options.into_context(alloc, directory, machine)
}

// A copy of the context that a copy of the options makes.
fn copied(
    alloc: Global,
    options: ResolveOptions,
    machine: &Machine,
) -> Result<ResolveContext, Error> {
    let copy = options.try_clone(alloc);
    drop(options);
    let context = made(alloc, copy?, machine)?;
    context.try_clone(alloc)
}

// Checks a variable of a context; `-` where it isn't set.
fn expect_variable(rt: &impl Abort, context: &ResolveContext, name: &str, value: &[u8]) {
    match context.env_value(name) {
        Some(found) => assert_eq!(rt; found, value),
        None => assert_eq!(rt; value, b"-".as_slice()),
    }
}

#[test]
fn what_is_chosen_stands(rt: HostRuntime) -> Result<(), Fail> {
    let alloc = rt.alloc();
    let machine = machine(alloc, &[("CARGO", b"\x80")])?;
    let options = ResolveOptions::default()
        .cargo(String::from_str(alloc, "c")?)
        .cargo_home(None)
        .host_triple(String::from_str(alloc, "h")?)
        .rustc(PathAndArgs::new(alloc, String::from_str(alloc, "r")?));
    let context = made(alloc, options, &machine)?;
    assert_eq!(rt; context.cargo(), "c");
    assert!(rt; matches!(context.cargo_home(), Some(None)));
    assert_eq!(rt; context.host_triple(), Some("h"));
    assert!(rt; matches!(context.rustc(), Some(rustc) if rustc.path.as_str() == "r"));
    Ok(())
}

#[test]
fn the_program_of_cargo_is_text(rt: HostRuntime) -> Result<(), Fail> {
    let alloc = rt.alloc();
    let machine = machine(alloc, &[("CARGO", b"\x80")])?;
    let directory = String::from_str(alloc, "/p")?;
    match ResolveOptions::default().into_context(alloc, directory, &machine) {
        Ok(_) => panic!(rt; "it was taken"),
        Err(error) => {
            assert!(rt; matches!(error.kind(), ErrorKind::EnvNotText { .. }));
            let shown = format!(in alloc; "{error}")?;
            assert_eq!(rt;
                shown.as_str(),
                "failed to parse environment variable `CARGO`"
            );
        }
    }
    Ok(())
}

#[test]
fn variables_are_kept_by_their_names(rt: HostRuntime) -> Result<(), Fail> {
    let alloc = rt.alloc();
    let machine = machine(alloc, &[("CARGO_M", b"0")])?;
    let chosen = variables(
        alloc,
        &[
            ("CARGO_A", b"1"),
            ("RUST_B", b"2"),
            ("BROWSER", b"3"),
            ("PATH", b"4"),
            ("xCARGO", b"5"),
            ("CARGO_A", b"6"),
        ],
    )?;
    let options = ResolveOptions::default().env(alloc, chosen)?;
    let context = made(alloc, options, &machine)?;
    expect_variable(&rt, &context, "CARGO_A", b"6");
    expect_variable(&rt, &context, "RUST_B", b"2");
    expect_variable(&rt, &context, "BROWSER", b"3");
    expect_variable(&rt, &context, "PATH", b"-");
    expect_variable(&rt, &context, "xCARGO", b"-");
    expect_variable(&rt, &context, "CARGO_M", b"-");
    Ok(())
}

// Options with all that is chosen beside variables and overrides.
fn all_chosen(alloc: Global) -> Result<ResolveOptions, Error> {
    let mut rustc = PathAndArgs::new(alloc, String::from_str(alloc, "r")?);
    rustc.push_arg(String::from_str(alloc, "-v")?)?;
    Ok(
        ResolveOptions::default()
            .rustc(rustc)
            .cargo(String::from_str(alloc, "c")?)
            .cargo_home(Some(String::from_str(alloc, "/h")?))
            .host_triple(String::from_str(alloc, "h")?),
    )
}

#[test]
fn copies_have_what_is_chosen(rt: HostRuntime) -> Result<(), Fail> {
    let alloc = rt.alloc();
    let machine = machine(alloc, &[])?;
    let copy = copied(alloc, all_chosen(alloc)?, &machine)?;
    assert_eq!(rt; copy.cargo(), "c");
    assert!(rt; matches!(copy.cargo_home(), Some(Some("/h"))));
    assert_eq!(rt; copy.host_triple(), Some("h"));
    match copy.rustc() {
        Some(rustc) => {
            assert_eq!(rt; rustc.path.as_str(), "r");
            assert_eq!(rt; rustc.args.len(), 1);
        }
        None => panic!(rt; "no rustc"),
    }
    Ok(())
}

// Options with a token among the variables and among the overrides, and a program for Cargo.
fn with_token(alloc: Global) -> Result<ResolveOptions, Error> {
    let env = variables(
        alloc,
        &[
            ("CARGO_REGISTRY_TOKEN", b"secret"),
            ("RUSTFLAGS", b"hidden"),
        ],
    )?;
    let cargo = String::from_str(alloc, "c")?;
    let text = String::from_str(alloc, "registry.token = 'secret'")?;
    let path = String::from_str(alloc, "o.toml")?;
    let options = ResolveOptions::default().cargo(cargo).env(alloc, env)?;
    options.config_text(alloc, text)?.config_file(alloc, path)
}

#[test]
fn debug_forms_show_no_token(rt: HostRuntime) -> Result<(), Fail> {
    let alloc = rt.alloc();
    let machine = machine(alloc, &[])?;
    let form = shown(alloc, with_token(alloc))?;
    let env = "env: Some({\"CARGO_REGISTRY_TOKEN\", \"RUSTFLAGS\"})";
    let fields = "rustc: None, cargo: Some(\"c\"), cargo_home: None, host_triple: None";
    let list = "command_line: Some([Text(..), File(\"o.toml\")])";
    let expected = format!(in alloc; "ResolveOptions {{ {env}, {fields}, {list} }}")?;
    assert_eq!(rt; form.as_str(), expected.as_str());
    let context = made(alloc, with_token(alloc)?, &machine);
    let form = shown(alloc, context)?;
    let env = "env: {\"CARGO_REGISTRY_TOKEN\", \"RUSTFLAGS\"}, rustc: None, cargo: \"c\"";
    let fields = "cargo_home: None, host_triple: None, current_dir: \"/p\"";
    let list = "command_line: [Text(..), File(\"o.toml\")]";
    let expected = format!(in alloc; "ResolveContext {{ {env}, {fields}, {list} }}")?;
    assert_eq!(rt; form.as_str(), expected.as_str());
    Ok(())
}

// Checks that these are the text and the file, in their order.
fn expect_overrides(rt: &impl Abort, overrides: &[Override]) {
    assert_eq!(rt; overrides.len(), 2);
    assert!(rt;
        matches!(overrides.first(), Some(Override::Text(text)) if text.as_str() == "registry.token = 'secret'")
    );
    assert!(rt;
        matches!(overrides.last(), Some(Override::File(path)) if path.as_str() == "o.toml")
    );
}

#[test]
fn copies_are_the_same(rt: HostRuntime) -> Result<(), Fail> {
    let alloc = rt.alloc();
    let machine = machine(alloc, &[])?;
    let copy = copied(alloc, with_token(alloc)?, &machine)?;
    expect_variable(&rt, &copy, "CARGO_REGISTRY_TOKEN", b"secret");
    assert_eq!(rt; copy.cargo(), "c");
    assert_eq!(rt; copy.current_dir(), "/p");
    expect_overrides(&rt, copy.command_line());
    Ok(())
}
