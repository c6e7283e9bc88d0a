//! Loads of a file, written as JSON: relative paths, lists, variables, providers and tokens.
use crate::resolved_config::loading::load_text;
use cc2_resolved_json::resolved_to_json;
use std::alloc::Global;
use std::process::Abort;
use std::result::Result;
use std::test::Fail;

// The JSON text of the configuration that a file with this text gives, with tokens or without.
fn told(alloc: Global, text: &str, tokens: bool) -> Result<String, Fail> {
    let config = load_text(alloc, text)?;
    let json = resolved_to_json(alloc, &config, tokens);
    drop(config);
    match json {
        Ok(json) => Ok(json.to_string(alloc)?),
        Err(_) => Err(Fail::new("no memory")),
    }
}

// Checks what is written without tokens.
fn expect_told(rt: &impl Abort, alloc: Global, text: &str, expected: &str) -> Result<(), Fail> {
    let told = told(alloc, text, false)?;
    assert_eq!(rt; told.as_str(), expected);
    Ok(())
}

#[test]
fn nothing_is_an_empty_object(rt: HostRuntime) -> Result<(), Fail> {
    expect_told(&rt, rt.alloc(), "", "{}")
}

#[test]
fn relative_paths_are_resolved(rt: HostRuntime) -> Result<(), Fail> {
    let text =
        "[build]\njobs = -2\nincremental = true\nrustc = \"bin/rustc\"\ntarget-dir = \"out\"\n\
        rustflags = [\"-C\", \"a b\"]\ntarget = [\"x86_64-unknown-linux-gnu\", \"specs/a.json\"]\n";
    let expected = "{\"build\":{\"incremental\":true,\"jobs\":-2,\"rustc\":\"/p/bin/rustc\",\
        \"rustflags\":[\"-C\",\"a b\"],\"target\":[\"x86_64-unknown-linux-gnu\",\"/p/specs/a.json\"],\
        \"target-dir\":\"/p/out\"}}";
    expect_told(&rt, rt.alloc(), text, expected)
}

#[test]
fn a_variable_is_a_table_and_a_list_an_array(rt: HostRuntime) -> Result<(), Fail> {
    let text = "alias.b = \"build --release\"\nenv.A = \"a\"\n\
        env.B = { value = \"b\", relative = true, force = true }\n\
        term.color = \"never\"\nterm.progress.width = 80\n";
    let expected = "{\"alias\":{\"b\":[\"build\",\"--release\"]},\
        \"env\":{\"A\":{\"force\":false,\"relative\":false,\"value\":\"a\"},\
        \"B\":{\"force\":true,\"relative\":false,\"value\":\"/p/b\"}},\
        \"term\":{\"color\":\"never\",\"progress\":{\"width\":80}}}";
    expect_told(&rt, rt.alloc(), text, expected)
}

#[test]
fn an_alias_is_a_text_and_a_program_an_array(rt: HostRuntime) -> Result<(), Fail> {
    let text = "credential-alias.mine = [\"bin/own\", \"x\"]\n\
        registry.global-credential-providers = \
        [\"cargo:token\", \"mine\", \"cargo:token-from-stdout bin/give me\"]\n\
        registries.r.credential-provider = [\"bin/plugin\", \"a b\"]\n";
    let expected = "{\"credential-alias\":{\"mine\":[\"/p/bin/own\",\"x\"]},\
        \"registries\":{\"r\":{\"credential-provider\":[\"/p/bin/plugin\",\"a b\"]}},\
        \"registry\":{\"global-credential-providers\":[\"cargo:token\",\"mine\",\
        [\"cargo:token-from-stdout\",\"/p/bin/give\",\"me\"]]}}";
    expect_told(&rt, rt.alloc(), text, expected)
}

#[test]
fn tokens_are_told_where_they_are_asked_for(rt: HostRuntime) -> Result<(), Fail> {
    let alloc = rt.alloc();
    let text =
        "registry.token = \"s\"\nregistries.r.token = \"t\"\nregistries.token.index = \"i\"\n";
    let hidden = "{\"registries\":{\"r\":{\"token\":\"[REDACTED]\"},\"token\":{\"index\":\"i\"}},\
        \"registry\":{\"token\":\"[REDACTED]\"}}";
    expect_told(&rt, alloc, text, hidden)?;
    let told = told(alloc, text, true)?;
    let shown = "{\"registries\":{\"r\":{\"token\":\"t\"},\"token\":{\"index\":\"i\"}},\
        \"registry\":{\"token\":\"s\"}}";
    assert_eq!(rt; told.as_str(), shown);
    Ok(())
}
