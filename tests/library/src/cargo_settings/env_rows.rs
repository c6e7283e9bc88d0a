//! Variables of the table `env` that Cargo 1.95 set.
use cc2_base::files::FileTable;
use cc2_base::machine::Machine;
use cc2_cargo::{LoadFault, Raw, load_with};
use cc2_cargo_settings::{Sources, env_variables};
use std::alloc::Global;
use std::collections::BTreeMap;
use std::process::Abort;
use std::test::Fail;

fn put(alloc: Global, files: &mut FileTable, path: &str, text: &str) -> Result<(), Fail> {
    let content = String::from_str(alloc, text)?.into_bytes();
    files.put(String::from_str(alloc, path)?, Some(content))?;
    Ok(())
}

fn owned(alloc: Global, texts: &[&str]) -> Result<Vec<String>, Fail> {
    let mut all = Vec::new(alloc);
    for text in texts {
        all.push(String::from_str(alloc, *text)?)?;
    }
    Ok(all)
}

// The variables of the process.
fn machine(alloc: Global, variables: &[(&str, &str)]) -> Result<Machine, Fail> {
    let mut env = Vec::new(alloc);
    for (name, text) in variables {
        let name = String::from_str(alloc, name)?;
        env.push((name, String::from_str(alloc, text)?.into_bytes()))?;
    }
    Ok(Machine {
        current_dir: String::from_str(alloc, "/p/q")?,
        env,
        home: None,
    })
}

// What two files have, under overrides.
fn settings(
    alloc: Global,
    near: &str,
    far: &str,
    overrides: &[&str],
) -> Result<Result<BTreeMap<String, Raw>, LoadFault>, Fail> {
    let mut files = FileTable::new(alloc);
    put(alloc, &mut files, "/p/q/.cargo/config.toml", near)?;
    put(alloc, &mut files, "/p/.cargo/config.toml", far)?;
    put(
        alloc,
        &mut files,
        "/c/d/e.toml",
        "env.A = { value = 'e', relative = true }",
    )?;
    let paths = owned(alloc, &["/p/q/.cargo/config.toml", "/p/.cargo/config.toml"])?;
    let overrides = owned(alloc, overrides)?;
    Ok(load_with(
        alloc,
        "/p/q",
        paths.as_slice(),
        overrides.as_slice(),
        &files,
    ))
}

// The variables, or the error, as it is shown.
fn shown(
    alloc: Global,
    files: (&str, &str),
    overrides: &[&str],
    variables: &[(&str, &str)],
) -> Result<String, Fail> {
    let machine = machine(alloc, variables)?;
    match settings(alloc, files.0, files.1, overrides)? {
        Ok(settings) => {
            let sources = Sources {
                settings: &settings,
                machine: &machine,
            };
            match env_variables(alloc, sources, "/p/q") {
                Ok(variables) => Ok(format!(in alloc; "{variables:?}")?),
                Err(error) => Ok(format!(in alloc; "{error}")?),
            }
        }
        Err(fault) => Ok(format!(in alloc; "{fault:?}")?),
    }
}

fn expect(
    rt: &impl Abort,
    alloc: Global,
    near: &str,
    variables: &[(&str, &str)],
    expected: &str,
) -> Result<(), Fail> {
    let found = shown(alloc, (near, ""), &[], variables)?;
    assert_eq!(rt; found.as_str(), expected, "{near} with {variables:?}");
    Ok(())
}

// What is shown of these files under overrides.
fn expect_under(
    rt: &impl Abort,
    alloc: Global,
    files: (&str, &str),
    overrides: &[&str],
    expected: &str,
) -> Result<(), Fail> {
    let found = shown(alloc, files, overrides, &[])?;
    assert_eq!(rt; found.as_str(), expected, "{files:?} under {overrides:?}");
    Ok(())
}

#[test]
fn entries_are_texts_or_tables(rt: HostRuntime) -> Result<(), Fail> {
    let alloc = rt.alloc();
    expect(&rt, alloc, "", &[], "[]")?;
    expect(&rt, alloc, "env = {}", &[], "[]")?;
    let texts = "env.B = 'b'\nenv.A = ''\nenv.'a-1' = 'x'";
    let expected = "[(\"A\", \"\"), (\"B\", \"b\"), (\"a-1\", \"x\")]";
    expect(&rt, alloc, texts, &[], expected)?;
    let table = "env.A = { value = 'a', other = 5 }";
    expect(&rt, alloc, table, &[], "[(\"A\", \"a\")]")
}

#[test]
fn what_the_process_has_is_kept(rt: HostRuntime) -> Result<(), Fail> {
    let alloc = rt.alloc();
    expect(&rt, alloc, "env.A = 'a'", &[("A", "")], "[]")?;
    let kept = "env.A = { value = 'a', force = false }";
    expect(&rt, alloc, kept, &[("A", "p")], "[]")?;
    let forced = "env.A = { value = 'a', force = true }";
    expect(&rt, alloc, forced, &[("A", "p")], "[(\"A\", \"a\")]")
}

#[test]
fn variables_set_entries_as_texts(rt: HostRuntime) -> Result<(), Fail> {
    let alloc = rt.alloc();
    let text = "env.A = 'a'";
    expect(
        &rt,
        alloc,
        text,
        &[("CARGO_ENV_A", "x")],
        "[(\"A\", \"x\")]",
    )?;
    expect(
        &rt,
        alloc,
        text,
        &[("CARGO_ENV_B", "x")],
        "[(\"A\", \"a\")]",
    )?;
    expect(
        &rt,
        alloc,
        "env.A = 5",
        &[("CARGO_ENV_A", " 5")],
        "[(\"A\", \" 5\")]",
    )?;
    let large = "9223372036854775808";
    expect(
        &rt,
        alloc,
        text,
        &[("CARGO_ENV_A", large)],
        "[(\"A\", \"9223372036854775808\")]",
    )?;
    let forced = "env.A = { value = 'a', force = true }";
    expect(
        &rt,
        alloc,
        forced,
        &[("CARGO_ENV_A", "x"), ("A", "p")],
        "[]",
    )
}

#[test]
fn variables_set_parts_that_are_there(rt: HostRuntime) -> Result<(), Fail> {
    let alloc = rt.alloc();
    let forced = "env.A = { value = 'a', force = true }";
    expect(
        &rt,
        alloc,
        forced,
        &[("CARGO_ENV_A_value", "5")],
        "[(\"A\", \"5\")]",
    )?;
    expect(
        &rt,
        alloc,
        forced,
        &[("CARGO_ENV_A_force", "false"), ("A", "p")],
        "[]",
    )?;
    expect(
        &rt,
        alloc,
        forced,
        &[("CARGO_ENV_A_relative", "true")],
        "[(\"A\", \"a\")]",
    )
}

#[test]
fn relative_values_are_seen_from_their_place(rt: HostRuntime) -> Result<(), Fail> {
    let alloc = rt.alloc();
    let near = "env.A = { value = 's/../x', relative = true }";
    expect(&rt, alloc, near, &[], "[(\"A\", \"/p/q/s/../x\")]")?;
    expect(
        &rt,
        alloc,
        near,
        &[("CARGO_ENV_A_value", "/x")],
        "[(\"A\", \"/x\")]",
    )?;
    let far = "env.A = { value = 'far', relative = true }";
    expect_under(&rt, alloc, ("", far), &[], "[(\"A\", \"/p/far\")]")?;
    expect_under(
        &rt,
        alloc,
        ("env.A.value = 'n'", far),
        &[],
        "[(\"A\", \"/p/q/n\")]",
    )?;
    expect_under(
        &rt,
        alloc,
        ("", far),
        &["env.A.value='c'"],
        "[(\"A\", \"/p/c\")]",
    )?;
    expect_under(
        &rt,
        alloc,
        ("", far),
        &["env.A.relative=false"],
        "[(\"A\", \"far\")]",
    )?;
    let both = &["env.A.value='c'", "env.A.relative=true"];
    expect_under(&rt, alloc, ("", ""), both, "[(\"A\", \"/p/q/c\")]")?;
    expect_under(
        &rt,
        alloc,
        ("", ""),
        &["/c/d/e.toml"],
        "[(\"A\", \"/c/e\")]",
    )
}

#[test]
fn what_is_an_error(rt: HostRuntime) -> Result<(), Fail> {
    let alloc = rt.alloc();
    expect_error(&rt, alloc, "env = 5", &[], "env")?;
    expect_error(&rt, alloc, "env.A = 5", &[], "env.A")?;
    expect_error(
        &rt,
        alloc,
        "env.A = ['a']",
        &[("CARGO_ENV_A", "x")],
        "env.A",
    )?;
    expect_error(&rt, alloc, "env.A = { force = true }", &[], "env.A")?;
    expect_error(&rt, alloc, "env.A = { value = 5 }", &[], "env.A.value")?;
    expect_error(
        &rt,
        alloc,
        "env.A = { value = 'a', force = 'x' }",
        &[],
        "env.A.force",
    )?;
    let relative = "env.A = { value = 'a', relative = false }";
    expect_error(
        &rt,
        alloc,
        relative,
        &[("CARGO_ENV_A_relative", "x")],
        "env.A.relative",
    )?;
    expect_error(
        &rt,
        alloc,
        "env.A = 'a'",
        &[("CARGO_ENV_A", "true")],
        "env.A",
    )?;
    expect_error(&rt, alloc, "env.A = 'a'", &[("CARGO_ENV_A", "+5")], "env.A")?;
    expect_error(
        &rt,
        alloc,
        "env.RUSTUP_TOOLCHAIN = 'x'",
        &[],
        "`RUSTUP_TOOLCHAIN`",
    )?;
    expect_error(
        &rt,
        alloc,
        "env.CARGO_HOME.value = 'x'",
        &[],
        "`CARGO_HOME`",
    )
}

// An error, which has this part.
fn expect_error(
    rt: &impl Abort,
    alloc: Global,
    near: &str,
    variables: &[(&str, &str)],
    part: &str,
) -> Result<(), Fail> {
    let found = shown(alloc, (near, ""), &[], variables)?;
    assert!(rt; !found.as_str().starts_with("["), "{near}: {found}");
    assert!(rt; found.as_str().contains(part), "{near}: {found}");
    Ok(())
}
