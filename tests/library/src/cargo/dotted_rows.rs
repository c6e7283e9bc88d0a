//! Which texts are overrides, as Cargo 1.95 took and refused them.
use cc2_cargo::{OverrideFault, read_override};
use std::alloc::Global;
use std::process::Abort;
use std::test::Fail;

// What an override is read to, or why it isn't.
fn read(alloc: Global, text: &str) -> Result<String, Fail> {
    let shown = match read_override(alloc, text) {
        Ok(table) => format!(in alloc; "{table:?}")?,
        Err(OverrideFault::NoToml(_)) => format!(in alloc; "NoToml")?,
        Err(fault) => format!(in alloc; "{fault:?}")?,
    };
    Ok(shown)
}

fn expect(rt: &impl Abort, alloc: Global, text: &str, expected: &str) -> Result<(), Fail> {
    let found = read(alloc, text)?;
    assert_eq!(rt; found.as_str(), expected, "{text}");
    Ok(())
}

fn expect_all(rt: &impl Abort, alloc: Global, texts: &[&str], expected: &str) -> Result<(), Fail> {
    for text in texts {
        expect(rt, alloc, text, expected)?;
    }
    Ok(())
}

#[test]
fn one_dotted_key_with_a_value(rt: HostRuntime) -> Result<(), Fail> {
    let alloc = rt.alloc();
    let jobs = "{\"build\": Table({\"jobs\": Integer(2)})}";
    expect_all(
        &rt,
        alloc,
        &[
            "build.jobs = 2",
            "build.jobs=2",
            " build . jobs = 2 ",
            "\n\n build.jobs = 2\n\n",
            "build.jobs = 2\r\n",
            "'build'.\"jobs\" = 2",
        ],
        jobs,
    )?;
    expect(
        &rt,
        alloc,
        " \"a b\".c = [1]",
        "{\"a b\": Table({\"c\": Array([Integer(1)])})}",
    )?;
    expect_all(
        &rt,
        alloc,
        &["a.\"b=c\".d = 1", "a.'b=c'.d = 1"],
        "{\"a\": Table({\"b=c\": Table({\"d\": Integer(1)})})}",
    )?;
    expect(
        &rt,
        alloc,
        "\"x\\\"=\" = '='",
        "{\"x\\\"=\": String(\"=\")}",
    )
}

#[test]
fn arrays_may_have_tables_and_comments(rt: HostRuntime) -> Result<(), Fail> {
    let alloc = rt.alloc();
    expect(
        &rt,
        alloc,
        "include = [{ path = 'a.toml', optional = true }]",
        "{\"include\": Array([Table({\"optional\": Boolean(true), \"path\": String(\"a.toml\")})])}",
    )?;
    expect_all(
        &rt,
        alloc,
        &["a = [ # one\n1 # two\n]", "a = [1 # ]\n]", "a = [\n1,\n]"],
        "{\"a\": Array([Integer(1)])}",
    )
}

#[test]
fn comments_may_follow_in_later_lines(rt: HostRuntime) -> Result<(), Fail> {
    let alloc = rt.alloc();
    expect_all(
        &rt,
        alloc,
        &["a = 1\n# c", "a = 1\n\n  # c\n", "a = 1 \r\n# c\r\n# d"],
        "{\"a\": Integer(1)}",
    )?;
    expect(
        &rt,
        alloc,
        "a = \"\"\"\n# x\n# y\"\"\"\n# z",
        "{\"a\": String(\"# x\\n# y\")}",
    )
}

#[test]
fn what_is_no_override(rt: HostRuntime) -> Result<(), Fail> {
    let alloc = rt.alloc();
    expect_all(
        &rt,
        alloc,
        &["a", "a = ", "= 1", "a = 1 b = 2", "a.toml"],
        "NoToml",
    )?;
    expect_all(
        &rt,
        alloc,
        &[
            "",
            " \n ",
            "[a]",
            "[a]\nb = 1",
            "[[a]]",
            " [a]\nb = 1",
            "a = 1\nb = 2",
            "a.b = 1\na.c = 2",
            "a = 1\n[b]",
        ],
        "NoDottedKey",
    )?;
    expect_all(
        &rt,
        alloc,
        &[
            "# c",
            "# c\na = 1",
            "\n # c\na = 1",
            "a = 1 # c",
            "a = 1# c",
            "a = 1 # c\n# d",
            "a = [1] # c",
            "a = '#' # c",
            "a = '''\nx''' # c",
        ],
        "Comment",
    )?;
    expect_all(
        &rt,
        alloc,
        &["a = {}", "a = {b = 1}", "a.b = { c = 1, d = 2 }"],
        "InlineTable",
    )
}

#[test]
fn secrets_are_refused(rt: HostRuntime) -> Result<(), Fail> {
    let alloc = rt.alloc();
    expect_all(
        &rt,
        alloc,
        &[
            "registry.token = 'a'",
            "registry.secret-key = 'a'",
            "registry.token.x = 1",
            "registries.a.token = 'a'",
            "registries.\"a.b\".secret-key = 'a'",
        ],
        "Secret",
    )?;
    expect(
        &rt,
        alloc,
        "registries.token = 1",
        "{\"registries\": Table({\"token\": Integer(1)})}",
    )?;
    expect(
        &rt,
        alloc,
        "registry.default = 'a'",
        "{\"registry\": Table({\"default\": String(\"a\")})}",
    )?;
    expect(&rt, alloc, "token = 'a'", "{\"token\": String(\"a\")}")
}
