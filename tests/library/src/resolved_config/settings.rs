//! Settings that no program shows: of a file without a root above it, the triples of targets, that tables
//! show no token in their debug form, and that a copy has the same. One test goes over the rows.
use crate::resolved_config::every_field::EVERY_FIELD;
use crate::resolved_config::loading::{Tree, load};
use cargo_config2::{Config, Error, TargetTriple};
use std::alloc::Global;
use std::result::Result;
use std::test::Fail;

// A tree, the setting that is looked at, and its form, or the refusal's text.
#[derive(Clone, Copy)]
struct Row {
    tree: Tree,
    setting: &'static str,
    expected: &'static str,
}

// A row of a file with directories above it.
fn far(far: &'static str, setting: &'static str, expected: &'static str) -> Row {
    let tree = Tree {
        far,
        root: "",
        variable: ("", ""),
    };
    Row {
        tree,
        setting,
        expected,
    }
}

// A row of a file in the topmost directory, under a variable.
fn root(
    variable: (&'static str, &'static str),
    root: &'static str,
    setting: &'static str,
    expected: &'static str,
) -> Row {
    let tree = Tree {
        far: "",
        root,
        variable,
    };
    Row {
        tree,
        setting,
        expected,
    }
}

fn rows() -> [Row; 15] {
    [
        root(
            ("", ""),
            "build.target-dir = \"t\"",
            "target-dir",
            "no root above `/config.toml` for `t`",
        ),
        root(
            ("", ""),
            "build.target-dir = \"/t\"",
            "target-dir",
            "Some(\"/t\")",
        ),
        root(
            ("CARGO_TARGET_DIR", "/u"),
            "build.target-dir = \"t\"",
            "target-dir",
            "Some(\"/u\")",
        ),
        root(
            ("", ""),
            "build.target = \"s/a.json\"",
            "target",
            "no root above `/config.toml` for `s/a.json`",
        ),
        root(
            ("CARGO_BUILD_JOBS", "x"),
            "build.target-dir = \"t\"",
            "target-dir",
            "failed to parse environment variable `CARGO_BUILD_JOBS`",
        ),
        far("build.target = \"s/a.json\"", "target", " a=/p/s/a.json"),
        far(
            "build.target = [\"a.JSON\", \"x\", \"\"]",
            "target",
            " a=/p/a.JSON x ",
        ),
        far(
            "credential-alias.x = [\"c\"]\nregistry.credential-provider = \"x\"",
            "provider",
            "Some(Alias(\"x\"))",
        ),
        root(
            ("CARGO_CREDENTIAL_ALIAS_x", "c"),
            "registry.credential-provider = \"x\"",
            "provider",
            "Some(Alias(\"x\"))",
        ),
        far(
            "registry.credential-provider = \"x\"",
            "provider",
            "Some(Plugin(PathAndArgs { path: \"x\", args: [] }))",
        ),
        far(
            "registry.credential-provider = [\"bin/c\", \"y\"]",
            "provider",
            "Some(Plugin(PathAndArgs { path: \"/p/bin/c\", args: [\"y\"] }))",
        ),
        far(
            "registry.credential-provider = \"cargo:token-from-stdout bin/c y\"",
            "provider",
            "Some(CargoTokenFromStdout(PathAndArgs { path: \"/p/bin/c\", args: [\"y\"] }))",
        ),
        far(
            "registries.r.token = \"s\"",
            "registries",
            "{\"r\": RegistriesConfigValue { index: None, token: Some([REDACTED]), credential_provider: None, protocol: None }}",
        ),
        far(
            "registry = { token = \"s\", global-credential-providers = [\"x y\"] }",
            "registry",
            "RegistryConfig { default: None, credential_provider: None, token: Some([REDACTED]), global_credential_providers: GlobalCredentialProviders { providers: [Plugin(PathAndArgs { path: \"x\", args: [\"y\"] })] } }",
        ),
        far(EVERY_FIELD, "everything", EVERY_FIELD),
    ]
}

// The triples and spec paths of targets, each after a space.
fn targets(alloc: Global, targets: &Option<Vec<TargetTriple>>) -> Result<String, Fail> {
    let mut text = String::new(alloc);
    if let Some(targets) = targets {
        for target in targets {
            text.push(' ')?;
            text.push_str(target.triple())?;
            if let Some(path) = target.spec_path() {
                text.push('=')?;
                text.push_str(path)?;
            }
        }
    }
    Ok(text)
}

// A setting, or a table, in its debug form; everything as it is printed.
fn shown(alloc: Global, config: &Config, setting: &str) -> Result<String, Fail> {
    let text = match setting {
        "target-dir" => format!(in alloc; "{:?}", config.build.target_dir)?,
        "target" => targets(alloc, &config.build.target)?,
        "registries" => format!(in alloc; "{:?}", config.registries)?,
        "registry" => format!(in alloc; "{:?}", config.registry)?,
        "provider" => format!(in alloc; "{:?}", config.registry.credential_provider)?,
        _ => toml::to_string(alloc, config)?,
    };
    Ok(text)
}

// The same of a copy.
fn copied(alloc: Global, config: &Config, setting: &str) -> Result<String, Fail> {
    let copy = config.try_clone(alloc)?;
    let text = shown(alloc, &copy, setting);
    drop(copy);
    text
}

// The same of what a load answered, and of a copy of it; of a refusal its text, twice.
fn told(
    alloc: Global,
    outcome: &Result<Config, Error>,
    setting: &str,
) -> Result<(String, String), Fail> {
    match outcome {
        Ok(config) => Ok((
            shown(alloc, config, setting)?,
            copied(alloc, config, setting)?,
        )),
        Err(error) => Ok((format!(in alloc; "{error}")?, format!(in alloc; "{error}")?)),
    }
}

fn found(alloc: Global, row: &Row) -> Result<(String, String), Fail> {
    let outcome = load(alloc, &row.tree);
    let text = told(alloc, &outcome, row.setting);
    drop(outcome);
    text
}

#[test]
fn settings_are_resolved(rt: HostRuntime) -> Result<(), Fail> {
    let alloc = rt.alloc();
    for row in rows() {
        let (text, of_copy) = found(alloc, &row)?;
        assert_eq!(rt; text.as_str(), row.expected, "{}", row.setting);
        assert_eq!(rt; of_copy.as_str(), row.expected, "{} of a copy", row.setting);
    }
    Ok(())
}
