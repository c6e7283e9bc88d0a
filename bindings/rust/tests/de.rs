//! The configuration as files have it.
mod folder;

use cargo_config2::de::{self, Config, CredentialProviderKind, Definition, EnvConfigValue, StringOrArray, Value};
use cargo_config2::{Color, RegistriesProtocol};
use folder::Folder;
use std::error::Error as _;
use std::io;
use std::path::Path;

const FAR: &str = r#"
alias.b = "build  -v"
build.jobs = 3
build.rustflags = ["x"]
build.target = "t"
build.rustc = "bin/r"
credential-alias.my = "bin/cred --x"
doc.browser = ["b", "x"]
env.A = "v"
env.B = { value = "w", relative = true }
http.timeout = 30
registries.r = { index = "i", token = "T1", protocol = "sparse", credential-provider = "my" }
registries.s.credential-provider = ["cargo:token-from-stdout", "p", "a"]
registry.token = "T0"
registry.credential-provider = "cargo:token"
registry.global-credential-providers = ["cargo:libsecret", "q a"]
source.s.directory = "vendor"
target.'cfg(unix)' = { linker = "l", runner = "r x" }
term.color = "never"
term.progress.width = 80
"#;

// The two files of a folder, and what is loaded of them.
fn of_both(folder: &Folder) -> (Config, [Definition; 2]) {
    let far = folder.put("p/.cargo/config.toml", FAR);
    let near = folder.put("p/q/.cargo/config", "build.jobs = 4\nbuild.rustflags = ['y']\nterm.quiet = true\n");
    let config = Config::load_with_options(folder.0.join("p/q"), None).unwrap();
    (config, [far, near].map(Definition::Path))
}

// A value's text and the path of its file.
fn parts<T>(value: &Value<T>) -> (&T, &Path) {
    match &value.definition {
        Some(Definition::Path(path)) => (&value.val, path),
        other => panic!("{other:?}"),
    }
}

fn texts(list: &[Value<String>]) -> Vec<&str> {
    list.iter().map(|value| value.val.as_str()).collect()
}

#[test]
fn origins_of_merged_files() {
    let folder = Folder::new();
    let (config, [far, near]) = of_both(&folder);
    let (far, near) = (far.to_string(), near.to_string());
    assert_eq!(parts(config.build.jobs.as_ref().unwrap()), (&4, Path::new(&near)));
    let flags = config.build.rustflags.unwrap().flags;
    let flags: Vec<_> = flags.iter().map(|flag| (flag.val.as_str(), parts(flag).1.to_str().unwrap())).collect();
    assert_eq!(flags, [("x", far.as_str()), ("y", near.as_str())]);
    assert_eq!(parts(config.term.quiet.as_ref().unwrap()), (&true, Path::new(&near)));
    assert_eq!(parts(config.term.color.as_ref().unwrap()), (&Color::Never, Path::new(&far)));
    assert_eq!(parts(config.term.progress.width.as_ref().unwrap()), (&80, Path::new(&far)));
    assert_eq!(parts(config.http.timeout.as_ref().unwrap()), (&30, Path::new(&far)));
}

#[test]
fn values_are_as_the_file_has_them() {
    let folder = Folder::new();
    let (config, _) = of_both(&folder);
    assert_eq!(texts(&config.alias["b"].list), ["build", "-v"]);
    let Some(StringOrArray::String(target)) = &config.build.target else { panic!() };
    assert_eq!((target.val.as_str(), config.build.rustc.unwrap().val.as_str()), ("t", "bin/r"));
    let my = &config.credential_alias["my"];
    assert_eq!((my.path.raw_value(), texts(&my.args)), ("bin/cred", vec!["--x"]));
    assert_eq!(my.path.value().val, "bin/cred");
    let browser = config.doc.browser.unwrap();
    assert_eq!((browser.path.raw_value(), texts(&browser.args)), ("b", vec!["x"]));
    let EnvConfigValue::Value(a) = &config.env["A"] else { panic!() };
    let EnvConfigValue::Table { value, force: None, relative: Some(relative), .. } = &config.env["B"] else { panic!() };
    assert_eq!((a.val.as_str(), value.val.as_str(), relative.val), ("v", "w", true));
    assert_eq!(config.source["s"].directory.as_ref().unwrap().val, "vendor");
    let unix = &config.target["cfg(unix)"];
    assert_eq!(unix.linker.as_ref().unwrap().val, "l");
    assert_eq!(unix.runner.as_ref().unwrap().path.raw_value(), "r");
    assert_eq!(texts(&unix.runner.as_ref().unwrap().args), ["x"]);
}

#[test]
fn registries_with_tokens() {
    let folder = Folder::new();
    let (config, _) = of_both(&folder);
    let r = &config.registries["r"];
    assert_eq!((r.token.as_ref().unwrap().val.as_str(), r.index.as_ref().unwrap().val.as_str()), ("T1", "i"));
    assert_eq!(r.protocol.as_ref().unwrap().val, RegistriesProtocol::Sparse);
    let kind = |provider: &Option<de::CredentialProvider>| provider.as_ref().unwrap().kind.clone();
    let CredentialProviderKind::MaybeAlias(word) = kind(&r.credential_provider) else { panic!() };
    assert_eq!(word.val, "my");
    let CredentialProviderKind::CargoTokenFromStdout(command) = kind(&config.registries["s"].credential_provider)
    else {
        panic!()
    };
    assert_eq!((command.path.raw_value(), texts(&command.args)), ("p", vec!["a"]));
    let registry = &config.registry;
    assert!(matches!(kind(&registry.credential_provider), CredentialProviderKind::CargoToken));
    assert_eq!(registry.token.as_ref().unwrap().val, "T0");
    let [libsecret, plugin] = registry.global_credential_providers.as_ref() else { panic!() };
    assert!(matches!(libsecret.kind, CredentialProviderKind::CargoLibsecret));
    assert!(matches!(&plugin.kind, CredentialProviderKind::Plugin(it) if it.path.raw_value() == "q"));
    let shown = format!("{config:?}");
    assert!(shown.contains("[REDACTED]") && !shown.contains("T0") && !shown.contains("T1"), "{shown}");
    assert!(shown.contains("global_credential_providers: GlobalCredentialProviders(["), "{shown}");
    assert!(!shown.contains(".. }"), "{shown}");
}

#[test]
fn the_cargo_home_is_the_chosen_one() {
    let folder = Folder::new();
    folder.put("h/config.toml", "net.retry = 7\n");
    std::fs::create_dir_all(folder.0.join("p")).unwrap();
    let retry = |home: Option<&str>| {
        let config = Config::load_with_options(folder.0.join("p"), home.map(|home| folder.0.join(home))).unwrap();
        config.net.retry.map(|retry| retry.val)
    };
    assert_eq!((retry(Some("h")), retry(Some("i")), retry(None)), (Some(7), None, None));
}

#[test]
fn a_file_by_itself() {
    let folder = Folder::new();
    folder.put("p/.cargo/config.toml", "net.retry = 7\nbuild.jobs = 1\n");
    let path = folder.put("p/.cargo/other", "build.jobs = 2\nalias.origin = 'x'\nenv.origin = { value = 'y' }\n");
    let config = Config::load_file(&path).unwrap();
    assert_eq!(parts(config.build.jobs.as_ref().unwrap()), (&2, path.as_path()));
    assert_eq!(config.alias["origin"].list[0].definition, Some(Definition::Path(path.clone())));
    assert_eq!(parts(&config.alias["origin"].list[0]), (&"x".to_owned(), path.as_path()));
    assert!(matches!(&config.env["origin"], EnvConfigValue::Table { value, .. } if parts(value).1 == path));
    assert!(config.net.retry.is_none());
}

#[test]
fn errors() {
    let folder = Folder::new();
    let path = folder.put("p/.cargo/config.toml", "build.jobs = 'x'\n");
    for error in [Config::load_with_options(folder.0.join("p"), None), Config::load_file(&path)].map(Result::unwrap_err)
    {
        assert_eq!(error.to_string(), format!("failed to parse `{}` as cargo configuration", path.display()));
        assert_eq!(error.source().unwrap().to_string(), "wrong type at `build.jobs`");
        assert_eq!(io::Error::from(error).kind(), io::ErrorKind::InvalidData);
    }
    let error = Config::load_file(folder.0.join("none")).unwrap_err();
    assert_eq!(error.to_string(), format!("failed to read `{}`", folder.0.join("none").display()));
    assert_eq!(io::Error::from(error).kind(), io::ErrorKind::NotFound);
    std::fs::create_dir_all(folder.0.join("d/.cargo/config.toml")).unwrap();
    let error = Config::load_with_options(folder.0.join("d"), None).unwrap_err();
    assert_eq!(io::Error::from(error).kind(), io::ErrorKind::IsADirectory);
    let near = folder.put("p/q/.cargo/config.toml", "alias.b = 'x'\n");
    folder.put("p/.cargo/config.toml", "alias.b = ['x']\n");
    let error = Config::load_with_options(folder.0.join("p/q"), None).unwrap_err();
    assert!(error.to_string().contains(near.to_str().unwrap()), "{error}");
    assert!(Config::default().alias.is_empty());
}

// Each value comes with its origin, so that the library's answer is many times as long as the file.
#[test]
fn an_answer_that_is_much_longer_than_the_files() {
    let folder = Folder::new();
    let lines: String = (0..3000).map(|number| format!("alias.a{number} = 'b'\n")).collect();
    let path = folder.put(".cargo/config.toml", &lines);
    let config = Config::load_with_options(&folder.0, None).unwrap();
    assert_eq!(config.alias.len(), 3000);
    assert_eq!(parts(&config.alias["a2999"].list[0]), (&"b".to_owned(), path.as_path()));
}

// The tables below other keys of a target may be deep, but not in any depth.
#[test]
fn deep_tables_below_a_target() {
    let folder = Folder::new();
    let key = vec!["a"; 75].join(".");
    for (times, is_read) in [(4, true), (40, false)] {
        let table = (0..times).fold("linker = 'l'".to_owned(), |inner, _| format!("{key} = {{ {inner} }}"));
        folder.put(".cargo/config.toml", &format!("[target]\n{table}\n"));
        assert_eq!(Config::load_with_options(&folder.0, None).is_ok(), is_read, "{times}");
        assert!(cargo_config2::Config::load_with_options(&folder.0, folder::alone()).is_ok());
    }
}
