//! The tables of a resolved configuration.
mod folder;

use cargo_config2::*;
use folder::{alone, Folder};
use std::error::Error as _;

// A file that sets each key outside of `build` and `target`.
const ALL: &str = r#"
[alias]
b = "build"
rr = "run  --release"
list = ["run", "a b", "\"q\"\n"]
[credential-alias]
my = ["bin/cred", "--x"]
[doc]
browser = ["bin/chromium", "x"]
[env]
A = "v"
B = { value = "w", force = true }
C = { value = "rel/p", relative = true }
[future-incompat-report]
frequency = "never"
[cargo-new]
vcs = "pijul"
[http]
debug = true
proxy = "host:1"
timeout = 30
cainfo = "c.pem"
check-revoke = false
low-speed-limit = 10
multiplexing = false
user-agent = "ua"
[net]
retry = 3
git-fetch-with-cli = true
offline = false
[registries.r]
index = "https://x"
token = "T1"
protocol = "sparse"
credential-provider = "my"
[registries."x.y"]
credential-provider = ["cargo:token-from-stdout", "bin/p", "a"]
[registry]
default = "r"
token = "T0"
credential-provider = "cargo:libsecret"
global-credential-providers = ["cargo:token", "bin/q a"]
[source.s]
replace-with = "v"
directory = "vendor"
registry = "https://r"
local-registry = "lr"
git = "g"
branch = "br"
tag = "tg"
rev = "rv"
[term]
quiet = true
verbose = false
color = "always"
progress.when = "never"
progress.width = 80
"#;

fn of_all(folder: &Folder) -> Config {
    folder.put("p/.cargo/config.toml", ALL);
    folder.load(alone())
}

// A command: its program and its arguments.
fn command<const N: usize>(program: impl Into<std::path::PathBuf>, args: [&str; N]) -> PathAndArgs {
    let mut command = PathAndArgs::new(program);
    command.args(args);
    command
}

#[test]
fn commands_and_variables() {
    let folder = Folder::new();
    let (config, p) = (of_all(&folder), folder.0.join("p"));
    assert_eq!(config.alias["b"], "build".into());
    assert_eq!(config.alias["rr"], ["run", "--release"].into());
    assert_eq!(config.alias["list"], ["run", "a b", "\"q\"\n"].into());
    assert_eq!(config.alias.len(), 3);
    assert_eq!(config.credential_alias["my"], command(p.join("bin/cred"), ["--x"]));
    assert_eq!(config.doc.browser, Some(command(p.join("bin/chromium"), ["x"])));
    let (a, b, c) = (&config.env["A"], &config.env["B"], &config.env["C"]);
    assert_eq!((a.value.to_str(), a.force, a.relative), (Some("v"), false, false));
    assert_eq!((b.value.to_str(), b.force, b.relative), (Some("w"), true, false));
    assert_eq!((&c.value, c.force, c.relative), (&p.join("rel/p").into_os_string(), false, false));
}

#[test]
fn settings_of_cargo() {
    let folder = Folder::new();
    let config = of_all(&folder);
    assert_eq!(config.future_incompat_report.frequency, Some(Frequency::Never));
    assert_eq!(config.cargo_new.vcs, Some(VersionControlSoftware::Pijul));
    let http = &config.http;
    assert_eq!((http.debug, http.proxy.as_deref(), http.timeout), (Some(true), Some("host:1"), Some(30)));
    assert_eq!((http.cainfo.as_deref(), http.check_revoke), (Some("c.pem"), Some(false)));
    assert_eq!((http.low_speed_limit, http.multiplexing), (Some(10), Some(false)));
    assert_eq!(http.user_agent.as_deref(), Some("ua"));
    let net = &config.net;
    assert_eq!((net.retry, net.git_fetch_with_cli, net.offline), (Some(3), Some(true), Some(false)));
    let term = &config.term;
    assert_eq!((term.quiet, term.verbose, term.color), (Some(true), Some(false), Some(Color::Always)));
    assert_eq!((term.progress.when, term.progress.width), (Some(When::Never), Some(80)));
}

#[test]
fn registries_and_sources() {
    let folder = Folder::new();
    let (config, p) = (of_all(&folder), folder.0.join("p"));
    let r = &config.registries["r"];
    assert_eq!((r.index.as_deref(), r.token.as_deref()), (Some("https://x"), Some("T1")));
    assert_eq!(r.protocol, Some(RegistriesProtocol::Sparse));
    assert_eq!(r.credential_provider, Some(CredentialProvider::Alias("my".into())));
    let from_stdout = CredentialProvider::CargoTokenFromStdout(command(p.join("bin/p"), ["a"]));
    assert_eq!(config.registries["x.y"].credential_provider, Some(from_stdout));
    let registry = &config.registry;
    assert_eq!((registry.default.as_deref(), registry.token.as_deref()), (Some("r"), Some("T0")));
    assert_eq!(registry.credential_provider, Some(CredentialProvider::CargoLibsecret));
    let plugin = CredentialProvider::Plugin(command(p.join("bin/q"), ["a"]));
    assert_eq!(registry.global_credential_providers, vec![CredentialProvider::CargoToken, plugin].into());
    let s = &config.source["s"];
    assert_eq!((s.replace_with.as_deref(), s.registry.as_deref()), (Some("v"), Some("https://r")));
    assert_eq!((&s.directory, &s.local_registry), (&Some(p.join("vendor")), &Some(p.join("lr"))));
    assert_eq!((s.git.as_deref(), s.branch.as_deref()), (Some("g"), Some("br")));
    assert_eq!((s.tag.as_deref(), s.rev.as_deref()), (Some("tg"), Some("rv")));
}

#[test]
fn tokens_are_not_in_debug_forms() {
    let folder = Folder::new();
    let shown = format!("{:?}", of_all(&folder));
    assert!(shown.contains("token: Some(\"[REDACTED]\")") && shown.contains("https://x"), "{shown}");
    assert!(!shown.contains("T0") && !shown.contains("T1"), "{shown}");
}

#[test]
fn variables_are_not_in_debug_forms() {
    let folder = Folder::new();
    folder.put("p/q/.cargo/config.toml", "env.A = 'a'\n");
    let options = alone().env([("CARGO_REGISTRIES_R_TOKEN", "T2"), ("CARGO_SECRET", "T2")]);
    let shown = format!("{options:?} {:?}", folder.load(options.clone()));
    assert!(shown.contains("CARGO_SECRET") && shown.contains("\"R\"") && !shown.contains("T2"), "{shown}");
}

#[test]
fn nothing_is_set() {
    let config = Folder::new().load_empty();
    assert!(config.alias.is_empty() && config.env.is_empty() && config.registries.is_empty());
    assert!(config.source.is_empty() && config.credential_alias.is_empty());
    assert_eq!((config.net.retry, config.term.color, config.http.debug), (None, None, None));
    assert_eq!(config.build.target, None);
}

#[test]
fn a_variable_and_an_override() {
    let folder = Folder::new();
    folder.put("p/.cargo/config.toml", ALL);
    let variables = [("CARGO_NET_RETRY", "4"), ("CARGO_TERM_COLOR", "never"), ("CARGO_REGISTRIES_N_TOKEN", "T2")];
    let config = folder.load(alone().env(variables).config_text("net.retry = 5\nalias.n = ['c', 'd']"));
    assert_eq!((config.net.retry, config.term.color), (Some(5), Some(Color::Never)));
    assert_eq!(config.alias["n"], ["c", "d"].into());
    assert_eq!(config.registries["N"].token.as_deref(), Some("T2"));
    assert_eq!(config.alias.len(), 4);
}

#[test]
fn errors() {
    for (text, cause) in [
        ("http.timeout = 'x'", "wrong type at `http.timeout`"),
        ("term.color = 'x'", "wrong type at `term.color`"),
        ("registries.r.index = 1", "wrong type at `registries.r.index`"),
    ] {
        let folder = Folder::new();
        let path = folder.put("p/.cargo/config.toml", text);
        let error = Config::load_with_options(folder.0.join("p"), alone()).unwrap_err();
        assert_eq!(error.to_string(), format!("failed to parse `{}` as cargo configuration", path.display()));
        assert!(error.source().unwrap().to_string().starts_with(cause), "{:?}", error.source());
    }
}

#[test]
fn a_chosen_rustc_is_run() {
    let folder = Folder::new();
    let script = r#"printf x >> "${0%/*}/../starts"
case "$*" in
    '-x --print cfg --target t' | '-x -Z unstable-options --print cfg --target s/u.json') echo mine;;
    '-x -vV') printf 'release: 1.91.0\nhost: h\n';;
    *) exit 1;;
esac
"#;
    let rustc = folder.put_program("bin/chosen", script);
    let cargo = folder.put_program("bin/cargo", "printf 'release: 1.90.0\nhost: g\n'\n");
    folder.put(
        "p/.cargo/config.toml",
        "target.'cfg(mine)'.linker = 'l'\nbuild = { rustc = 'none', rustc-wrapper = 'w' }\n",
    );
    let chosen = command(&rustc, ["-x"]);
    let config = folder.load(alone().rustc(chosen.clone()).cargo(&cargo));
    assert_eq!(config.rustc(), &chosen);
    for target in ["t", "t", "s/u.json"] {
        assert_eq!(config.linker(target).unwrap().unwrap().to_str(), Some("l"));
    }
    assert_eq!(folder.starts(), 2);
    assert_eq!(config.rustc_version().unwrap().major_minor(), (1, 91));
    assert_eq!(config.cargo_version().unwrap().major_minor(), (1, 90));
    assert_eq!(config.host_triple().unwrap(), "g");
    assert_eq!(folder.starts(), 3);
}
