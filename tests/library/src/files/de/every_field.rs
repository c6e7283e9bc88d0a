//! A configuration with every field, copied, given a path, taken and shown.
use crate::files::made::files;
use crate::files::outcomes::{copied, merged, moved, push, shown};
use cc2_de::Config;
use cc2_error::error::Error;
use std::alloc::Global;
use std::result::Result;
use std::test::Fail;

const EXAMPLE: &str = "paths = [\"/elsewhere\"]
[alias]
b = [\"build\", \"--release\"]
r = [\"run\", \"a b\"]
[build]
jobs = -3
rustc = \"my-rustc\"
rustc-wrapper = \"wrap\"
rustc-workspace-wrapper = \"wrap-own\"
rustdoc = \"my-rustdoc\"
target = \"a b\"
target-dir = \"out\"
build-dir = \"between\"
rustflags = [\"-C\", \"debuginfo=0\"]
rustdocflags = \"--cfg  docs\"
incremental = true
dep-info-basedir = \"base\"
[credential-alias]
vault = [\"bin/vault\", \"--quiet\"]
[doc]
browser = \"firefox --new-tab\"
[env]
PLAIN = \"text\"
TABLE = { value = \"dir\", force = true, relative = false }
[future-incompat-report]
frequency = \"never\"
[cargo-new]
vcs = \"pijul\"
[http]
debug = true
proxy = \"localhost:8080\"
timeout = 4294967295
cainfo = \"certs.pem\"
check-revoke = false
low-speed-limit = 5
multiplexing = true
user-agent = \"me\"
[install]
root = \"ignored\"
[net]
retry = 3
git-fetch-with-cli = true
offline = false
[profile.dev]
opt-level = 1
[registries.mine]
index = \"https://example.com/index\"
token = \"hidden\"
credential-provider = \"cargo:token\"
protocol = \"sparse\"
[registry]
default = \"mine\"
token = \"hidden\"
credential-provider = [\"get-token\", \"--fast\"]
global-credential-providers = [\"cargo:token\", \"vault x\"]
[registries.b]
credential-provider = [\"cargo:wincred\"]
[registries.c]
credential-provider = \"cargo:macos-keychain\"
[registries.d]
credential-provider = [\"cargo:libsecret\"]
[registries.e]
credential-provider = \"cargo:token-from-stdout cat f\"
[registries.f]
credential-provider = \"vault\"
[source.copy]
replace-with = \"other\"
directory = \"dir\"
registry = \"https://example.com/r\"
local-registry = \"local\"
git = \"https://example.com/g\"
branch = \"main\"
tag = \"v1\"
rev = \"abc\"
[target.x]
linker = \"ld\"
runner = \"run it\"
rustflags = [\"-C\", \"x\"]
rustdocflags = \"y\"
[target.x.y]
linker = \"nested\"
[term]
quiet = false
verbose = true
color = \"always\"
[term.progress]
when = \"never\"
width = 80
";

// The configuration of the file `/near` or `/far`, both of them the example.
fn load(alloc: Global, path: &str) -> Result<Config, Error> {
    let files = files(alloc, &[("/near", EXAMPLE), ("/far", EXAMPLE)])?;
    Config::load_file(alloc, path, &files)
}

// The debug form of the file at a path.
fn shown_file(alloc: Global, path: &str) -> Result<String, Fail> {
    shown(alloc, load(alloc, path))
}

// That of an empty configuration that was merged with the file `/near`.
fn shown_taken(alloc: Global) -> Result<String, Fail> {
    let empty = Ok(Config::empty(alloc));
    shown(alloc, merged(alloc, empty, load(alloc, "/near")))
}

// That of the file `/near` when it was merged as a list of one.
fn shown_alone(alloc: Global) -> Result<String, Fail> {
    let mut list = Vec::new(alloc);
    push(&mut list, load(alloc, "/near"))?;
    shown(alloc, Config::merge_all(alloc, list))
}

#[test]
fn every_field_is_copied_moved_and_taken(rt: HostRuntime) -> Result<(), Fail> {
    let alloc = rt.alloc();
    let near = shown_file(alloc, "/near")?;
    let copy = shown(alloc, copied(alloc, load(alloc, "/near")))?;
    assert_eq!(rt; copy.as_str(), near.as_str());
    assert_eq!(rt; shown_taken(alloc)?.as_str(), near.as_str());
    assert_eq!(rt; shown_alone(alloc)?.as_str(), near.as_str());
    let far = shown_file(alloc, "/far")?;
    let there = shown(alloc, moved(alloc, load(alloc, "/near"), "/far"))?;
    assert_eq!(rt; there.as_str(), far.as_str());
    Ok(())
}

#[test]
fn tokens_are_not_shown(rt: HostRuntime) -> Result<(), Fail> {
    let shown = shown_file(rt.alloc(), "/near")?;
    assert!(rt; shown.contains("[REDACTED]"));
    assert!(rt; !shown.contains("hidden"));
    Ok(())
}
