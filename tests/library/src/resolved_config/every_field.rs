//! A file with every field that is printed as it is once it is resolved.

/// The file. It has no provider of every registry, which a file has as a text and the resolved
/// configuration as an array.
pub const EVERY_FIELD: &str = "[alias]
b = [\"build\", \"--release\"]

[build]
jobs = -3
rustc = \"my-rustc\"
rustc-wrapper = \"wrap\"
rustc-workspace-wrapper = \"wrap-own\"
rustdoc = \"my-rustdoc\"
target = [\"a b\", \"/s/a.json\"]
target-dir = \"/out\"
build-dir = \"/between\"
rustflags = [\"-C\", \"debuginfo=0\"]
rustdocflags = [\"--cfg\", \"docs\"]
incremental = true
dep-info-basedir = \"/base\"

[credential-alias]
vault = [\"/bin/vault\", \"--quiet\"]

[doc]
browser = [\"firefox\", \"--new-tab\"]

[env]
PLAIN = \"text\"

[env.TABLE]
value = \"dir\"
force = true

[future-incompat-report]
frequency = \"never\"

[cargo-new]
vcs = \"pijul\"

[http]
debug = true
proxy = \"localhost:8080\"
timeout = 4294967295
cainfo = \"certs.pem\"
check-revoke = false
low-speed-limit = 5
multiplexing = true
user-agent = \"me\"

[net]
retry = 3
git-fetch-with-cli = true
offline = false

[registries.mine]
index = \"https://example.com/index\"
token = \"secret\"
credential-provider = [\"cargo:token\"]
protocol = \"sparse\"

[registry]
default = \"mine\"
credential-provider = [\"get-token\", \"--fast\"]
token = \"secret\"

[source.copy]
replace-with = \"other\"
directory = \"/dir\"
registry = \"https://example.com/r\"
local-registry = \"/local\"
git = \"https://example.com/g\"
branch = \"main\"
tag = \"v1\"
rev = \"abc\"

[term]
quiet = false
verbose = true
color = \"always\"

[term.progress]
when = \"never\"
width = 80
";
