//! The files that the uses read, and the programs that they start.
use std::fmt::Debug;
use std::fs;
use std::io;
use std::os::unix::fs::PermissionsExt;
use std::path::{Path, PathBuf};

pub const HOST: &str = "x86_64-unknown-linux-gnu";
pub const ARM: &str = "aarch64-unknown-linux-gnu";
pub const WASM: &str = "wasm32-unknown-unknown";

// The user's file.
const USER: &str = r#"
[alias]
b = "build"
ci = ["--locked"]

[build]
jobs = 8
rustflags = ["-Cdebuginfo=1"]

[credential-alias]
vault = ["bin/vault", "--quiet"]

[future-incompat-report]
frequency = "never"

[http]
proxy = "proxy.example:3128"
timeout = 30
user-agent = "builder"

[net]
git-fetch-with-cli = true
retry = 3

[registries.company]
index = "sparse+https://company.example/index/"
token = "a secret of the company"
credential-provider = "vault"

[registry]
default = "company"
token = "a secret of crates.io"
credential-provider = "cargo:libsecret"
global-credential-providers = ["cargo:token", "bin/keys --user me"]

[term]
color = "always"
verbose = true
progress.when = "never"
"#;

// The file of a workspace.
const WORKSPACE: &str = r#"
[alias]
ci = ["test", "--workspace"]
xtask = "run  --package xtask --"

[build]
jobs = 4
target-dir = "out"
rustflags = ["-Cforce-frame-pointers=yes"]
rustdocflags = "--cfg docsrs"

[cargo-new]
vcs = "pijul"

[doc]
browser = ["tools/open", "--new-tab"]

[env]
RUST_BACKTRACE = "1"
SCHEMAS = { value = "schemas/v1", relative = true }
LANG = { value = "C", force = true }

[http]
cainfo = "ca.pem"
check-revoke = false
debug = false
low-speed-limit = 10
multiplexing = true

[registries]
crates-io.protocol = "sparse"
tools.credential-provider = ["cargo:token-from-stdout", "bin/tokens", "read"]

[source]
crates-io.replace-with = "mirror"
mirror = { registry = "https://mirror.example/", replace-with = "vendored" }
vendored.directory = "third-party"
tools = { git = "https://tools.example/", branch = "next" }
tagged = { git = "https://tools.example/", tag = "v1", rev = "abcdef" }
offline.local-registry = "registry"

[target.aarch64-unknown-linux-gnu]
linker = "aarch64-linux-gnu-gcc"
runner = "qemu-aarch64 -L /usr/aarch64-linux-gnu"
rustflags = ["-Ctarget-cpu=cortex-a72"]

[target.'cfg(all(target_os = "linux", target_env = "gnu"))']
linker = "tools/link"
rustflags = "-Clink-arg=-fuse-ld=mold  -Clink-arg=-s"
rustdocflags = ["--document-private-items"]

[target.'cfg(target_family = "wasm")']
runner = ["tools/wasm-run", "--dir", "."]
"#;

// The file of one package in it, without the ending `.toml`.
const MEMBER: &str = r#"
[build]
jobs = 2
incremental = false
dep-info-basedir = "deps"

[net]
offline = true

[term]
quiet = false
progress.width = 80
"#;

const CARGO: &str = r#"
printf '%s\n' "cargo $*" >> "${0%/*}/starts"
printf '%s\n' 'cargo 1.89.0 (0123abcd 2025-06-23)' 'release: 1.89.0' 'host: x86_64-unknown-linux-gnu'
"#;

const RUSTC: &str = r#"
printf '%s\n' "rustc $*" >> "${0%/*}/starts"
for word; do last=$word; done
print() { printf '%s\n' "$@"; }
linux() {
    print debug_assertions 'panic="unwind"' 'target_abi=""' "target_arch=\"$1\"" 'target_endian="little"' \
        'target_env="gnu"' 'target_family="unix"' 'target_feature="neon"' 'target_feature="aes"' \
        'target_has_atomic="32"' 'target_has_atomic="64"' 'target_has_atomic="ptr"' 'target_os="linux"' \
        'target_pointer_width="64"' 'target_vendor="unknown"' unix
}
case $last in
-vV) print 'rustc 1.91.0-nightly (4567cdef 2025-08-30)' 'host: x86_64-unknown-linux-gnu' 'release: 1.91.0-nightly' ;;
x86_64-unknown-linux-gnu) linux x86_64 ;;
aarch64-unknown-linux-gnu) linux aarch64 ;;
wasm32-unknown-unknown)
    print 'target_arch="wasm32"' 'target_endian="little"' 'target_family="wasm"' 'target_os="unknown"' \
        'target_pointer_width="32"' 'target_vendor="unknown"' ;;
*/kernel.json) print 'target_arch="riscv128"' 'target_endian="big"' 'target_os="kernel"' 'target_pointer_width="128"' ;;
*)
    echo "error: no target $last" >&2
    exit 1 ;;
esac
"#;

/// A folder with all of it.
pub struct Tree {
    folder: PathBuf,
}

impl Tree {
    /// Writes the files and programs below a folder.
    pub fn lay_out(folder: &Path) -> io::Result<Tree> {
        let tree = Tree { folder: folder.canonicalize()? };
        tree.put("home/.cargo/config.toml", USER)?;
        tree.put("work/.cargo/config.toml", WORKSPACE)?;
        tree.put("work/member/.cargo/config", MEMBER)?;
        tree.put("work/kernel.json", "{}")?;
        tree.put_program("bin/cargo", CARGO)?;
        tree.put_program("bin/rustc", RUSTC)?;
        tree.put_program("bin/wrapper", "echo \"wrapped: ${1##*/}\"\nexec \"$@\"\n")?;
        fs::create_dir_all(tree.path("empty"))?;
        Ok(tree)
    }

    /// A path below the folder.
    pub fn path(&self, below: &str) -> PathBuf {
        self.folder.join(below)
    }

    /// Writes a file, and makes the folders above it.
    pub fn put(&self, below: &str, content: &str) -> io::Result<PathBuf> {
        let path = self.path(below);
        if let Some(above) = path.parent() {
            fs::create_dir_all(above)?;
        }
        fs::write(&path, content)?;
        Ok(path)
    }

    /// Prints a label and a value in its debug form, with the folder as `DIR`.
    pub fn say<T: Debug>(&self, label: &str, value: T) {
        println!("{}", format!("{label}: {value:?}").replace(&*self.folder.to_string_lossy(), "DIR"));
    }

    /// The lines that the programs wrote since this was asked last, one for each start.
    pub fn take_starts(&self) -> io::Result<Vec<String>> {
        let path = self.path("bin/starts");
        if !path.exists() {
            return Ok(Vec::new());
        }
        let lines = fs::read_to_string(&path)?.lines().map(str::to_owned).collect();
        fs::remove_file(path)?;
        Ok(lines)
    }

    fn put_program(&self, below: &str, script: &str) -> io::Result<()> {
        let path = self.put(below, &format!("#!/bin/sh\n{}\n", script.trim()))?;
        fs::set_permissions(path, fs::Permissions::from_mode(0o755))
    }
}
