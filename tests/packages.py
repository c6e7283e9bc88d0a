"""Builds Rust programs over a crate cargo-config2, without a network: the published one, or that of this repository with the library in dist/."""
import os
import subprocess

import programs

SECONDS = 1800
# the variables of cargo and rustup that a build keeps
KEPT = ("CARGO_BUILD_JOBS", "RUSTUP_HOME", "RUSTUP_TOOLCHAIN")


class NotBuilt(Exception):
    """cargo doesn't build a program."""


def put(path, text):
    """Writes a file, and makes the folders above it. One that has this text stays as it is, since cargo builds anew what is newer."""
    os.makedirs(os.path.dirname(path), exist_ok=True)
    if os.path.isfile(path):
        with open(path, encoding="utf-8") as file:
            if file.read() == text:
                return
    with open(path, "w", encoding="utf-8") as file:
        file.write(text)


def build(base, name, source, dependencies, vendor=None, release=None):
    """The path of the program NAME, built below the folder BASE of this source file and these lines of dependencies.

    VENDOR is a folder of packages, as `cargo vendor` leaves them, in place of a registry. RELEASE has the lines of the
    release profile, which is taken where they are given, if only as an empty text.
    """
    folder = f"{base}/{name}"
    manifest = f'[package]\nname = "{name}"\nversion = "0.0.0"\nedition = "2021"\n[[bin]]\nname = "{name}"\npath = "{source}"\n'
    put(f"{folder}/Cargo.toml", f"{manifest}[dependencies]\n{dependencies}\n[profile.release]\n{release or ''}\n[workspace]\n")
    if vendor:
        replaced = f'[source.crates-io]\nreplace-with = "here"\n[source.here]\ndirectory = "{vendor}"\n'
        put(f"{folder}/.cargo/config.toml", replaced)
    env = {name: it for name, it in os.environ.items() if not name.startswith(("CARGO", "RUST")) or name in KEPT}
    env |= {"CARGO_HOME": f"{base}/cargo", "CARGO_TARGET_DIR": f"{base}/target", "CC2_LIB": programs.DIST}
    words = ["cargo", "build", "--quiet", "--offline"] + ([] if release is None else ["--release"])
    ran = subprocess.run(words, cwd=folder, env=env, capture_output=True, text=True, timeout=SECONDS)
    if ran.returncode:
        raise NotBuilt(f"{name} isn't built: {ran.stderr}")
    return f"{base}/target/{'debug' if release is None else 'release'}/{name}"
