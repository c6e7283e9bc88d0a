"""The files of a tree as `cargo config get` and `cargo-config2 get --files` print them, by key path."""
import json
import tomllib

from cargo_runs import run

# the words of cargo-config2 for each question about a directory
SHOWS = {
    "resolved": ["-C", "DIR", "get", "--resolved"],
    "files": ["-C", "DIR", "get", "--files", "--rules", "crate", "--tokens", "--format", "json"],
    "each file": ["-C", "DIR", "get", "--files", "--tokens", "--merged", "no"],
}
# what is read where, and how two spellings of one value are recognized as the same
TABLES = {
    "alias": {"*": "words"},
    "build": {
        "jobs": "plain",
        "rustc": "plain",
        "rustc-wrapper": "plain",
        "rustc-workspace-wrapper": "plain",
        "rustdoc": "plain",
        "target": "plain",
        "target-dir": "plain",
        "build-dir": "plain",
        "dep-info-basedir": "plain",
        "rustflags": "words",
        "rustdocflags": "words",
        "incremental": "plain",
    },
    "credential-alias": {"*": "words"},
    "doc": {"browser": "words"},
    "env": {"*": "plain", "*.value": "plain", "*.force": "plain", "*.relative": "plain"},
    "future-incompat-report": {"frequency": "plain"},
    "cargo-new": {"vcs": "plain"},
    "http": {
        "debug": "plain",
        "proxy": "plain",
        "timeout": "plain",
        "cainfo": "plain",
        "check-revoke": "plain",
        "low-speed-limit": "plain",
        "multiplexing": "plain",
        "user-agent": "plain",
    },
    "net": {"retry": "plain", "git-fetch-with-cli": "plain", "offline": "plain"},
    "registries": {"*.index": "plain", "*.token": "plain", "*.credential-provider": "words", "*.protocol": "plain"},
    "registry": {
        "default": "plain",
        "token": "plain",
        "credential-provider": "words",
        "global-credential-providers": "each",
    },
    "source": {
        "*.replace-with": "plain",
        "*.registry": "plain",
        "*.git": "plain",
        "*.branch": "plain",
        "*.tag": "plain",
        "*.rev": "plain",
        "*.directory": "plain",
        "*.local-registry": "plain",
    },
    "target": {"linker": "plain", "runner": "words", "rustflags": "words", "rustdocflags": "words"},
    "term": {
        "quiet": "plain",
        "verbose": "plain",
        "color": "plain",
        "progress.when": "plain",
        "progress.width": "plain",
    },
}


def shows(what, here, tools):
    """The command that asks what is configured in the package of a tree."""
    return [tools["cc2_program"], *(f"{here}/p/q" if word == "DIR" else word for word in SHOWS[what])]


def leaves(value, path=()):
    """The values of a table that are no tables, by their key paths."""
    if isinstance(value, dict):
        return {at: it for key, below_it in value.items() for at, it in leaves(below_it, (*path, key)).items()}
    return {path: value}


def way_of(path):
    """How the value at a key path is read here; none where nothing reads it."""
    table = TABLES.get(path[0], {})
    if path[0] == "target":
        return table.get(path[-1]) if len(path) > 2 else None
    inside = ".".join(path[1:])
    return table.get(inside) or table.get(".".join(["*", *path[2:]]) if len(path) > 1 else "")


def alike(path, value):
    """A value in one form for all its spellings."""
    way = way_of(path)
    if way == "words" and isinstance(value, str):
        return value.split()
    if way == "each" and isinstance(value, list):
        return [it.split() for it in value]
    return value


def merged_by_cargo(tree, here, tools):
    """The merged files by `cargo config get`, by key path, as far as they are read here."""
    command = [tools["cargo"], "-Z", "unstable-options", "config", "get", "--format", "json"]
    status, stdout, stderr = run(command, tree, here, RUSTC_BOOTSTRAP="1")
    if status:
        return None, stderr
    read = {path: value for path, value in leaves(json.loads(stdout)).items() if way_of(path)}
    return {".".join(path): alike(path, value) for path, value in read.items()}, ""


def merged_here(tree, here, tools):
    """The merged files by `cargo-config2 get --files --format json`, by key path."""
    status, stdout, stderr = run(shows("files", here, tools), tree, here)
    if status:
        return None, stdout or stderr or f"status {status}"
    return {".".join(path): alike(path, value) for path, value in leaves(json.loads(stdout)).items()}, ""


def each_file(text):
    """The lines under the headline of each file, by the file's place among them, its path and the key path."""
    blocks, inside = [], None
    for line in text.splitlines():
        if line.startswith("# "):
            inside = [] if line.startswith("# /") else None
            blocks += [(line[2:], inside)] if inside is not None else []
        elif inside is not None:
            inside.append(line)
    tables = [(path, leaves(tomllib.loads("\n".join(lines)))) for path, lines in blocks]
    read = [(path, {at: it for at, it in table.items() if way_of(at)}) for path, table in tables]
    kept = [(path, table) for path, table in read if table]
    return {f"{n} {path} {'.'.join(at)}": alike(at, it) for n, (path, table) in enumerate(kept) for at, it in table.items()}


def each_by_cargo(tree, here, tools):
    """What each file has by `cargo config get --merged no`, as far as it is read here."""
    command = [tools["cargo"], "-Z", "unstable-options", "config", "get", "--merged", "no"]
    status, stdout, stderr = run(command, tree, here, RUSTC_BOOTSTRAP="1")
    return (None, stderr) if status else (each_file(stdout), "")


def each_here(tree, here, tools):
    """The same by `cargo-config2 get --files --merged no`."""
    status, stdout, stderr = run(shows("each file", here, tools), tree, here)
    return (None, stdout or stderr or f"status {status}") if status else (each_file(stdout), "")
