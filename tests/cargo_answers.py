"""What cc2_get and cargo-config2 say of a tree, in the form of what Cargo was seen to do; and the targets by both."""
import json
import os
import random
import re
import tomllib

from cargo_config import shows
from cargo_runs import records, run
from cargo_trees import NAMES, TRIPLES, toml_of, words_for


def unescaped(text):
    """A text between quotes as cc2_get prints it."""

    def plain(found):
        return bytes.fromhex(found[2].decode()) if found[2] else found[1]

    return re.sub(rb"\\(x(..)|.)", plain, text[1:-1].encode()).decode()


def on_path(command, here):
    """A command as the system finds it: rustc and rustdoc by their names are the stand-ins."""
    return [f"{here}/bin/{command[0]}" if command[0] in ("rustc", "rustdoc") else command[0], *command[1:]]


def lines_of(text):
    """The lines of cc2_get by their keys: a text, or the texts of a list in their order."""
    found = {}
    for line in text.splitlines():
        key, _, value = line.partition(" = ")
        name, place, _ = key.partition("[")
        if value == "[]":
            found[name] = []
        elif place:
            found.setdefault(name, []).append(unescaped(value))
        else:
            found[name] = unescaped(value)
    return found


def of_programs(tree, here, tools):
    """The same as of_cargo, as cc2_get and cargo-config2 say it."""
    where = f"{here}/p/q"
    get = tools["cc2_get"]
    over = words_for(tree, "--config-file")
    resolved = [*shows("resolved", here, tools), *words_for(tree, "--config")]
    asked = [get, where, "rustc", *over], [get, where, "target", tree.triple, *over], resolved
    runs = [run(it, tree, here) for it in asked]
    for status, stdout, stderr in runs:
        if status:
            return None, stdout or stderr or f"status {status}"
    command, target, config = lines_of(runs[0][1]), lines_of(runs[1][1]), tomllib.loads(runs[2][1])
    build = config.get("build", {})
    at = build.get("target-dir", f"{where}/target")
    if "build-dir" in build:
        home = os.path.join(where, tree.variables.get("CARGO_HOME") or f"{tree.variables['HOME']}/.cargo")
        at = build["build-dir"].replace("{workspace-root}", where).replace("{cargo-cache-home}", home)
    said = {
        "rustc": on_path(command["rustc"], here),
        "flags": target.get("rustflags", []),
        "linker": target.get("linker"),
        "runner": target.get("runner", []),
        "rustdoc": on_path([build.get("rustdoc", "rustdoc")], here),
        "doc flags": target.get("rustdocflags", []),
        "incremental": build.get("incremental", True),
        "directory": os.path.normpath(f"{at}/{tree.triple}/debug/deps"),
    }
    for name in NAMES:
        value = config.get("env", {}).get(name)
        is_forced = isinstance(value, dict) and value.get("force", False)
        value = value["value"] if isinstance(value, dict) else value
        stands = tree.variables.get(name)
        said[f"env.{name}"] = stands if value is None or stands is not None and not is_forced else value
    return said, ""


def by_rules(tree, here, tools):
    """What cargo-config2 says by Cargo's own rules of rustc, the flags, the linker and the runner, or None and why it refuses."""
    asked = ["rustc", "--rules", "cargo"], ["target", tree.triple, "--rules", "cargo", "--format", "json"]
    runs = [run([tools["cc2_program"], "-C", f"{here}/p/q", *it, *words_for(tree, "--config")], tree, here) for it in asked]
    for status, _, stderr in runs:
        if status:
            return None, stderr or f"status {status}"
    # (of one target, which `host-tuple` names too)
    (target,) = json.loads(runs[1][1])["target"].values()
    return {
        "rustc": on_path(lines_of(runs[0][1])["rustc"], here),
        "flags": target.get("rustflags", []),
        "linker": target.get("linker"),
        "runner": target.get("runner", []),
        "doc flags": target.get("rustdocflags", []),
    }, ""


def target_choice(here):
    """A variable and words that set `build.target` in a tree, by the tree's number."""
    chance = random.Random(os.path.basename(here))
    odd = (" wasm32-unknown-unknown ", "wasm32-unknown-unknown host-tuple", "", "5", "\udcff")
    text = chance.choice([None, None, *TRIPLES, "host-tuple", *odd])
    several = ["aarch64-unknown-linux-musl", "host-tuple"]
    value = chance.choice([None, None, None, "wasm32-unknown-unknown", several, ["wasm32-unknown-unknown"]])
    variables = {} if text is None else {"CARGO_BUILD_TARGET": text}
    return variables, [] if value is None else ["--config", f"build.target={toml_of(value)}"]


def targets_by_cargo(tree, here, tools, variables, words):
    """For which targets Cargo asks rustc without `--target`: None where it doesn't come to compile, with its words."""
    seen = f"{here}/target-records"
    os.mkdir(seen)
    command = [tools["cargo"], "check", "--offline", *words_for(tree, "--config"), *words]
    # Cargo keeps what rustc said earlier of a target
    said = run(command, tree, here, CC2_RECORDS=seen, CARGO_CACHE_RUSTC_INFO="0", **variables)[2]
    runs = [it[0] for it in records(seen)]
    if not any("--crate-name empty " in f"{' '.join(it)} " for it in runs):
        return None, said
    asked = {it[it.index("--target") + 1] for it in runs if "___" in it and "--target" in it}
    return {"targets": sorted(asked) or [tools["host"]]}, said


def targets_by_rules(tree, here, tools, variables, words):
    """The same, as cargo-config2 says it by Cargo's own rules."""
    command = [tools["cc2_program"], "-C", f"{here}/p/q", "target", "--rules", "cargo", "--format", "json"]
    status, stdout, stderr = run([*command, *words_for(tree, "--config"), *words], tree, here, **variables)
    if status:
        return None, stderr or f"status {status}"
    return {"targets": sorted(json.loads(stdout)["target"])}, ""


def is_joined(tree, theirs, ours):
    """Whether Cargo joined the runner's words, as it does at random, and ends with the arguments of this one: it is an array in two
    places. (It always joins those of a triple with a dot, at a key of more than three parts.)"""
    layers = [*tree.files.values(), *(settings for _, settings in tree.overrides)]
    paths = [path for layer in layers for path, value in layer if path[-1] == "runner" and len(path) == 3 and isinstance(value, list)]
    return len(paths) > len({*paths}) and len(theirs) > len(ours) > 0 and theirs[len(theirs) - len(ours) + 1 :] == ours[1:]

