"""The random trees of tests/cargo: a target, settings of files, variables and overrides, by a seed and a number."""
import collections
import json
import random
import re

TRIPLES = (
    "x86_64-unknown-linux-gnu",
    "x86_64-unknown-linux-gnu",
    "aarch64-unknown-linux-musl",
    "x86_64-pc-windows-gnu",
    "wasm32-unknown-unknown",
    "thumbv8m.main-none-eabi",
)
KEYS = (
    "cfg(unix)",
    "cfg(windows)",
    "cfg(not(windows))",
    "cfg(all())",
    "cfg(any())",
    'cfg(target_os = "linux")',
    'cfg(all(unix, not(target_env = "musl"),))',
    'cfg(any(target_arch = "arm", target_pointer_width = "32"))',
    'cfg(target_arch="x86_64")',
    'cfg(target_has_atomic = "64")',
    'cfg(panic = "unwind")',
    'cfg(target_feature = "sse2")',
    'cfg(all(any(unix, target_family = "wasm"), not(all(windows, unix))))',
    "cfg( unix )",
    "cfg(test)",
    "cfg(not(test))",
    'cfg(feature = "a")',
    "cfg(proc_macro)",
    "cfg(Unix)",
)
BAD_KEYS = ("cfg(a b)", "cfg(unix", "cfg(not(unix, windows))")
SPARE_COMMAS = ("cfg(unix,)", "cfg(any(unix,,windows))", "cfg(all(),)")
# keys of which a rule of KNOWN speaks, among others: a file has one with the chance of one in twelve
ODD_KEYS = (
    "cfg(debug_assertions)",
    "cfg(not(debug_assertions))",
    "cfg(true)",
    "cfg(false)",
    "cfg()",
    f"cfg(any({', '.join(f'cc2_{number}' for number in range(1, 40))}))",
    "cfg(r#true)",
    *BAD_KEYS,
    *SPARE_COMMAS,
)
# the variables that `[env]` sets
NAMES = ("CC2_A", "CC2_B", "CC2_C", "CC2_D")
# a tree: its target, its settings by file, as pairs of a key path and a value, its variables, and its overrides, each
# the name of a file or none, and settings
Tree = collections.namedtuple("Tree", "triple files variables overrides")


def below(path, *front):
    """Whether a key path begins so."""
    return path[: len(front)] == front


def quoted(text):
    """A text as TOML has it."""
    return json.dumps(text, ensure_ascii=False).replace("\x7f", "\\u007f")


def toml_of(value):
    """A value as TOML has it."""
    if isinstance(value, dict):
        return f"{{ {', '.join(f'{key} = {toml_of(it)}' for key, it in value.items())} }}"
    if isinstance(value, bool):
        return "true" if value else "false"
    if isinstance(value, list):
        return f"[{', '.join(map(toml_of, value))}]"
    return quoted(value) if isinstance(value, str) else str(value)


def is_text(chance, form):
    """Whether a list is to be written as a text: by the tree's form, or either."""
    return form == "text" or form == "any" and chance.random() < 0.5


def flags(chance, form):
    """Flags that rustc takes and that say which they are: a text or an array, or either."""
    some = [f"--cfg=cc2_{chance.randrange(1, 40)}" for _ in range(chance.randrange(3))]
    if chance.random() < 0.2:
        some += ["--cfg", f"cc2_{chance.randrange(40, 80)}"]
    return chance.choice(["", " "]) + chance.choice([" ", "  "]).join(some) if is_text(chance, form) else some


def tool(chance, name, here):
    """A path to one of the stand-ins, which are in `bin` of each folder of a tree."""
    return chance.choice([f"bin/{name}", f"./bin/{name}", f"{here}/bin/{name}"])


def directory(chance, here, name="t"):
    """A directory, relative or not. Those of two names are never one: Cargo 1.95 waits forever for its own lock where the target
    directory and the build directory are one by two paths."""
    return chance.choice([name, f"out/{name}", f"./{name}", f"../{name}", f"{here}/abs/{name}", f"{name}{chance.randrange(9)}"])


def words(chance, form):
    """A command with its arguments: a text or an array, or either."""
    some = [chance.choice(["c", "bin/c", "/bin/c", "./c"])]
    some += [f"-{chance.choice('abc')}" for _ in range(chance.randrange(3))]
    return chance.choice([" ", "  "]).join(some) if is_text(chance, form) else some


def table_of_target(chance, triple):
    """The path below `target` of one triple, the other triples among them, or of a key."""
    if chance.random() < 0.5:
        return (chance.choice(KEYS),)
    name = triple if chance.random() < 0.8 else chance.choice(TRIPLES)
    return tuple(name.split(".", 1)) if chance.random() < 0.8 else (name,)


def setting(chance, triple, here, form):
    """A random setting: its key path and its value."""
    kind = chance.randrange(20)
    if kind < 6:
        table = ("target", *table_of_target(chance, triple))
        key = chance.choice(["linker", "rustflags", "rustflags", "rustdocflags", "runner"])
        if key == "linker":
            return (*table, key), chance.choice(["ld", "bin/ld", "./ld", "/bin/ld"]) + str(chance.randrange(9))
        return (*table, key), words(chance, form) if key == "runner" else flags(chance, form)
    if kind < 8:
        return ("build", chance.choice(["rustflags", "rustflags", "rustdocflags"])), flags(chance, form)
    if kind < 10:
        if chance.random() < 0.2:
            place = chance.choice(["{workspace-root}/o", "{cargo-cache-home}/o", "o/{workspace-root}"])
            return ("build", "build-dir"), place
        key = chance.choice(["target-dir", "build-dir", "dep-info-basedir"])
        return ("build", key), directory(chance, here, "b" if key == "build-dir" else "t")
    if kind < 11:
        key = chance.choice(["rustc", "rustc-wrapper", "rustc-workspace-wrapper"])
        return ("build", key), tool(chance, key, here)
    if kind < 14:
        name = chance.choice(NAMES)
        key = chance.choice(["value", "value", "force", "relative"])
        if chance.random() < 0.5:
            return ("env", name), chance.choice(["v", "v w", "", "bin/v", "/v"])
        return ("env", name, key), chance.choice(["v", "./v", "/v", ""]) if key == "value" else chance.random() < 0.6
    return chance.choice(
        [
            (("build", "jobs"), chance.choice([1, 2, 3, -1])),
            (("build", "incremental"), chance.random() < 0.5),
            (("build", "target"), "x86_64-unknown-linux-gnu" if is_text(chance, form) else ["wasm32-unknown-unknown"]),
            (("build", "rustdoc"), tool(chance, "rustdoc", here)),
            (("alias", chance.choice(["xa", "x b"])), words(chance, form)),
            (("credential-alias", "x"), words(chance, form)),
            (("doc", "browser"), words(chance, form)),
            (("future-incompat-report", "frequency"), chance.choice(["always", "never"])),
            (("cargo-new", "vcs"), chance.choice(["git", "hg", "pijul", "fossil", "none"])),
            (("http", chance.choice(["debug", "check-revoke", "multiplexing"])), chance.random() < 0.5),
            (("http", chance.choice(["proxy", "cainfo", "user-agent"])), "text"),
            (("http", chance.choice(["timeout", "low-speed-limit"])), chance.choice([0, 30, 4294967295])),
            (("net", "retry"), chance.randrange(5)),
            (("net", chance.choice(["git-fetch-with-cli", "offline"])), chance.random() < 0.5),
            (("registries", "r", chance.choice(["index", "token"])), "https://example.org/i"),
            (("registries", "r", "credential-provider"), words(chance, form)),
            (("registry", chance.choice(["default", "token"])), "r"),
            (("registry", "credential-provider"), words(chance, form)),
            (("registry", "global-credential-providers"), ["cargo:token", "c -a"][: chance.randrange(1, 3)]),
            (("source", "s", chance.choice(["registry", "directory", "git"])), "https://example.org/s"),
            (("term", "verbose"), chance.random() < 0.5),
            (("term", "color"), chance.choice(["auto", "always", "never"])),
            (("term", "progress", "when"), chance.choice(["auto", "never"])),
            (("term", "progress", "width"), 80),
            # keys that Cargo alone reads
            (("http", "ssl-version"), "tlsv1.2"),
            (("profile", "dev", "opt-level"), 0),
            (("cargo-new", "name"), "n"),
            (("net", "ssh", "known-hosts"), ["h"]),
            (("nobody", "reads"), "this"),
        ]
    )


def odd_setting(chance, form):
    """A setting of which a rule speaks."""
    key = chance.choice(ODD_KEYS)
    if "cc2_" in key:
        return ("target", key, "linker"), "odd"
    if chance.random() < 0.8:
        return ("target", key, "rustflags"), flags(chance, form)
    return chance.choice(
        [
            (("target", key, "linker"), "odd"),
            (("build", "jobs"), "default"),
            (("build", "jobs"), 0),
            (("net", "retry"), {"wrong": True}),
            (("build", "rustflags"), {"wrong": True}),
            (("build", "target-dir"), ""),
            (("build", "rustc-wrapper"), ""),
            (("include",), ["more.toml"]),
            (("nobody", "has"), 1.5),
            (("term", "quiet"), True),
            (("term", "progress", "when"), "always"),
            (("target", "x86_64-unknown-linux-gnu", "other"), "x"),
        ]
    )


def variable(chance, triple, here):
    """A random variable."""
    begin = f"CARGO_TARGET_{re.sub('[-.]', '_', triple).upper()}"
    text = flags(chance, "text")
    return chance.choice(
        [
            (f"{begin}_LINKER", chance.choice(["vl", "bin/vl", "/bin/vl"])),
            (f"{begin}_RUSTFLAGS", text),
            (f"{begin}_RUSTFLAGS", text),
            (f"{begin}_RUNNER", "vr -a"),
            (f"{begin}_RUSTDOCFLAGS", text),
            ("RUSTFLAGS", text),
            ("RUSTDOCFLAGS", text),
            (chance.choice(["CARGO_ENCODED_RUSTFLAGS", "CARGO_ENCODED_RUSTDOCFLAGS"]), "\x1f".join(text.split())),
            (chance.choice(["CARGO_BUILD_RUSTFLAGS", "CARGO_BUILD_RUSTDOCFLAGS"]), text),
            (chance.choice(["RUSTDOC", "CARGO_BUILD_RUSTDOC"]), tool(chance, "rustdoc", here)),
            ("CARGO_TARGET_DIR", directory(chance, here)),
            ("CARGO_BUILD_TARGET_DIR", directory(chance, here)),
            ("CARGO_BUILD_BUILD_DIR", directory(chance, here, "b")),
            ("CARGO_INCREMENTAL", chance.choice(["0", "1", "true"])),
            ("CARGO_BUILD_INCREMENTAL", chance.choice(["true", "false"])),
            ("CARGO_BUILD_RUSTC", tool(chance, "rustc", here)),
            (chance.choice(["RUSTC_WRAPPER", "CARGO_BUILD_RUSTC_WRAPPER"]), tool(chance, "rustc-wrapper", here)),
            (
                chance.choice(["RUSTC_WORKSPACE_WRAPPER", "CARGO_BUILD_RUSTC_WORKSPACE_WRAPPER"]),
                tool(chance, "rustc-workspace-wrapper", here),
            ),
            (chance.choice(["RUSTC_WRAPPER", "RUSTC_WORKSPACE_WRAPPER"]), ""),
            (chance.choice(NAMES), "of the machine"),
            ("CARGO_HTTP_TIMEOUT", "7"),
        ]
    )


def override(chance, triple, here, form):
    """A random setting of the command line, of those that reach rustc."""
    kind = chance.randrange(9)
    if kind < 2:
        return ("build", chance.choice(["rustflags", "rustflags", "rustdocflags"])), flags(chance, form)
    if kind == 8:
        if chance.random() < 0.5:
            return ("build", "incremental"), chance.random() < 0.5
        key = chance.choice(["target-dir", "build-dir"])
        return ("build", key), directory(chance, here, "b" if key == "build-dir" else "t")
    if kind < 6:
        table = ("target", *table_of_target(chance, triple))
        if chance.random() < 0.5:
            return (*table, "linker"), chance.choice(["ol", "bin/ol", "./ol", "/bin/ol"])
        if chance.random() < 0.3:
            return (*table, "runner"), words(chance, form)
        return (*table, chance.choice(["rustflags", "rustflags", "rustdocflags"])), flags(chance, form)
    key = chance.choice(["rustc", "rustc-wrapper", "rustc-workspace-wrapper", "rustdoc"])
    return ("build", key), tool(chance, key, here)


def overrides_of(chance, triple, here, form):
    """The overrides of a tree: each the name of a file or none, and its settings; a text has one."""
    found = []
    for number in range(chance.choice([0, 0, 1, 1, 2, 3])):
        name = chance.choice([None, None, f"o{number}.toml", f"../../k/o{number}.toml", f"{here}/h/o{number}.toml"])
        settings = []
        for _ in range(chance.randrange(1, 4) if name else 1):
            path, value = override(chance, triple, here, form)
            if not meets(path, value, settings):
                settings.append((path, value))
        found.append((name, settings))
    return found


def lines_for(settings):
    """Settings as the lines of a file."""
    return "".join(f"{'.'.join(map(quoted, key))} = {toml_of(value)}\n" for key, value in settings)


def words_for(tree, option):
    """The words of a tree's overrides; a file's come after this option."""
    some = [(option, name) if name else ("--config", lines_for(settings).rstrip()) for name, settings in tree.overrides]
    return [word for pair in some for word in pair]


def meets(path, value, settings):
    """Whether a file that has these settings can't have this one too: the same key, or a key below another's value."""
    return any(below(path, *other) or below(other, *path) for other, _ in settings)


def beginning(seed, number):
    """The random sequence of the tree of this number, its target, and how its lists are written."""
    chance = random.Random(f"{seed} {number}")
    return chance, chance.choice(TRIPLES), chance.choice(["text", "array", "array", "any"])


def grown(seed, number, here):
    """The tree of this number. It is the same for the same seed, but for the folder that it is in."""
    chance, triple, form = beginning(seed, number)
    # (rustc and rustdoc by their names are the stand-ins)
    variables = {"HOME": f"{here}/h", "PATH": f"{here}/bin:/usr/bin:/bin"}
    home = chance.choice(["h/.cargo", "h/.cargo", "p/.cargo", "k"])
    if home != "h/.cargo" or chance.random() < 0.2:
        variables["CARGO_HOME"] = chance.choice([f"{here}/{home}", f"../../{home}"])
    places = ["p/q/.cargo", "p/.cargo", home]
    files = {f"{at}/config{chance.choice(['.toml', '.toml', ''])}": [] for at in places if chance.random() < 0.8}
    if chance.random() < 0.1:
        files |= {f"{chance.choice(places)}/config{ending}": [] for ending in ("", ".toml")}
    for settings in files.values():
        for _ in range(chance.choice([1, 3, 6, 10])):
            path, value = setting(chance, triple, here, form)
            if not meets(path, value, settings):
                settings.append((path, value))
        if chance.random() < 0.12:
            path, value = odd_setting(chance, form)
            if not meets(path, value, settings):
                settings.append((path, value))
    for _ in range(chance.choice([0, 1, 2, 4])):
        name, value = variable(chance, triple, here)
        variables[name] = value
    if chance.random() < 0.03:
        name, value = chance.choice([("CARGO_TARGET_DIR", ""), ("CARGO_NET_RETRY", "wrong")])
        variables[name] = value
    if chance.random() < 0.5:
        variables["RUSTC"] = tool(chance, "rustc", here)
    # a table of env must have its value
    for settings in files.values():
        for name in {path[1] for path, _ in settings if path[0] == "env" and len(path) == 3}:
            if ("env", name, "value") not in [path for path, _ in settings]:
                settings.append((("env", name, "value"), "v"))
    return Tree(triple, files, variables, overrides_of(chance, triple, here, form))
