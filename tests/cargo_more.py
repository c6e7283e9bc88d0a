"""What a random tree of tests/cargo has besides for Cargo's rules: includes, odd white space and keys, flags that make keys true,
runners in several places, and variables that aren't UTF-8.

It comes from a sequence of its own, so that a tree of the crate's rules is the same for the same seed.
"""
import os
import random
import re

from cargo_trees import KEYS, beginning, flags, meets, setting, words

HOST = "x86_64-unknown-linux-gnu"
# white space that separates the words of a text, some of it in Unicode alone
SPACES = (" ", "\t", "\n", "\r\n", "\u00a0", "\u3000", "\u2028", "\x0b", "\x0c", "\x85", " \t ", "\u2003")
# what comes after a space of RUSTFLAGS is taken off each word
AROUND = (" ", "\t ", " \n", "\u00a0 ", " \u3000", "  \t ")
SPELLED = (
    "cfg(r#unix)",
    "cfg(r#true)",
    "cfg(r#false)",
    "cfg(all(r#unix))",
    "cfg(r#all(unix))",
    "cfg(r#not(windows))",
    'cfg(r#target_os = "linux")',
    "cfg(r#r#unix)",
    "cfg(r#)",
    "cfg(\tunix)",
    "cfg(unix\n)",
    "cfg(\u00a0unix)",
    "cfg(  all( unix ,  not( windows ) )  )",
    'cfg(target_os= "linux" )',
    "cfg(unix) ",
    " cfg(unix)",
    "cfg (unix)",
    "cfg()",
    "cfg( )",
    "cfg",
    "cfg(",
    "cfg(unix))",
    "cfg((unix))",
    "cfg(unix",
    "cfg(all(unix)",
    "cfg(unix unix)",
    "cfg(not())",
    "cfg(not(windows,))",
    "cfg(not(windows, windows))",
    "cfg(all(,))",
    "cfg(all(unix,))",
    "cfg(all(unix,,unix))",
    "cfg(unix,)",
    "cfg(any(windows,unix,),)",
    "cfg(all)",
    "cfg(any)",
    "cfg(not)",
    "cfg(not(not))",
    "cfg(target_os)",
    'cfg(target_os = "")',
    "cfg(target_os = linux)",
    'cfg(target_os == "linux")',
    'cfg(target_os = "linux)',
    'cfg(target_os = "linux",)',
    'cfg("unix")',
    'cfg(unix = "")',
    "cfg(=)",
    "cfg(true)",
    "cfg(not(false))",
    'cfg(true = "x")',
    "cfg(TRUE)",
    "cfg(\u00e9)",
    "cfg(a-b)",
    "cfg(_)",
    "cfg(1)",
    "cfg(#)",
    "cfg(debug_assertions)",
    "cfg(not(debug_assertions))",
    "CFG(unix)",
    "unix",
)
# keys that flags make true or false, and the flags
MADE = (
    ("cfg(cc2_{n})", "--cfg=cc2_{n}"),
    ("cfg(cc2_{n})", "--cfg cc2_{n}"),
    ("cfg(not(cc2_{n}))", "--cfg=cc2_{n}"),
    ("cfg(all(unix, cc2_{n}))", "--cfg=cc2_{n}"),
    ("cfg(any(windows, not(cc2_{n})))", "--cfg=cc2_{n}"),
    ('cfg(cc2_{n} = "v")', '--cfg=cc2_{n}="v"'),
    ('cfg(panic = "abort")', "-Cpanic=abort"),
    ('cfg(not(panic = "unwind"))', "-Cpanic=abort"),
    ('cfg(target_feature = "sse4.1")', "-Ctarget-feature=+sse4.1"),
    ("cfg(debug_assertions)", "-Cdebug-assertions=off"),
)
# the variables of what a build runs, as they are, and behind CARGO_BUILD_
TOOLS = ("RUSTC", "RUSTC_WRAPPER", "RUSTC_WORKSPACE_WRAPPER", "RUSTDOC")
INCLUDED = ("i1.toml", "./i2.toml", "sub/i3.toml", "../i4.toml", "sub/../i5.toml", "sub//deep/i6.toml", "HERE/abs/i7.toml")


def deep(chance):
    """A key of many predicates below each other."""
    depth = chance.choice([2, 9, 40, 150])
    name = chance.choice(["all", "any", "not"])
    return f"cfg({f'{name}(' * depth}unix{')' * (depth - chance.choice([0, 0, 0, 1]))})"


def odd_key(chance):
    """A key in another spelling, or in none."""
    return deep(chance) if chance.random() < 0.1 else chance.choice(SPELLED)


def put(settings, path, value):
    """Adds a setting where a file can have it beside the others."""
    if not meets(path, value, settings):
        settings.append((path, value))


def target_key(chance, settings, key, form):
    """Adds a setting of this key `cfg(..)`: most times flags, which several keys may have."""
    kind = chance.random()
    if kind < 0.93:
        put(settings, ("target", key, "rustflags"), flags(chance, form))
    else:
        put(settings, ("target", key, chance.choice(["linker", "runner"])), "odd")


def spaced(chance, text, spaces):
    """A text with other white space between its words, and perhaps around them."""
    some = text.split(" ")
    for at in range(1, len(some)):
        some[at] = chance.choice(spaces) + some[at]
    return chance.choice(["", "", *spaces]) + "".join(some) + chance.choice(["", "", *spaces])


def is_list(path):
    """Whether a text at this key is split into words."""
    return path[-1] in ("rustflags", "rustdocflags", "runner")


def with_spaces(chance, settings):
    """The settings, some of whose texts have other white space."""
    return [
        (path, spaced(chance, value, SPACES) if is_list(path) and isinstance(value, str) and chance.random() < 0.4 else value)
        for path, value in settings
    ]


class Includes:
    """The files that a tree's files include, by their paths in the tree."""

    def __init__(self, chance, triple, here, form):
        self.chance, self.triple, self.here, self.form = chance, triple, here, form
        self.files = {}

    def settings(self, at, depth):
        """The settings of an included file in this folder, which may include others."""
        found = []
        for _ in range(self.chance.randrange(1, 4)):
            path, value = setting(self.chance, self.triple, self.here, self.form)
            if path[0] != "env":
                put(found, path, value)
        if depth < 3 and self.chance.random() < 0.3:
            found.append((("include",), self.value(at, depth + 1)))
        return found

    def value(self, at, depth=0):
        """The value of a key `include` of a file in this folder, whose files are added."""
        chance = self.chance
        items = []
        for name in chance.sample(INCLUDED, chance.choice([1, 1, 2, 3])):
            name = name.replace("HERE", self.here)
            path = os.path.relpath(os.path.normpath(os.path.join(self.here, at, name)), self.here)
            if path.startswith("..") or path in self.files and chance.random() < 0.995:
                # it is outside of the tree, or a file that is included twice, which is refused
                continue
            if path not in self.files:
                self.files[path] = []
                self.files[path] = self.settings(os.path.dirname(path), depth)
            items.append(self.entry(name))
        if chance.random() < 0.25:
            items.insert(chance.randrange(len(items) + 1), {"path": chance.choice(["none.toml", "no/none.toml"]), "optional": True})
        if chance.random() < 0.006:
            items.append(chance.choice(["none.toml", {"path": "none.toml", "optional": False}, "i.json", 1]))
        return items[0] if items and isinstance(items[0], str) and chance.random() < 0.02 else items

    def entry(self, name):
        """One file: its name, or a table."""
        table = {"path": name}
        return self.chance.choice([name, name, table, table | {"optional": True}, table | {"optional": False}])


def more_settings(chance, settings, form):
    """Adds settings that Cargo's rules alone have, or that the crate's reads otherwise."""
    if chance.random() < 0.4:
        for _ in range(chance.randrange(1, 4)):
            target_key(chance, settings, odd_key(chance), form)
    if chance.random() < 0.1:
        # several keys that are true
        for key in chance.sample(KEYS[:10], 4):
            target_key(chance, settings, key, form)
    if chance.random() < 0.1:
        put(settings, ("build", chance.choice(["rustc-wrapper", "rustc-workspace-wrapper"])), "")


def agreeing(settings):
    """The settings with arrays and tables for texts, so that those of several files can be merged."""
    found = []
    for path, value in settings:
        if is_list(path) and isinstance(value, str):
            value = value.split()
        put(found, (*path, "value") if path[0] == "env" and len(path) == 2 else path, value)
    return found


def variable_of(triple, key):
    """The variable of a triple's key."""
    return f"CARGO_TARGET_{re.sub('[-.]', '_', triple).upper()}_{key}"


def joined_runner(chance, files, variables, overrides, triple, form):
    """Gives a triple a runner in some files, in its variable and in overrides; of one with a dot Cargo joins them."""
    path = ("target", *triple.split("."), "runner")
    for settings in files.values():
        if chance.random() < 0.5:
            put(settings, path, words(chance, form))
    if chance.random() < 0.7:
        variables[variable_of(triple, "RUNNER")] = chance.choice([words(chance, "text"), words(chance, "text"), "", " "])
    if chance.random() < 0.4:
        overrides.append((None, [(path, words(chance, form))]))


def wrong_runner(chance, files, variables, overrides, triple):
    """Gives a triple's runner in one file an array that Cargo refuses, and nowhere else another, since it joins some at random."""
    path = ("target", *triple.split("."), "runner")
    for settings in (*files.values(), *(it for _, it in overrides)):
        settings[:] = [it for it in settings if it[0] != path]
    overrides[:] = [it for it in overrides if it[1]]
    put(chance.choice([*files.values()]), path, chance.choice([[], ["c", 5], [["c"]]]))
    if chance.random() < 0.6:
        variables[variable_of(triple, "RUNNER")] = words(chance, "text")


def make_true(chance, files, variables, overrides, triple, form):
    """Adds a flag to a file, a variable or an override, and to a file a key that it makes true or false."""
    number = chance.randrange(1, 9)
    key, flag = (it.replace("{n}", str(number)) for it in chance.choice(MADE))
    target_key(chance, chance.choice([*files.values()]), key, form)
    value = flag if form == "text" else flag.split()
    place = chance.randrange(4)
    if place == 0:
        name = chance.choice(["RUSTFLAGS", "CARGO_BUILD_RUSTFLAGS", variable_of(triple, "RUSTFLAGS")])
        variables[name] = flag
    elif place == 1:
        overrides.append((None, [(("build", "rustflags"), value)]))
    else:
        paths = ("build",), ("target", *triple.split(".")), ("target", "cfg(unix)")
        put(chance.choice([*files.values()]), (*chance.choice(paths), "rustflags"), value)


def more_variables(chance, variables, here):
    """Changes variables: white space, empty wrappers, bytes that aren't UTF-8, and the cargo home by another path."""
    for name, value in variables.items():
        if name.startswith(("CARGO_BUILD_RUST", "CARGO_TARGET_")) and name.endswith(("FLAGS", "RUNNER")) and chance.random() < 0.4:
            variables[name] = spaced(chance, value, SPACES)
        if name in ("RUSTFLAGS", "RUSTDOCFLAGS") and chance.random() < 0.4:
            variables[name] = spaced(chance, value, AROUND)
        if name.endswith(("FLAGS", "_RUNNER", "_LINKER")) and chance.random() < 0.1:
            variables[name] += "\udcff"
    if chance.random() < 0.08:
        variables[chance.choice(["", "CARGO_BUILD_"]) + chance.choice(TOOLS)] = f"{here}/bin/\udcff"
    if chance.random() < 0.08:
        variables[chance.choice(["CARGO_BUILD_RUSTC_WRAPPER", "CARGO_BUILD_RUSTC_WORKSPACE_WRAPPER", "RUSTC_WRAPPER"])] = ""
    if chance.random() < 0.15:
        given = variables.get("CARGO_HOME", f"{here}/h/.cargo")
        home = os.path.relpath(os.path.normpath(os.path.join(here, "p/q", given)), here)
        link, last = f"link-{home[0]}", home.split("/")[-1]
        ways = [f"{here}/p/../{home}", f"{here}/./{home}/", f"{here}/{link}", f"../../{link}/.", f"../../{home}/../{last}"]
        variables["CARGO_HOME"] = chance.choice(ways)


def more(tree, seed, number, here):
    """The tree of this number, with more."""
    chance = random.Random(f"more {seed} {number}")
    _, triple, form = beginning(seed, number)
    agree = chance.random() < 0.75
    files = {path: [*settings] for path, settings in tree.files.items()} or {"p/q/.cargo/config.toml": []}
    variables, overrides = dict(tree.variables), [(name, [*settings]) for name, settings in tree.overrides]
    includes = Includes(chance, triple, here, form)
    for settings in files.values():
        more_settings(chance, settings, form)
    if chance.random() < 0.3:
        make_true(chance, files, variables, overrides, triple, form)
    if chance.random() < (0.5 if "." in triple else 0.2):
        joined_runner(chance, files, variables, overrides, triple, form)
    if chance.random() < 0.05:
        put(chance.choice([*files.values()]), ("target", *triple.split("."), "linker"), chance.choice(["c:\\ld", "x\\ld", "./x\\ld"]))
    for path, settings in files.items():
        if chance.random() < 0.35:
            put(settings, ("include",), includes.value(os.path.dirname(path)))
    for name, settings in overrides:
        if name and chance.random() < 0.3:
            put(settings, ("include",), includes.value(os.path.relpath(os.path.dirname(os.path.join(here, "p/q", name)), here)))
    if chance.random() < 0.06:
        overrides.append((None, [(("include",), includes.value("p/q"))]))
    more_variables(chance, variables, here)
    files |= {path: settings for path, settings in includes.files.items() if path not in files}
    if agree and form != "text":
        files = {path: agreeing(settings) for path, settings in files.items()}
        overrides = [(name, agreeing(settings)) for name, settings in overrides]
    files = {path: with_spaces(chance, settings) for path, settings in files.items()}
    overrides = [(name, with_spaces(chance, settings)) for name, settings in overrides]
    if chance.random() < 0.03:
        wrong_runner(chance, files, variables, overrides, triple)
    given = "host-tuple" if triple == HOST and chance.random() < 0.2 else triple
    return tree._replace(triple=given, files=files, variables=variables, overrides=overrides)


def lay_out_more(tree, here):
    """Makes the links to the homes, and those to the stand-ins in each folder that an included file's paths begin at."""
    for name, home in {"h": "h/.cargo", "p": "p/.cargo", "k": "k"}.items():
        os.makedirs(f"{here}/{home}", exist_ok=True)
        os.symlink(f"{here}/{home}", f"{here}/link-{name}")
    for path in tree.files:
        for folder in ("", "sub/deep"):
            os.makedirs(os.path.join(os.path.dirname(f"{here}/{path}"), folder), exist_ok=True)
        root = os.path.dirname(os.path.dirname(f"{here}/{path}"))
        if not os.path.lexists(f"{root}/bin"):
            os.symlink(os.path.realpath(f"{here}/bin"), f"{root}/bin")
