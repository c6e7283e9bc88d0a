"""The random trees of tests/cargo-keys: single settings in files, included files, variables and overrides, by a seed and a number."""
import random

from cargo_trees import Tree, meets

REGISTRIES = ("r", "my-reg", "a_b", "MY-Up", "x1")
ALIASES = ("xa", "my-al", "a_b", "Up")
CREDENTIALS = ("ca", "c-b")
FOLDERS = ("p/q/.cargo", "p/.cargo", "h/.cargo")
VCS = ("git", "hg", "pijul", "fossil", "none")
RUST_VERSIONS = ("allow", "fallback")
# the profiles that there always are, of those that trees set
PROFILES = ("dev", "release")
NOT_UTF8 = "\udcff"
# the last word of the keys whose values are commands, of which a nearer array replaces others
COMMANDS = ("credential-provider", "browser", "ca", "c-b")
SPACES = (" ", "  ", "\t", "\u00a0", "\n")
# the last words of the keys whose values are booleans, whole numbers of a range, and some words
FLAGS = ("verbose", "quiet", "offline", "incremental", "multiplexing", "debug-assertions", "overflow-checks", "rpath")
NUMBERS = ("retry", "timeout", "low-speed-limit", "width", "codegen-units")
WORDS = ("color", "vcs", "when", "incompatible-rust-versions")


def boolean(chance, *_):
    """A boolean."""
    return chance.random() < 0.5


def jobs(chance, *_):
    """A number of jobs."""
    return chance.choice([1, 2, 3, 5, 17, -1, -2, -40, "default"])


def command(*first):
    """What gives a command, as a text or an array, that begins with one of these words and has the place among its arguments."""

    def given(chance, place, is_array):
        some = [chance.choice(first), *(f"-{place}{it}" for it in range(chance.randrange(3)))]
        return some if is_array else chance.choice(SPACES).join(some)

    return given


def flags(chance, place, is_array):
    """Flags for rustc."""
    some = [f"--cfg=cc2_{place}_{it}" for it in range(chance.randrange(3))]
    return some if is_array else chance.choice(SPACES).join(some)


def provider(chance, place, is_array):
    """A provider of tokens: Cargo's own, a stand-in with arguments, or an alias."""
    kind = chance.random()
    if kind < 0.3:
        return ["cargo:token"] if is_array else "cargo:token"
    if kind < 0.5:
        name = chance.choice(CREDENTIALS)
        return [name] if is_array else name
    return command("provider")(chance, place, is_array)


def providers(chance, place, is_array):
    """Providers for all registries."""
    some = [provider(chance, f"{place}{it}", False) for it in range(chance.randrange(1, 3))]
    return some if is_array else " ".join(some)


def one_of(*values):
    """What gives one of these values."""
    return lambda chance, *_: chance.choice(values)


def profile_rows(name):
    """The keys of a profile, with the chance of each and what gives its values."""
    values = {
        "panic": ("unwind", "abort"),
        "split-debuginfo": ("off", "packed", "unpacked"),
        "opt-level": (0, 1, 2, 3, "s", "z"),
        "debug": (0, 1, 2, True, False, "none", "limited", "full", "line-tables-only", "line-directives-only"),
        "lto": (True, False, "off", "thin", "fat"),
        "strip": (True, False, "none", "debuginfo", "symbols"),
        "codegen-units": (1, 7, 4294967295),
    }
    rows = {key: (0.08, one_of(*some)) for key, some in values.items()}
    rows |= dict.fromkeys(("debug-assertions", "overflow-checks", "incremental", "rpath"), (0.06, boolean))
    if name not in PROFILES:
        rows["inherits"] = 0.6, one_of(*PROFILES)
    return {("profile", name, key): row for key, row in rows.items()}


class Keys:
    """The keys of one tree: of each the chance with which a place has it, and what gives its values."""

    def __init__(self, chance, tree, server):
        self.registries, self.aliases = chance.sample(REGISTRIES, 2), chance.sample(ALIASES, 2)
        if chance.random() < 0.15:
            # two names of one variable
            self.registries, self.aliases = ["my-reg", "my_reg"], ["my-al", "my_al"]
        self.profile = chance.choice(["other", "my-prof"])
        self.rows = {
            ("build", "jobs"): (0.3, jobs),
            ("build", "incremental"): (0.2, boolean),
            ("build", "rustflags"): (0.35, flags),
            ("doc", "browser"): (0.12, command("browser")),
            ("term", "verbose"): (0.15, boolean),
            ("term", "quiet"): (0.1, lambda chance, *_: chance.random() < 0.3),
            ("term", "color"): (0.25, lambda chance, *_: chance.choice(["auto", "always", "never"])),
            ("term", "progress", "when"): (0.08, one_of("auto", "never")),
            ("term", "progress", "width"): (0.05, one_of(80)),
            ("resolver", "incompatible-rust-versions"): (0.1, one_of(*RUST_VERSIONS)),
            ("net", "retry"): (0.3, lambda chance, *_: chance.randrange(4)),
            ("net", "offline"): (0.08, lambda chance, *_: chance.random() < 0.2),
            ("http", "user-agent"): (0.3, lambda chance, place, _: f"agent/{place}"),
            ("http", "proxy"): (0.15, lambda chance, place, _: server.proxy(place)),
            ("http", "timeout"): (0.1, lambda chance, *_: chance.choice([7, 30])),
            ("http", "low-speed-limit"): (0.05, lambda chance, *_: chance.choice([0, 10])),
            ("http", "multiplexing"): (0.05, boolean),
            ("cargo-new", "vcs"): (0.25, lambda chance, *_: chance.choice(VCS)),
            ("registry", "default"): (0.25, lambda chance, *_: chance.choice([*self.registries, "crates-io"])),
            ("registry", "token"): (0.3, lambda chance, place, _: f"root-{place}"),
            ("registry", "credential-provider"): (0.08, provider),
            ("registry", "global-credential-providers"): (0.05, providers),
        }
        for name in self.registries:
            self.rows |= {
                ("registries", name, "index"): (0.45, lambda chance, place, _: server.index(tree, place)),
                ("registries", name, "token"): (0.4, lambda chance, place, _: f"token-{place}"),
                ("registries", name, "credential-provider"): (0.1, provider),
            }
        self.rows |= {("alias", name): (0.3, command("xyz")) for name in self.aliases}
        for name in (*PROFILES, self.profile):
            self.rows |= profile_rows(name)
        self.rows |= {("credential-alias", name): (0.15, command("provider", "cargo:token")) for name in CREDENTIALS}


def variable_for(path):
    """The variable of a key."""
    return f"CARGO_{'_'.join(path)}".upper().replace("-", "_").replace(".", "_")


def text_of(value):
    """A value as a variable has it."""
    if isinstance(value, list):
        return " ".join(map(text_of, value))
    return str(value).lower() if isinstance(value, bool) else str(value)


def odd(chance, path):
    """A value that Cargo refuses for this key, or one that is at a boundary."""
    any_type = [5, True, ["a"], 1.5, {"x": 1}, ""]
    last = path[-1]
    if last == "jobs":
        return chance.choice([0, "4", "x", -1000, 999, 2147483648, -2147483648, -2147483649, *any_type])
    if last in FLAGS:
        return chance.choice(["true", "TRUE", "x", " true", "1", *any_type])
    if last in NUMBERS:
        # (Cargo tries again that often, and draws a bar of that width)
        wide = 2 if last in ("retry", "width") else 4294967295, 80 if last == "width" else 4294967296
        return chance.choice(["2", "+2", " 2", "-0", "x", "2.0", -1, *wide, "9223372036854775808", *any_type])
    if last in WORDS:
        return chance.choice(["x", "Always", "GIT", " git", "svn", "Allow", "Never", *any_type])
    if path[0] == "profile":
        return chance.choice(["x", "1", "+2", " 2", "true", "false", "TRUE", "full", "s", "dev", -1, 3, 4, *any_type])
    if last == "index":
        return chance.choice(["x", "sparse+x", "a b", *any_type])
    if last in ("token", "default"):
        return chance.choice(["a b", "a.b", "\u00e9", "a\tb", "nobody", *any_type])
    arrays = [], ["xyz", ""], ["xyz", "a b"], [["xyz"]], ["xyz", 5]
    return chance.choice(["nobody -x", " ", "xyz\t\u3000-a", "cargo:token x", *arrays, *any_type])


def picked(chance, paths):
    """One of these keys: one of profiles, which have many, in one case of four."""
    is_of_profile = chance.random() < 0.25
    return chance.choice([it for it in paths if (it[0] == "profile") == is_of_profile])


class Growing:
    """A tree that grows."""

    def __init__(self, chance, keys):
        self.chance, self.keys = chance, keys
        self.form = chance.choice(["text", "array", "array"])
        # the commands that an array or a text was given for: two arrays are joined at random
        self.given = set()
        self.places = 0

    def value(self, path):
        """A value for a key, from a new place; none where the tree has a command there."""
        self.places += 1
        is_array = self.form == "array"
        if path[-1] in COMMANDS and is_array:
            if path in self.given:
                return None
            self.given.add(path)
        return self.keys.rows[path][1](self.chance, f"at{self.places}", is_array or path[-1] == "global-credential-providers")

    def settings(self, share=1.0, without=()):
        """The settings of a file."""
        found = []
        for path, (often, _) in self.keys.rows.items():
            if path[0] not in without and self.chance.random() < often * share:
                self.put(found, path)
        return found

    def put(self, settings, path):
        """Adds a setting."""
        value = self.value(path)
        if value is not None and not meets(path, value, settings):
            settings.append((path, value))

    def files(self):
        """The files of the walk, and those that they include."""
        found = {}
        for folder in FOLDERS:
            if self.chance.random() < 0.75:
                settings = found[f"{folder}/{self.chance.choice(['config.toml', 'config.toml', 'config'])}"] = self.settings()
                if self.chance.random() < 0.3:
                    settings.append((("include",), ["more.toml"]))
                    found[f"{folder}/more.toml"] = self.settings(0.5)
        return found

    def overrides(self):
        """The overrides: texts with one setting each, and files. Cargo reads no alias of them, and no token of a text."""
        found = []
        for number in range(self.chance.choice([0, 0, 1, 2, 3])):
            if self.chance.random() < 0.3:
                found.append((f"o{number}.toml", self.settings(0.4, ("alias",))))
            else:
                paths = [it for it in self.keys.rows if it[0] != "alias" and it[-1] != "token"]
                found.append((None, []))
                self.put(found[-1][1], picked(self.chance, paths))
        return [it for it in found if it[1]]

    def variables(self):
        """The variables; two keys may have the same."""
        found = {}
        for path, (often, make) in self.keys.rows.items():
            if self.chance.random() < often * 0.6:
                self.places += 1
                found[variable_for(path)] = text_of(make(self.chance, f"at{self.places}", False))
        return found


def spoil(chance, keys, files, overrides, variables):
    """Gives one key an odd value at one place, and beside a file's perhaps a good one in its variable."""
    path = picked(chance, keys.rows)
    value = odd(chance, path)
    kind = chance.random()
    if path[-1] in COMMANDS:
        # (two arrays are joined at random)
        for settings in (*files.values(), *(it for _, it in overrides)):
            settings[:] = [it for it in settings if it[0] != path]
        overrides[:] = [it for it in overrides if it[1]]
    if kind < 0.5 and not isinstance(value, dict):
        variables[variable_for(path)] = text_of(value) + (NOT_UTF8 if chance.random() < 0.25 else "")
    elif kind < 0.9 or path[0] == "alias" or path[-1] == "token":
        settings = chance.choice([*files.values()] or [[]])
        settings[:] = [it for it in settings if it[0] != path] + [(path, value)]
        if chance.random() < 0.4:
            variables[variable_for(path)] = text_of(keys.rows[path][1](chance, "odd", False))
    else:
        overrides.append((None, [(path, value)]))


def grown(seed, number, here, server):
    """The tree of this number, and its keys. It is the same for the same seed, but for the folder and the server's port."""
    chance = random.Random(f"keys {seed} {number}")
    keys = Keys(chance, f"tree{number}", server)
    growing = Growing(chance, keys)
    files, overrides, variables = growing.files(), growing.overrides(), growing.variables()
    if chance.random() < 0.4:
        spoil(chance, keys, files, overrides, variables)
    variables |= {"HOME": f"{here}/h", "PATH": f"{here}/bin:/usr/bin:/bin"}
    return Tree("", files, variables, overrides), keys
