"""What Cargo must do in a tree of tests/cargo-keys, by the values that `cargo-config2 get` has at its keys."""
import json
import re

from cargo_runs import run
from cargo_settings import FLAGS, PROFILES, RUST_VERSIONS, VCS, variable_for
from cargo_trees import words_for

PROGRESS = (("term", "progress", "when"), ("term", "progress", "width"))
# (Cargo looks at the color's word where it can read all of these: it is the last)
TERM = (("term", "verbose"), ("term", "quiet"), *PROGRESS, ("term", "color"))
NET = (("net", "retry"), ("net", "offline"))
HTTP = tuple(("http", it) for it in ("user-agent", "proxy", "timeout", "low-speed-limit", "multiplexing"))
REGISTRY = (("registry", "default"), ("registry", "token"), ("registry", "credential-provider"))
BUILD = tuple(("build", it) for it in ("jobs", "rustflags", "incremental"))
OTHER = (("doc", "browser"), ("cargo-new", "vcs"), ("resolver", "incompatible-rust-versions"))
COLORS = ("auto", "always", "never")
SIZES = ("s", "z")
SPLIT = ("off", "packed", "unpacked")
DEBUG = {"none": 0, "limited": 1, "full": 2, "line-tables-only": "line-tables-only", "line-directives-only": "line-directives-only"}
# what Cargo has for the keys of profiles that nothing sets
DEFAULTS = {
    "dev": {"opt-level": 0, "debug": 2, **dict.fromkeys(("debug-assertions", "overflow-checks", "incremental"), True)},
    "release": {"opt-level": 3, "debug": 0, **dict.fromkeys(("debug-assertions", "overflow-checks", "incremental"), False)},
}


class Refused(Exception):
    """A key that Cargo must refuse: the program refuses it, or prints a value that Cargo can't take."""


def answer_of(tree, here, program, path):
    """What `cargo-config2 get` has at a key, or of all of them: 'set' and the value, 'unset', or 'refused' and why."""
    key = ".".join(path)
    command = [program, "-C", f"{here}/p/q", "get", *([key] if key else []), "--tokens", "--format", "json", *words_for(tree, "--config")]
    status, stdout, stderr = run(command, tree, here)
    if status:
        return ("unset", None) if status == 1 and f"config value `{key}` is not set" in stderr else ("refused", stderr)
    return "set", value_at(json.loads(stdout), path)


def value_at(value, path):
    """The value at a key of a table; none where there is none."""
    for name in path:
        value = value.get(name) if isinstance(value, dict) else None
    return value


def is_utf8(text):
    """Whether a variable is UTF-8."""
    return not re.search("[\udc80-\udcff]", text)


def is_number(value, low, high):
    """Whether it is an integer in a range."""
    return isinstance(value, int) and not isinstance(value, bool) and low <= value < high


def is_words(value):
    """Whether it is a text or an array of texts."""
    return isinstance(value, str) or isinstance(value, list) and all(isinstance(it, str) for it in value)


def words_of(value):
    """The words of a text or an array."""
    return value.split() if isinstance(value, str) else value


def takes_in_profile(key, value):
    """Whether Cargo takes this value at a key of a profile."""
    if key == "opt-level":
        return is_number(value, -(2**63), 2**63) or value in SIZES
    if key == "debug":
        return isinstance(value, bool) or is_number(value, 0, 3) or isinstance(value, str) and value in DEBUG
    if key == "lto":
        return isinstance(value, bool) or isinstance(value, str) and value not in ("true", "false")
    if key == "strip":
        return isinstance(value, (bool, str))
    return value in ("unwind", "abort") if key == "panic" else isinstance(value, str)


def takes(path, value):
    """Whether Cargo takes this value at a key."""
    last = path[-1]
    if last in FLAGS:
        return isinstance(value, bool)
    if last == "vcs":
        return value in VCS
    if last == "when":
        # (no tree has `always`, which needs a width)
        return value in ("auto", "never")
    if last == "incompatible-rust-versions":
        return value in RUST_VERSIONS
    if last in ("retry", "low-speed-limit", "codegen-units"):
        return is_number(value, 0, 2**32)
    if last in ("timeout", "width"):
        return is_number(value, 0, 2**63)
    if path[0] == "profile":
        return takes_in_profile(last, value)
    if last == "jobs":
        return value == "default" or is_number(value, -(2**31), 2**31) and value != 0
    if last == "index":
        return isinstance(value, str) and re.fullmatch("sparse[+]http://.*/", value) is not None
    if last == "global-credential-providers":
        return isinstance(value, list) and all(isinstance(it, str) for it in value)
    if path[0] == "alias" or last == "rustflags":
        return is_words(value)
    if last in ("credential-provider", "browser") or path[0] == "credential-alias":
        return is_words(value) and len(words_of(value)) > 0
    return isinstance(value, str)


def options_for(of):
    """The options of rustc for a program in a profile with these values."""
    level, strip, lto = str(of["opt-level"]), of["strip"], of["lto"]
    debug = of["debug"] if isinstance(of["debug"], int) else DEBUG[of["debug"]]
    debug = 2 if debug is True else debug
    assertions, checks = of["debug-assertions"], of["overflow-checks"]
    # (where there is nothing to debug what the standard library has is stripped)
    strip = strip if isinstance(strip, str) else "symbols" if strip else "debuginfo" if strip is None and debug == 0 else "none"
    found = {
        "opt-level": level if level != "0" else None,
        "debuginfo": str(debug) if debug != 0 else None,
        "strip": strip if strip != "none" else None,
        "lto": lto if isinstance(lto, str) else "" if lto else None,
        "panic": "abort" if of["panic"] == "abort" else None,
        "split-debuginfo": of["split-debuginfo"] if debug != 0 and of["split-debuginfo"] in SPLIT else None,
        "codegen-units": None if of["codegen-units"] is None else str(of["codegen-units"]),
        "rpath": "" if of["rpath"] else None,
        # (rustc has assertions where it doesn't optimize, and checks where it has assertions)
        "debug-assertions": None if assertions == (level == "0") else "on" if assertions else "off",
        "overflow-checks": None if checks == assertions else "on" if checks else "off",
    }
    return {name: value for name, value in found.items() if value is not None}


def is_passed_on(path, value):
    """Whether `get` prints such a value of a variable as it is, though Cargo refuses it: an index, and a text or 0 as a number of jobs."""
    return path[-1] in ("index", "jobs") and isinstance(value, str) or path[-1] == "jobs" and is_number(value, 0, 1)


class Expected:
    """The program's answers for one tree."""

    def __init__(self, tree, here, tools, keys):
        self.tree, self.here, self.tools, self.keys = tree, here, tools, keys
        self.asked, self.loaded, self.unread = {}, None, []

    def answer(self, path):
        """What the program has at a key."""
        return self.under(self.tree.variables, path)

    def under(self, variables, path):
        """The same under these variables."""
        return answer_of(self.tree._replace(variables=variables), self.here, self.tools["cc2_program"], path)

    def get(self, *path):
        """The value at a key, or none. Raises Refused."""
        if path not in self.asked:
            self.asked[path] = self.answer(path)
        kind, value = self.asked[path]
        if kind == "refused":
            raise Refused(f"{'.'.join(path)}: {value}")
        if kind == "set" and not takes(path, value):
            self.refuse(path, value)
        return value

    def refuse(self, path, value):
        """Raises Refused for a value that Cargo can't take. It is a difference where the program prints it under its variable."""
        if variable_for(path) in self.tree.variables and not is_passed_on(path, value):
            self.unread.append(f"{'.'.join(path)} = {value!r} is printed under its variable, and Cargo can't take it")
        raise Refused(f"{'.'.join(path)} = {value!r}")

    def every_key(self, names):
        """The keys that commands read: the fixed ones, and those of these tables of two names and of the variables'."""
        of_registry = ("index", "token", "credential-provider")
        registries = {path[1] for path in names if path[0] == "registries" and len(path) == 2} | {*self.keys.registries}
        yield from (*TERM, *NET, *HTTP, *REGISTRY, ("registry", "global-credential-providers"), *BUILD, *OTHER)
        yield from (("registries", name, it) for name in sorted(registries) for it in of_registry)
        yield from (path for path in self.keys.rows if path[0] == "profile")
        yield from (path for path in sorted(names) if len(path) == 2 and path[0] in ("alias", "credential-alias"))
        yield from (("alias", name) for name in self.keys.aliases)

    def whole(self):
        """What differs between the answers at single keys and that of all keys, which has no name that a variable alone has."""
        layers = [*self.tree.files.values(), *(settings for _, settings in self.tree.overrides)]
        names = {path[:2] for layer in layers for path, _ in layer}
        kind, found = self.answer(())
        if kind == "refused":
            refused = any(kind == "refused" for kind, _ in (self.loaded, *self.asked.values()))
            # (what a command doesn't read, since it is refused for another key, isn't asked for yet)
            refused = refused or any(self.answer(path)[0] == "refused" for path in self.every_key(names) if path not in self.asked)
            return [] if refused else [f"get is refused, and no key: {found}"]
        names |= {("profile", it) for it in PROFILES}
        of_names = ("alias", "credential-alias", "registries", "profile")
        expected = {path: it if path[0] not in of_names or path[:2] in names else None for path, (_, it) in self.asked.items()}
        different = [(path, it, value_at(found, path)) for path, it in expected.items() if value_at(found, path) != it]
        return [f"{'.'.join(path)}: {it!r} where it is asked for, {other!r} where all are" for path, it, other in different]

    def lenient(self, paths):
        """The values of keys by their last words: none, where Cargo can't read all of them."""
        try:
            return {path[-1]: self.get(*path) for path in paths}
        except Refused:
            return dict.fromkeys(path[-1] for path in paths)

    def every(self):
        """How each command of Cargo prints, and whether it is offline."""
        # (what doesn't load is refused by each)
        self.loads()
        found = self.lenient(TERM) | self.lenient(NET)
        if found["verbose"] and found["quiet"]:
            raise Refused("term.verbose and term.quiet")
        if found["color"] not in (None, *COLORS):
            self.refuse(("term", "color"), found["color"])
        if self.is_other_color():
            raise Refused("term.color")
        return found

    def is_other_color(self):
        """Whether `term.color` is refused for its word, which each command refuses, and not for its type."""
        name, path = "CARGO_TERM_COLOR", ("term", "color")
        if path not in self.asked or self.asked[path][0] != "refused":
            return False
        kind, value = self.under({it: text for it, text in self.tree.variables.items() if it != name}, path)
        return isinstance(value, str) if kind == "set" else kind == "unset" and is_utf8(self.tree.variables.get(name, ""))

    def loads(self):
        """Raises Refused where the files or overrides don't load."""
        if self.loaded is None:
            self.loaded = self.under({it: self.tree.variables[it] for it in ("HOME", "PATH")}, ("no", "such"))
        kind, why = self.loaded
        if kind == "refused":
            raise Refused(why)

    def strict(self, *more):
        """The same with what HTTP has and these keys. Raises Refused where Cargo can't read all of these."""
        every = self.every()
        return every | {path[-1]: self.get(*path) for path in (*HTTP, *more)}

    def requests(self):
        """The same for requests: the user of the proxy, and the user agent."""
        every = self.strict(*NET)
        user = re.fullmatch("(?:http://(at[0-9]+)@127.0.0.1:[0-9]+)?", every["proxy"] or "")
        if not user:
            raise Refused(f"no proxy {every['proxy']}")
        agent = every["user-agent"]
        return every | {"proxy": user[1], "user-agent": self.tools["agent"] if agent is None else agent.lstrip(" \t") if agent else None}

    def builds(self):
        """The same for what builds a package."""
        every = self.strict(*TERM, *BUILD, ("resolver", "incompatible-rust-versions"))
        for name in PROFILES:
            self.of_profile(name)
        return every

    def of_profile(self, name):
        """The values at the keys of a profile by their names: those that a tree sets somewhere, and none at the others."""
        return {path[-1]: self.get(*path) for path in self.keys.rows if path[:2] == ("profile", name)}

    def values(self, name):
        """The values of a profile, some of which it inherits. Raises Refused where there is no such profile."""
        own = self.of_profile(name)
        if name not in PROFILES and own["inherits"] not in PROFILES:
            raise Refused(f"profile.{name}.inherits = {own['inherits']!r}")
        base = DEFAULTS[name] if name in PROFILES else self.values(own["inherits"])
        return {key: base.get(key) if value is None else value for key, value in own.items()}

    def profile(self, name):
        """The options of rustc for a program in a profile."""
        every, values = self.builds(), self.values(name)
        incremental = values["incremental"] if every["incremental"] is None else every["incremental"]
        return options_for(values) | {"incremental": incremental}

    def build(self):
        """The number of jobs of a build, the flags of rustc, and how it is printed."""
        every = self.builds()
        jobs, flags, incremental = (every[it] for it in ("jobs", "rustflags", "incremental"))
        incremental = self.values("dev")["incremental"] if incremental is None else incremental
        all_of_them = self.tools["processors"]
        return {
            "jobs": all_of_them if jobs in (None, "default") else jobs if jobs > 0 else max(1, all_of_them + jobs),
            "flags": [it for it in words_of(flags or []) if "cc2_" in it],
            "incremental": incremental,
            "verbose": bool(every["verbose"]),
            "quiet": bool(every["quiet"]),
            "color": every["color"] == "always",
        }

    def resolved(self, words):
        """A provider, or that of its alias where it has no arguments."""
        alias = self.get("credential-alias", words[0]) if len(words) == 1 and not words[0].startswith("cargo:") else None
        return words if alias is None else words_of(alias)

    def named(self, name, index):
        """The name by which Cargo looks up a registry's token: that of a variable with its index in lower case, else its own."""
        begin, end = "CARGO_REGISTRIES_", "_INDEX"
        given = {it: value for it, value in self.tree.variables.items() if it.startswith(begin) and it.endswith(end)}
        names = [it[len(begin) : -len(end)].lower() for it, value in given.items() if value == index]
        if names:
            return names[0]
        without = {it: value for it, value in self.tree.variables.items() if it not in given}
        files = Expected(self.tree._replace(variables=without), self.here, self.tools, self.keys)
        for other in self.keys.registries:
            # (Cargo compares it with that of each)
            files.get("registries", other, "index")
        return name

    def token(self, table):
        """The token that the provider of a registry gives, which is none where there is none."""
        token, own = self.get(*table, "token"), self.get(*table, "credential-provider")
        several = self.get("registry", "global-credential-providers") or ["cargo:token"]
        # (white space of ASCII alone separates those of all registries)
        chosen = [words_of(own)] if own is not None else [re.findall("[^ \\t\\n\\r\\f]+", it) or [""] for it in reversed(several)]
        for words in map(self.resolved, chosen):
            if words[0] == "provider":
                return f"by({','.join(words[1:])})"
            if words[0] != "cargo:token":
                raise Refused(f"no provider {words[0]}")
            if token is not None:
                return token
        return None

    def default(self):
        """The registry that counts where none is named."""
        name = self.get("registry", "default")
        if name == "":
            raise Refused("registry.default is empty")
        return "crates-io" if name is None else name

    def owners(self, name):
        """What a registry, or that of `registry.default`, is asked for the owners of a crate."""
        every = self.requests()
        name = name or self.default()
        is_own = name == "crates-io"
        if is_own:
            for path in REGISTRY:
                self.get(*path)
        index = "/crates-io/" if is_own else self.get("registries", name, "index")
        if every["offline"] or not index:
            return None
        token = self.token(("registry",) if is_own else ("registries", self.named(name, index)))
        if token is None or not re.fullmatch("[ -~\t]+", token):
            return None
        place = index.rstrip("/").split("/")[-1]
        rest = "api/v1/crates/empty/owners"
        return {"place": place, "rest": rest, "token": token, "agent": every["user-agent"], "proxy": every["proxy"]}

    def retries(self):
        """How many times a registry is asked that fails."""
        every = self.requests()
        tries = 3 if every["retry"] is None else every["retry"]
        return None if every["offline"] else {"requests": tries + 1}

    def alias(self, name):
        """The words that an alias gives: none where it is no alias, or one of nothing."""
        self.every()
        value = self.get("alias", name)
        words = words_of(value) if value is not None else []
        # (there is no other command)
        return {"words": [*words, "more"]} if words[:1] == ["xyz"] else None

    def browser(self):
        """The browser that opens a page, and its words but the last, the page."""
        self.builds()
        value = self.get("doc", "browser")
        words = ["machine-browser"] if value is None else words_of(value)
        # (there is no other program)
        return {"words": words} if words[0].endswith("browser") else None

    def new(self):
        """The version control of a new package."""
        self.every()
        self.get("registry", "default")
        return {"vcs": self.get("cargo-new", "vcs") or "git"}
