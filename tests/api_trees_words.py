"""The words of random trees for tests/api-trees: keys with the kinds of their values, values, variables, and answers of programs."""
import re

FLAGS = ("-C", "link-arg=-s", "--cfg", "a", "-Dwarnings", "é", "x/y", "-Copt-level=3", "q\\\"r", "'", "--test")
PROGRAMS = ("cc", "bin/cc", "./cc", "/usr/bin/cc", "../cc", "run", "--flag", "a=b", "p\u00e9", "x\\y")
PROVIDERS = ("cargo:token", "cargo:wincred", "cargo:macos-keychain", "cargo:libsecret", "cargo:token-from-stdout p a",
             "cargo:token-from-stdout bin/p", "my", "other", "bin/cred --x", "/abs/cred a b", "cargo:paseto", "plug")
# values of kinds that have a list of them
CHOICES = {
    "text": ("a", "a b", "https://example.com/index", "sparse+https://x.y/", "", " ", "x\ty", "é", "q\"r\\", "\u2603", "1", "true"),
    "path": ("a", "a/b", "/abs/a", "./a", "../a", "a b/c", "é/x", "a/", "..", ".", "a//b", "x\\y", "{root}/a"),
    "build path": ("a", "a/b", "/abs/a", "{workspace-root}/t", "{cargo-cache-home}/t", "x/{workspace-root}", "{other}/x"),
    "program": ("rustc", "bin/rustc", "bin/rustc", "/abs/rustc", "./rustc", "é", "../x/rustc"),
    "wrapper": ("bin/wrap", "bin/wrap", "sccache", "", "/abs/wrap"),
    "jobs": (1, 2, 8, -1, 0, 2147483647, -2147483648),
    "count": (0, 1, 3, 60, 4294967295),
    "boolean": (True, False),
    "color": ("auto", "always", "never"),
    "when": ("auto", "always", "never"),
    "frequency": ("always", "never"),
    "vcs": ("git", "hg", "pijul", "fossil", "none"),
    "protocol": ("git", "sparse"),
    "bootstrap": ("1", "-1"),
}
TABLES = {
    "alias": "words",
    "env": "variable",
    "credential-alias": "command",
    "build": {
        "jobs": "jobs", "rustc": "program", "rustc-wrapper": "wrapper", "rustc-workspace-wrapper": "wrapper", "rustdoc": "program",
        "target": "targets", "target-dir": "path", "build-dir": "build path", "rustflags": "words", "rustdocflags": "words",
        "incremental": "boolean", "dep-info-basedir": "path",
    },
    "doc": {"browser": "command"},
    "future-incompat-report": {"frequency": "frequency"},
    "cargo-new": {"vcs": "vcs"},
    "http": {
        "debug": "boolean", "proxy": "text", "timeout": "count", "cainfo": "path", "check-revoke": "boolean",
        "low-speed-limit": "count", "multiplexing": "boolean", "user-agent": "text",
    },
    "net": {"retry": "count", "git-fetch-with-cli": "boolean", "offline": "boolean"},
    "registries": {"index": "text", "token": "text", "credential-provider": "provider", "protocol": "protocol"},
    "registry": {
        "default": "text", "token": "text", "credential-provider": "provider", "global-credential-providers": "providers",
    },
    "source": {
        "replace-with": "text", "directory": "path", "registry": "text", "local-registry": "path", "git": "text", "branch": "text",
        "tag": "text", "rev": "text",
    },
    "target": {"linker": "program", "runner": "command", "rustflags": "words", "rustdocflags": "words"},
    "term": {"quiet": "boolean", "verbose": "boolean", "color": "color"},
    "term.progress": {"when": "when", "width": "count"},
}
# keys of the tables whose values have any name
NAMED = {
    "alias": ("b", "c", "d e", "é", "x-y", "B"),
    "env": ("A", "B", "PATH_TO", "é", "a.b"),
    "credential-alias": ("my", "other", "cargo:token", "x y"),
}
NAMES = ("r", "crates-io", "my-registry", "a b", "é", "R")
# tables and keys that the crate doesn't read
OTHERS = (
    {"paths": ["/a", "b"]},
    {"profile": {"dev": {"opt-level": 1}}},
    {"unstable": {"x": True}},
    {"patch": {"crates-io": {"a": {"path": "b"}}}},
    {"install": {"root": "r"}},
    {"cargo": {"x": 1.5}},
)
# tables of other types, and of shapes that serde takes for them
WRONG = (
    {"doc": ["b"]},
    {"net": [1]},
    {"build": 1},
    {"alias": ["a"]},
    {"env": "a"},
    {"target": {"x": 1}},
    {"registries": {"r": ["i"]}},
    {"term": {"color": {"always": {}}}},
    {"term": {"progress": []}},
    {"http": True},
)
TRIPLES = ("x86_64-unknown-linux-gnu", "x86_64-unknown-linux-gnu", "aarch64-apple-darwin", "thumbv8m.main-none-eabi", "spec",
           "x86_64-pc-windows-msvc", "a.b.c")
TARGETS = (*TRIPLES, "spec.json", "dir/spec.json", "/abs/spec.json", "wasm32-unknown-unknown")
ODD_TARGETS = ("", "cfg(unix)", "x y", "é", "X.JSON", "a\\b", "..json", "./", "-", "cfg(", "linker", "x.linker")
CFGS = ("cfg(unix)", "cfg(windows)", "cfg(not(windows))", "cfg(all())", "cfg(any())", 'cfg(target_os = "linux")',
        'cfg(all(unix, not(target_env = "musl")))', 'cfg(any(target_arch = "arm", target_pointer_width = "32"))',
        'cfg(target_feature = "sse2")', "cfg( unix )", 'cfg(all(any(unix, target_family = "wasm"), not(all(windows, unix))))')
ODD_CFGS = ("cfg(test)", "cfg(true)", "cfg(false)", "cfg()", "cfg(debug_assertions)", 'cfg(feature = "a")', "cfg(not(proc_macro))",
            "cfg(Unix)", "cfg(all(unix,))", "cfg(unknown)", 'cfg(a = "b")', "xcfg(unix)", "CFG(unix)")
BAD_CFGS = ("cfg(a b)", "cfg(unix", "cfg(not(unix, windows))", "cfg(", "cfg(=)", "cfg(not())", "cfg(unix))", "cfg(unix)x",
            "cfg(a = b)", 'cfg(any(a = "))', "cfg(é)", "cfg(8)", "cfg(all(unix)", "cfg(,)", "cfg(foo(a))", "cfg(a,)", "cfg(any(,))",
            'cfg("a")', "cfg(unix windows)", "cfg( )")
FOLDERS = ("a", "b", "proj", "with space", "é", "quo'te", "d.ot", "a=b", "x\"y", "tab\tx", "back\\slash", "UP", "-dash", "{x}", "`t`")
# bytes that make a file malformed
SPLICES = (b"[", b"]", b"=", b"\xff", b"\x00", b"'", b'"', b"\n[build]\njobs = 1\n[build]\n", b"\na = \n", b"\xef\xbb\xbf", b"\r", b"{", b"\n[[a]]\n")
VARIABLES = {
    "CARGO": "program", "RUSTC": "program", "RUSTDOC": "path", "RUSTC_WORKSPACE_WRAPPER": "wrapper", "CARGO_BUILD_RUSTC": "program",
    "CARGO_BUILD_RUSTC_WRAPPER": "wrapper", "CARGO_BUILD_RUSTC_WORKSPACE_WRAPPER": "wrapper", "CARGO_BUILD_RUSTDOC": "path",
    "CARGO_BUILD_JOBS": "jobs", "CARGO_BUILD_TARGET": "text", "CARGO_TARGET_DIR": "path", "CARGO_BUILD_TARGET_DIR": "path",
    "CARGO_BUILD_BUILD_DIR": "build path", "CARGO_ENCODED_RUSTFLAGS": "encoded", "RUSTFLAGS": "words", "CARGO_BUILD_RUSTFLAGS": "words",
    "CARGO_ENCODED_RUSTDOCFLAGS": "encoded", "RUSTDOCFLAGS": "words", "CARGO_BUILD_RUSTDOCFLAGS": "words", "CARGO_INCREMENTAL": "count",
    "CARGO_BUILD_INCREMENTAL": "boolean", "CARGO_BUILD_DEP_INFO_BASEDIR": "path", "BROWSER": "command",
    "CARGO_FUTURE_INCOMPAT_REPORT_FREQUENCY": "frequency", "CARGO_CARGO_NEW_VCS": "vcs", "CARGO_HTTP_DEBUG": "boolean",
    "CARGO_HTTP_PROXY": "text", "CARGO_HTTP_TIMEOUT": "count", "CARGO_HTTP_CAINFO": "path", "CARGO_HTTP_CHECK_REVOKE": "boolean",
    "CARGO_HTTP_LOW_SPEED_LIMIT": "count", "CARGO_HTTP_MULTIPLEXING": "boolean", "CARGO_HTTP_USER_AGENT": "text",
    "CARGO_NET_RETRY": "count", "CARGO_NET_GIT_FETCH_WITH_CLI": "boolean", "CARGO_NET_OFFLINE": "boolean", "CARGO_REGISTRY_DEFAULT": "text",
    "CARGO_REGISTRY_TOKEN": "text", "CARGO_REGISTRY_CREDENTIAL_PROVIDER": "provider",
    "CARGO_REGISTRY_GLOBAL_CREDENTIAL_PROVIDERS": "words", "CARGO_REGISTRIES_R_INDEX": "text", "CARGO_REGISTRIES_R_TOKEN": "text",
    "CARGO_REGISTRIES_r_INDEX": "text", "CARGO_REGISTRIES_R_CREDENTIAL_PROVIDER": "provider", "CARGO_REGISTRIES_CRATES_IO_PROTOCOL": "protocol",
    "CARGO_REGISTRIES_R_PROTOCOL": "protocol", "CARGO_TERM_QUIET": "boolean", "CARGO_TERM_VERBOSE": "boolean", "CARGO_TERM_COLOR": "color",
    "CARGO_TERM_PROGRESS_WHEN": "when", "CARGO_TERM_PROGRESS_WIDTH": "count", "CARGO_ALIAS_b": "words", "CARGO_ALIAS_NEW": "words",
    "CARGO_CREDENTIAL_ALIAS_my": "command", "CARGO_CREDENTIAL_ALIAS_NEW": "command", "CARGO_TARGET_TRIPLE_LINKER": "path",
    "CARGO_TARGET_TRIPLE_RUNNER": "command", "CARGO_TARGET_TRIPLE_RUSTFLAGS": "words", "CARGO_TARGET_TRIPLE_RUSTDOCFLAGS": "words",
    "CARGO_OTHER": "text", "OTHER": "text", "RUSTUP_TOOLCHAIN": "text", "RUSTC_BOOTSTRAP": "bootstrap",
}
LINUX = 'debug_assertions\npanic="unwind"\ntarget_abi=""\ntarget_arch="x86_64"\ntarget_endian="little"\ntarget_env="gnu"\ntarget_family="unix"\n' \
    'target_feature="fxsr"\ntarget_feature="sse2"\ntarget_has_atomic="16"\ntarget_has_atomic="64"\ntarget_has_atomic="8"\ntarget_has_atomic="ptr"\n' \
    'target_os="linux"\ntarget_pointer_width="64"\ntarget_vendor="unknown"\nunix\n'
WINDOWS = 'target_arch="x86_64"\ntarget_endian="little"\ntarget_env="msvc"\ntarget_family="windows"\ntarget_has_atomic="128"\ntarget_os="windows"\n' \
    'target_pointer_width="64"\ntarget_vendor="pc"\nwindows\n'
ARM = 'target_abi="eabi"\ntarget_arch="arm"\ntarget_endian="big"\ntarget_os="none"\ntarget_pointer_width="32"\ntarget_vendor="unknown"\ntest\nproc_macro\n'
ODD = 'a="b"\nA\ntarget_os="new"\ntarget_arch="q"\ntarget_endian="little"\ntarget_pointer_width="24"\ntarget_vendor="é"\ntarget_env=""\r\n  unix  \n\nx=y\nz="\n'
CFG_LISTS = (LINUX, LINUX, LINUX, WINDOWS, ARM, ODD)
BAD_CFG_LISTS = ("", "\n\n", 'target_os="a"\ntarget_os="b"\n', 'target_endian="middle"\n', 'target_pointer_width="x"\n', "unix\udcff\n",
                 'target_has_atomic="7"\n', "target_os = \"linux\"\n", "unix")
VERSIONS = tuple(
    f"NAME {it} (f2d3ce0bd 2026-03-21)\nbinary: NAME\nhost: {host}\nrelease: {it}\n"
    for it in ("1.95.0", "1.96.0-nightly", "1.97.0-dev", "1.80.1-beta.3") for host in ("x86_64-unknown-linux-gnu", "aarch64-apple-darwin")
)
BAD_VERSIONS = ("", "release: 1.95.0\n", "host: x\n", "release: 1\nhost: x\n", "release: 1.2\nhost: x\n", "release: a.b.c\nhost: x\n",
                "release: 1.2.3\nhost: \n", "host: x\nrelease: 99999999999.0.0\n", "release: 1.2.3.4\nhost: x\n", "host: x\r\nrelease: 1.2.3\r\n",
                "release: 1.2.3\nhost: \udcff\n", " release: 1.2.3\n host: x\n", "release: +1.2.3\nhost: x\nhost: y\n", "release: 1.2.3-nightly-x\nhost: x\n")
QUESTIONS = ("host", "rustc", "cargo", "rustc_version", "cargo_version", "targets_for_cli", "targets_for_config", "json")
TARGET_QUESTIONS = ("target", "linker", "runner", "rustflags", "rustdocflags", "cfg_abi", "cfg_arch", "cfg_endian", "cfg_env", "cfg_family",
                    "cfg_has_atomic", "cfg_os", "cfg_pointer_width", "cfg_vendor", "triple", "targets_for_cli_of", "targets_for_config_of", "flags")
BARE = re.compile(r"[A-Za-z0-9_-]+")


def shell_quoted(text):
    return "'" + text.replace("'", "'\\''") + "'"


class Writer:
    """Writes tables as TOML, in any of the forms that it allows."""

    def __init__(self, chance):
        self.chance = chance

    def text(self, text):
        """A text, mostly a basic one."""
        kind = self.chance.randrange(8)
        is_plain = all(char.isprintable() for char in text)
        if kind == 0 and is_plain and "'" not in text:
            return f"'{text}'"
        escaped = text.replace("\\", "\\\\").replace('"', '\\"').replace("\t", "\\t").replace("\n", "\\n")
        if kind == 1:
            return f'"""\n{escaped}"""'
        if kind == 2:
            escaped = escaped.replace("é", "\\u00e9")
        return f'"{escaped}"'

    def key(self, key):
        if BARE.fullmatch(key) and self.chance.randrange(6):
            return key
        escaped = key.replace("\\", "\\\\").replace('"', '\\"')
        return f"'{key}'" if "'" not in key and self.chance.randrange(2) else f'"{escaped}"'

    def value(self, value):
        if isinstance(value, bool):
            return "true" if value else "false"
        if isinstance(value, str):
            return self.text(value)
        if isinstance(value, list):
            between = self.chance.choice((", ", ",", ",\n  "))
            return "[" + between.join(map(self.value, value)) + self.chance.choice(("", "", " # end\n")) + "]"
        if isinstance(value, dict):
            return "{" + ", ".join(f"{self.key(key)} = {self.value(it)}" for key, it in value.items()) + "}"
        return str(value)

    def lines(self, front, table):
        """The lines of a table whose header is written, and those of the tables below it that have headers of their own."""
        own, below = [], []
        for key, value in table.items():
            kind = self.chance.randrange(6)
            if not isinstance(value, dict) or not value or kind == 0:
                own.append(f"{self.key(key)} = {self.value(value)}")
            elif kind == 1 and all(not isinstance(it, dict) for it in value.values()):
                first = self.key(key)
                own += [f"{first}.{self.key(name)} = {self.value(it)}" for name, it in value.items()]
            else:
                path = [*front, key]
                below += ["", f"[{'.'.join(map(self.key, path))}]{self.chance.choice(('', '', ' # c'))}", *self.lines(path, value)]
        return own + below

    def document(self, tables):
        lines = self.lines([], tables)
        return self.chance.choice(("\n", "\n", "\n", "\r\n")).join([*lines, ""]) if lines else self.chance.choice(("", "# nothing\n"))
