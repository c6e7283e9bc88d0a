"""What Cargo does in a tree of tests/cargo-keys, as its registry and stand-ins see it; none where Cargo refuses the tree.

The stand-ins are rustc, which writes its words down, and makes a build script that writes NUM_JOBS down and fails; rustdoc, which makes a
page; `cargo-xyz` and browsers, which write their words down; a provider of tokens, whose token has its arguments; and version control.
"""
import os
import shlex
import shutil
import subprocess

from cargo_registry import FAILS
from cargo_runs import run
from cargo_trees import lines_for, words_for
from drift_cargo import profile_in

# what rustc is asked before it compiles
QUESTION = (
    "- --crate-name ___ --print=file-names --crate-type bin --crate-type rlib --crate-type dylib --crate-type cdylib "
    "--crate-type staticlib --crate-type proc-macro --print=sysroot --print=split-debuginfo --print=crate-name --print=cfg"
)
RUSTC = """\
#!/bin/sh
case "$*" in
-vV) exec /bin/cat TOOLS/version ;;
*" ___ "*) exec /bin/cat TOOLS/answer ;;
esac
printf '%s\\0' "$@" >"$CC2_RECORDS/rustc"
out= extra= before=
for word in "$@"; do
  case $before in
  --out-dir) out=$word ;;
  -C) case $word in extra-filename=*) extra=${word#*=} ;; esac ;;
  esac
  before=$word
done
/bin/cp TOOLS/script "$out/build_script_build$extra"
printf '%s: build.rs\\n' "$out/build_script_build$extra" >"$out/build_script_build$extra.d"
"""
RUSTDOC = """\
#!/bin/sh
out= before=
for word in "$@"; do
  case $before in -o) out=$word ;; esac
  before=$word
done
/bin/mkdir -p "$out/documented"
: >"$out/documented/index.html"
"""
SCRIPT = """\
#!/bin/sh
printf %s "$NUM_JOBS" >"$CC2_RECORDS/jobs"
exit 1
"""
EXTERNAL = """\
#!/bin/sh
printf '%s\\0' "${0##*/}" "$@" >"$CC2_RECORDS/words"
"""
VCS = """\
#!/bin/sh
[ "$1" = --cwd ] && exit 1
[ "$1" = init ] || exit 0
printf %s "${0##*/}" >"$CC2_RECORDS/vcs"
for word in "$@"; do :; done
[ "${0##*/}" = fossil ] || /bin/mkdir -p "$word"
"""
PROVIDER = """\
#!/bin/sh
printf '{"v":[1]}\\n'
read -r asked
args=${asked#*'"args":['}
[ "$args" = "$asked" ] && args=]
args=$(printf %s "${args%%]*}" | /usr/bin/tr -d '"')
printf '{"Ok":{"kind":"get","token":"by(%s)","cache":"never","operation_independent":true}}\\n' "$args"
"""
DOCUMENTED = '[package]\nname = "documented"\nedition = "2021"\n[lib]\npath = "lib.rs"\n[workspace]\n'
PROFILED = '[package]\nname = "profiled"\nedition = "2021"\n[[bin]]\nname = "profiled"\npath = "main.rs"\n[workspace]\n'
PACKAGE = '[package]\nname = "empty"\nedition = "2021"\nbuild = "build.rs"\n[lib]\npath = "lib.rs"\n[workspace]\n'


def write(path, text, mode=0o644):
    """Writes a file, and the folder that it is in."""
    os.makedirs(os.path.dirname(path), exist_ok=True)
    with open(path, "w", encoding="utf-8") as it:
        it.write(text)
    os.chmod(path, mode)


def lay_out_tools(folder, rustc):
    """Writes the stand-ins."""
    for name, words in {"version": ["-vV"], "answer": QUESTION.split()}.items():
        said = subprocess.run([rustc, *words], stdin=subprocess.DEVNULL, capture_output=True, text=True, check=True)
        write(f"{folder}/{name}", said.stdout)
    scripts = {"rustc": RUSTC.replace("TOOLS", folder), "script": SCRIPT, "rustdoc": RUSTDOC, "provider": PROVIDER}
    scripts |= {it: VCS for it in ("hg", "pijul", "fossil")} | {it: EXTERNAL for it in ("cargo-xyz", "browser", "machine-browser")}
    for name, text in scripts.items():
        write(f"{folder}/{name}", text, 0o755)


def lay_out(tree, here, tools):
    """Writes a tree into a folder that is not there yet."""
    os.makedirs(f"{here}/h")
    os.symlink(tools, f"{here}/bin")
    for path, text in {"Cargo.toml": PACKAGE, "build.rs": "fn main() {}\n", "lib.rs": ""}.items():
        write(f"{here}/p/q/{path}", text)
    for path, text in {"Cargo.toml": DOCUMENTED, "lib.rs": ""}.items():
        write(f"{here}/documented/{path}", text)
    for path, text in {"Cargo.toml": PROFILED, "main.rs": "fn main() {}\n"}.items():
        write(f"{here}/profiled/{path}", text)
    for path, settings in tree.files.items():
        write(f"{here}/{path}", lines_for(settings))
    for name, settings in tree.overrides:
        if name:
            write(f"{here}/p/q/{name}", lines_for(settings))


class Seen:
    """Runs Cargo in a tree."""

    def __init__(self, tree, here, tools, server):
        self.tree, self.here, self.tools, self.server = tree, here, tools, server
        self.name = os.path.basename(here)
        self.said = ""

    def cargo(self, *words):
        """Runs Cargo, and gives what the stand-ins wrote down and the requests."""
        seen = f"{self.here}/seen"
        shutil.rmtree(seen, ignore_errors=True)
        os.mkdir(seen)
        self.server.take(self.name)
        more = {
            "CC2_RECORDS": seen,
            "CARGO_CACHE_RUSTC_INFO": "0",
            "BROWSER": "machine-browser",
            "__CARGO_TEST_CRATES_IO_URL_DO_NOT_USE_THIS": self.server.index(self.name, "crates-io"),
            "__CARGO_TEST_FIXED_RETRY_SLEEP_MS": "1",
        }
        command = [self.tools["cargo"], *words_for(self.tree, "--config"), *words]
        self.said = run(command, self.tree, self.here, **more)[2]
        found = {}
        for name in os.listdir(seen):
            with open(f"{seen}/{name}", encoding="utf-8", errors="surrogateescape") as it:
                found[name] = it.read()
        return found, self.server.take(self.name)

    def build(self):
        """The number of jobs of a build, the flags of rustc, and how it is printed."""
        found = self.cargo("build")[0]
        if "jobs" not in found:
            return None
        words = found["rustc"].split("\0")
        return {
            "jobs": int(found["jobs"]),
            "flags": [it for it in words if "cc2_" in it],
            "incremental": any(it.startswith("incremental=") for it in words),
            "verbose": "Running" in self.said and "build_script_build" in self.said.partition("process didn't exit")[0],
            "quiet": "Compiling" not in self.said,
            "color": "\x1b[" in self.said,
        }

    def profile(self, name):
        """The options of rustc for a program in a profile."""
        at = f"{self.here}/profiled/Cargo.toml"
        words = self.cargo("build", "--manifest-path", at, "--profile", name)[0].get("rustc", "").split("\0")
        if "profiled" not in words:
            return None
        return profile_in(words) | {"incremental": any(it.startswith("incremental=") for it in words)}

    def owners(self, name):
        """What a registry, or that of `registry.default`, is asked for the owners of a crate."""
        asked = self.cargo("owner", "--list", "empty", *(["--registry", name] if name else []))[1]
        asked = [it for it in asked if it.rest.endswith("/owners")]
        return asked[-1]._asdict() if asked else None

    def retries(self):
        """How many times a registry is asked that fails."""
        asked = self.cargo("search", "empty", "--index", self.server.index(self.name, FAILS))[1]
        return {"requests": len(asked)} if asked else None

    def alias(self, name):
        """The words that an alias gives."""
        words = self.cargo(name, "more")[0].get("words")
        return None if words is None else {"words": words.split("\0")[1:-1]}

    def browser(self):
        """The browser that opens a page, and its words but the last, the page."""
        words = self.cargo("doc", "--no-deps", "--open", "--manifest-path", f"{self.here}/documented/Cargo.toml")[0].get("words")
        return None if words is None else {"words": words.split("\0")[:-2]}

    def new(self):
        """The version control of a new package."""
        at = f"{self.here}/new"
        found = self.cargo("new", at)[0]
        if not os.path.exists(f"{at}/Cargo.toml"):
            return None
        return {"vcs": "git" if os.path.exists(f"{at}/.git") else found.get("vcs", "none")}


def again(tree, here):
    """Writes a script that runs a command in the tree with its variables, and its overrides as the last words."""
    given = " ".join(shlex.quote(f"{name}={value}") for name, value in sorted(tree.variables.items()))
    with open(f"{here}/again", "w", encoding="utf-8", errors="surrogateescape") as it:
        over = " ".join(map(shlex.quote, words_for(tree, "--config")))
        it.write(f'#!/bin/sh\n# again PROGRAM WORD..\ncd {shlex.quote(here)}/p/q && exec env -i {given} "$@" {over}\n')
    os.chmod(f"{here}/again", 0o755)
