"""Runs Cargo in small directory trees for tests/cargo-drift, and says what it did there.

A tree has a package of one empty program in `p/q`, Cargo's home in `h/.cargo`, and stand-ins for rustc, rustdoc, wrappers and
a runner in `bin` of four folders. Each stand-in writes down its directory, its words and its variables. That for rustc hands
questions on to rustc itself, and compiles nothing.
"""
import json
import os
import re
import shlex
import shutil
import signal
import subprocess

# by the clock, for what never ends: the machine may be busy
SECONDS = 900
PACKAGE = '[package]\nname = "empty"\nedition = "2021"\n[[bin]]\nname = "empty"\npath = "main.rs"\n[workspace]\n'
# the folders that have `bin`
FOLDERS = ("p/q", "p", "h", ".")
# where a case's texts of these names are written
PLACES = {"near": "p/q/.cargo/config.toml", "far": "p/.cargo/config.toml", "home": "h/.cargo/config.toml"}
# the options of rustc that a profile sets
PROFILE = "opt-level debuginfo strip lto split-debuginfo panic debug-assertions overflow-checks rpath codegen-units".split()
RECORDS = """\
#!/bin/sh
if [ -n "$CC2_RECORDS" ]; then
  at=$(/usr/bin/mktemp "$CC2_RECORDS/XXXXXXXX")
  { printf '%s\\0' "$PWD" "$0" "$@"; printf '\\0'; /usr/bin/env -0; } >"$at"
fi
"""
# what follows for rustc: its version was asked before, another question goes to rustc itself, and a program that is compiled is
# a stand-in too
COMPILES = """\
if [ "$*" = -vV ]; then
  exec /bin/cat "TOOLS/version"
fi
name= out= extra= before= asks=
for word in "$@"; do
  case $word in -vV | --print*) asks=yes ;; esac
  case $before in
  --crate-name) name=$word ;;
  --out-dir) out=$word ;;
  -C) case $word in extra-filename=*) extra=${word#*=} ;; esac ;;
  esac
  before=$word
done
if [ -n "$asks" ]; then
  exec RUSTC "$@"
fi
for ending in '' .exe .wasm; do
  /bin/cp "TOOLS/program" "$out/$name$extra$ending"
done
printf '%s/%s%s.d: main.rs\\n' "$out" "$name" "$extra" >"$out/$name$extra.d"
: >"$out/lib$name$extra.rmeta"
: >"$out/lib$name$extra.so"
"""
# and for rustdoc: it makes an empty page, which a browser opens
MAKES_PAGE = """\
out= before=
for word in "$@"; do
  case $before in -o) out=$word ;; esac
  before=$word
done
if [ -n "$out" ]; then
  /bin/mkdir -p "$out/empty"
  : >"$out/empty/index.html"
fi
"""


def paths(cargo, rustc):
    """The paths of cargo and rustc themselves, and not of what comes before them in PATH; none where there are none."""
    found = cargo, rustc
    if not all(found):
        named = rustc or (f"{os.path.dirname(cargo)}/rustc" if cargo else shutil.which("rustc"))
        if not named or not shutil.which(named):
            return None
        root = subprocess.run([named, "--print", "sysroot"], stdin=subprocess.DEVNULL, capture_output=True, text=True)
        found = cargo or f"{root.stdout.strip()}/bin/cargo", rustc or f"{root.stdout.strip()}/bin/rustc"
    return [os.path.abspath(it) for it in found] if all(map(os.path.isfile, found)) else None


def printed(*words):
    """What a program prints."""
    return subprocess.run(words, stdin=subprocess.DEVNULL, capture_output=True, text=True, check=True).stdout.strip()


def words_of(rustc):
    """What names in braces mean in cases, beside the folder of the tree."""
    host = re.search(r"(?m)^host: (.*)$", printed(rustc, "-vV"))[1]
    processors = len(os.sched_getaffinity(0))
    return {
        "host": host,
        "HOST": re.sub("[-.]", "_", host).upper(),
        "processors": str(processors),
        "all-but-one": str(max(1, processors - 1)),
        # (the byte 0xff, as Python has it in a text)
        "not-utf8": "\udcff",
    }


def settings_above(folder):
    """A configuration in a folder above, which every tree would read; none where there is none."""
    while True:
        for name in ("config", "config.toml"):
            if os.path.lexists(f"{folder}/.cargo/{name}"):
                return f"{folder}/.cargo/{name}"
        if folder == os.path.dirname(folder):
            return None
        folder = os.path.dirname(folder)


def lay_out_tools(folder, rustc):
    """Writes the stand-ins."""
    write(f"{folder}/version", f"{printed(rustc, '-vV')}\n")
    compiles = COMPILES.replace("RUSTC", shlex.quote(rustc)).replace("TOOLS", folder)
    passes_on = ("wrapper", "other-wrapper", "workspace-wrapper")
    scripts = {"rustc": compiles, "other-rustc": compiles, **dict.fromkeys(passes_on, 'exec "$@"\n')}
    scripts |= dict.fromkeys(("rustdoc", "other-rustdoc"), MAKES_PAGE)
    scripts |= dict.fromkeys(("runner", "other-runner", "program", "provider", "browser"), "exit 0\n")
    for name, more in scripts.items():
        with open(f"{folder}/{name}", "w", encoding="utf-8") as it:
            it.write(RECORDS + more)
        os.chmod(f"{folder}/{name}", 0o755)


def filled(value, words):
    """A value of a case, where each text has these words for their names in braces."""
    if isinstance(value, dict):
        return {filled(key, words): filled(it, words) for key, it in value.items()}
    if isinstance(value, list):
        return [filled(it, words) for it in value]
    if isinstance(value, str):
        for name, word in words.items():
            value = value.replace("{" + name + "}", word)
    return value


def write(path, text):
    """Writes a file, with the folders that it is in."""
    os.makedirs(os.path.dirname(path), exist_ok=True)
    with open(path, "w", encoding="utf-8") as it:
        it.write(text)


def lay_out(case, here, tools):
    """Writes the tree of a case."""
    for at in FOLDERS:
        os.makedirs(f"{here}/{at}", exist_ok=True)
        os.symlink(tools["tools"], f"{here}/{at}/bin")
    write(f"{here}/p/q/Cargo.toml", case.get("package", PACKAGE))
    write(f"{here}/p/q/main.rs", "fn main() {}\n")
    if case.get("script"):
        write(f"{here}/p/q/build.rs", "fn main() {}\n")
    for path, target in case.get("links", {}).items():
        os.makedirs(os.path.dirname(f"{here}/{path}"), exist_ok=True)
        os.symlink(target, f"{here}/{path}")
    named = {PLACES[name]: case[name] for name in PLACES if name in case}
    for path, text in (named | case.get("files", {})).items():
        write(f"{here}/{path}", text)


def run(command, case, here, **more):
    """Runs a command in the package of a tree; its status and both outputs. What it started ends with its time."""
    env = {"HOME": f"{here}/h", "PATH": f"{here}/bin:/usr/bin:/bin"} | case.get("variables", {}) | more
    env = {name: text for name, text in env.items() if text is not False}
    how = {"cwd": f"{here}/p/q", "env": env, "stdin": subprocess.DEVNULL, "start_new_session": True}
    with subprocess.Popen(command, stdout=subprocess.PIPE, stderr=subprocess.PIPE, **how) as running:
        try:
            stdout, stderr = running.communicate(timeout=SECONDS)
        except:
            os.killpg(running.pid, signal.SIGKILL)
            raise
    plain = re.sub(r"\x1b\[[0-9;]*m", "", stderr.decode(errors="replace"))
    return running.returncode, stdout.decode(errors="replace"), plain


def records(folder):
    """What the stand-ins wrote down: of each run the directory, the words, its own path first, and the variables."""
    found = []
    for name in sorted(os.listdir(folder)):
        with open(f"{folder}/{name}", encoding="utf-8", errors="surrogateescape") as it:
            said, _, env = it.read().partition("\0\0")
        directory, *words = said.split("\0")
        found.append((directory, words, dict(it.partition("=")[::2] for it in env.split("\0") if it)))
    return found


def has(words, *some):
    """Whether these words are among others, one after the other."""
    return any(tuple(words[at : at + len(some)]) == some for at in range(len(words)))


def flags_in(words):
    """The flags that a tree sets: Cargo itself has no `--cfg` for an empty package."""
    return [it for before, it in zip(["", *words], words) if it.startswith("--cfg") or before == "--cfg"]


def options_in(words):
    """The options of code generation."""
    return dict(it.split("=", 1) for before, it in zip(words, words[1:]) if before == "-C" and "=" in it)


def profile_in(words):
    """Those of these options that a profile sets; the value of one without `=` is empty."""
    options = (it.partition("=") for before, it in zip(words, words[1:]) if before == "-C")
    return {name: value for name, _, value in options if name in PROFILE}


def compiled(runs, name):
    """The runs of rustc that compile a crate, one for each target, with wrappers: the outermost of each."""
    found = {}
    for run_of in runs:
        words = run_of[1]
        if has(words, "--crate-name", name) and "--out-dir" in words and not words[0].endswith("rustdoc"):
            target = words[words.index("--target") + 1] if "--target" in words else ""
            if target not in found or words.index("--crate-name") > found[target][1].index("--crate-name"):
                found[target] = run_of
    return found


def of_rustc(runs):
    """What reached rustc where it compiled the package."""
    by_target = compiled(runs, "empty")
    if not by_target:
        return {}
    _, words, env = by_target[sorted(by_target)[0]]
    options = options_in(words)
    return {
        "targets": sorted(by_target),
        "rustc": words[: words.index("--crate-name")],
        "flags": flags_in(words),
        "linker": options.get("linker", ""),
        "incremental": "incremental" in options,
        "directory": re.sub("/debug/.*", "", words[words.index("--out-dir") + 1]),
        "panic": options.get("panic", ""),
        "opt-level": options.get("opt-level", ""),
        "profile": profile_in(words),
        "env": env,
    }


def of_script(runs):
    """What reached the build script, when rustc compiled it and when it was run, and the procedural macro."""
    found = {}
    for name, crate in (("script", "build_script_build"), ("macro", "procedural")):
        for _, words, _ in compiled(runs, crate).values():
            found |= {f"{name}-flags": flags_in(words), f"{name}-linker": options_in(words).get("linker", "")}
    for _, words, env in runs:
        if os.path.basename(words[0]).startswith("build-script-build"):
            found |= {"jobs": env.get("NUM_JOBS"), "script-env": env}
    return found


def of_others(runs):
    """What reached rustdoc, the runner, a browser and a provider of credentials, and how rustc was asked."""
    found = {}
    for directory, words, env in runs:
        name = os.path.basename(words[0])
        if name.endswith("rustdoc") and "--crate-name" in words:
            found |= {"rustdoc": words[0], "doc-flags": flags_in(words)}
        elif name.endswith("runner"):
            found["runner"] = words[:-1]
        elif name == "browser":
            # (the last word is the page)
            found["browser"] = words[:-1]
        elif name == "provider":
            found["provider"] = words
        elif has(words, "--crate-name", "___"):
            found |= {"asked-in": directory, "asked-env": env, "asked": found.get("asked", 0) + 1}
    return found


def built(case, here, tools):
    """What Cargo did for a command that builds the package."""
    seen = f"{here}/records"
    os.mkdir(seen)
    command = [tools["cargo"], case.get("command", "check"), "--offline", *case.get("options", [])]
    status, _, stderr = run(command, case, here, CC2_RECORDS=seen)
    runs = records(seen)
    return {"status": status, "said": stderr} | of_rustc(runs) | of_script(runs) | of_others(runs)


def gotten(case, here, tools):
    """What `cargo config get` prints: the value at the case's key or all, as JSON or as lines."""
    form = ["--show-origin"] if "lines" in case["expect"] else ["--format", "json-value" if "key" in case else "json"]
    key = [case["key"]] if "key" in case else []
    command = [tools["cargo"], "-Z", "unstable-options", "config", "get", *form, *key, *case.get("options", [])]
    status, stdout, stderr = run(command, case, here, RUSTC_BOOTSTRAP="1")
    found = {"status": status, "said": stderr}
    if status:
        return found
    if "lines" in case["expect"]:
        return found | {"lines": [it for it in stdout.partition("# The following environment variables")[0].splitlines() if it]}
    return found | {"value": json.loads(stdout)}


def other(case, here, tools):
    """What Cargo printed for a command with all its words, and the provider of credentials that it started."""
    seen = f"{here}/records"
    os.mkdir(seen)
    status, stdout, stderr = run([tools["cargo"], *case["command"], *case.get("options", [])], case, here, CC2_RECORDS=seen)
    return {"status": status, "said": stderr, "printed": stdout} | of_others(records(seen))


def observed(case, here, tools):
    """What Cargo does in the tree of a case, which is laid out in this folder: its status, what it prints, and by name

      rustc             the words before the package's: wrappers and rustc
      flags, linker, panic, opt-level, incremental, directory, targets   what rustc gets for the package
      profile           all options of rustc that a profile sets, by their names
      script-.., macro-..   the same for the build script, and for a package `procedural`; jobs: what the script is given
      env, script-env, asked-env   the variables of rustc for the package, of the build script, and of rustc when it is asked
      asked-in, asked   the directory in which rustc is asked, and how often
      rustdoc, doc-flags, runner, browser, provider   of these programs
      value, lines      what `cargo config get` prints; printed: what any other command prints
    """
    lay_out(case, here, tools)
    command = case.get("command", "check")
    if isinstance(command, list):
        return other(case, here, tools)
    return (gotten if command == "get" else built)(case, here, tools)
