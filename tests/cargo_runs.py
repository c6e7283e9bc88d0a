"""Runs the machine's Cargo in a tree with stand-ins for rustc, rustdoc and both wrappers; what reached these."""
import os
import re
import shlex
import shutil
import signal
import subprocess

from cargo_trees import NAMES, lines_for, words_for

# by the clock, for what never ends: the machine may be busy
SECONDS = 900


class Bad(Exception):
    """What stops the whole run."""


def lay_out(tree, here, tools):
    """Writes a tree into a folder that is not there yet."""
    for at in ("p/q", "p", "h", "k", "."):
        os.makedirs(f"{here}/{at}", exist_ok=True)
        os.symlink(tools, f"{here}/{at}/bin")
    for path, text in {
        "p/q/Cargo.toml": '[package]\nname = "empty"\nedition = "2021"\n[[bin]]\nname = "empty"\npath = "main.rs"\n[workspace]\n',
        "p/q/main.rs": "fn main() {}\n",
    }.items():
        with open(f"{here}/{path}", "w", encoding="utf-8") as it:
            it.write(text)
    for path, settings in tree.files.items():
        os.makedirs(os.path.dirname(f"{here}/{path}"), exist_ok=True)
        with open(f"{here}/{path}", "w", encoding="utf-8") as it:
            it.write(lines_for(settings))
        with open(f"{here}/{os.path.dirname(path)}/more.toml", "w", encoding="utf-8") as it:
            it.write('build.rustflags = ["--cfg=cc2_1"]\n')
    for name, settings in tree.overrides:
        if name:
            with open(os.path.join(here, "p/q", name), "w", encoding="utf-8") as it:
                it.write(lines_for(settings))


# A stand-in: it writes down its own path, its words and its variables.
RECORDS = """\
#!/bin/sh
if [ -n "$CC2_RECORDS" ]; then
  at=$(/usr/bin/mktemp "$CC2_RECORDS/XXXXXXXX")
  { printf '%s\\0' "$0" "$@"; printf '\\0'; /usr/bin/env -0; } >"$at"
fi
"""
# A stand-in for rustc that makes no program: where it would compile the package it writes an empty script.
MAKES_NONE = """\
if [ -n "$CC2_MAKES_NONE" ]; then
  name= out= extra= before=
  for word in "$@"; do
    case $before in
    --crate-name) name=$word ;;
    --out-dir) out=$word ;;
    -C) case $word in extra-filename=*) extra=${word#*=} ;; esac ;;
    esac
    before=$word
  done
  if [ "$name" = empty ]; then
    for ending in '' .exe .wasm; do
      printf '#!/bin/sh\\n' >"$out/empty$extra$ending"
      /bin/chmod 755 "$out/empty$extra$ending"
    done
    printf '%s/empty%s.d: main.rs\\n' "$out" "$extra" >"$out/empty$extra.d"
    exit 0
  fi
fi
"""


def lay_out_tools(folder, rustc):
    """Writes the stand-ins for rustc, rustdoc and both wrappers. Those for rustc and the wrappers hand on to rustc or to
    what their words name, and that for rustdoc ends."""
    os.makedirs(folder)
    for name, more in {
        "rustc": f'{MAKES_NONE}exec {shlex.quote(rustc)} "$@"\n',
        "rustc-wrapper": 'exec "$@"\n',
        "rustc-workspace-wrapper": 'exec "$@"\n',
        "rustdoc": "exit 0\n",
    }.items():
        with open(f"{folder}/{name}", "w", encoding="utf-8") as it:
            it.write(RECORDS + more)
        os.chmod(f"{folder}/{name}", 0o755)


def run(command, tree, here, **more):
    """Runs a command in the package of a tree, with the tree's variables and these; its status and both outputs. At
    the end of its time all that it started is ended."""
    how = {"cwd": f"{here}/p/q", "env": tree.variables | more, "stdin": subprocess.DEVNULL, "start_new_session": True}
    with subprocess.Popen(command, stdout=subprocess.PIPE, stderr=subprocess.PIPE, **how) as running:
        try:
            stdout, stderr = running.communicate(timeout=SECONDS)
        except:
            os.killpg(running.pid, signal.SIGKILL)
            raise
    return running.returncode, stdout.decode(errors="replace"), stderr.decode(errors="replace")


def records(folder):
    """What the stand-ins wrote down: of each run the words, its own path first, and the variables."""
    found = []
    for name in sorted(os.listdir(folder)):
        with open(f"{folder}/{name}", encoding="utf-8", errors="surrogateescape") as it:
            said, _, env = it.read().partition("\0\0")
        found.append((said.split("\0"), dict(it.partition("=")[::2] for it in env.split("\0") if it)))
    return found


def of_cargo(tree, here, tools):
    """What reached rustc, rustdoc and the runner when Cargo checked, documented and ran the package of a tree: None where
    one of it was refused, with Cargo's words."""
    seen = f"{here}/records"
    os.mkdir(seen)
    said = cargo(["check"], tree, here, tools, CC2_RECORDS=seen)
    # (Cargo asks rustc about its target too, under another name)
    checks = [it for it in records(seen) if "--crate-name empty " in f"{' '.join(it[0])} "]
    if not checks:
        return None, said
    words, env = max(checks, key=lambda it: it[0].index("--crate-name"))
    at = words.index("--crate-name")
    options = dict(it.split("=", 1) for before, it in zip(words, words[1:]) if before == "-C" and "=" in it)
    reached = {
        "rustc": words[:at],
        "flags": flags_in(words[at:]),
        "linker": options.get("linker"),
        "incremental": "incremental" in options,
        "directory": os.path.normpath(words[words.index("--out-dir") + 1]),
    }
    reached |= {f"env.{name}": env.get(name) for name in NAMES}
    for name, found in (("doc", documented(tree, here, tools)), ("run", ran(tree, here, tools))):
        if found[0] is None:
            return None, f"cargo {name}: {found[1]}"
        reached |= found[0]
    return reached, said


def cargo(words, tree, here, tools, **more):
    """What Cargo writes to standard error for a command on the package of a tree."""
    command = [tools["cargo"], *words, "--offline", "--target", tree.triple, *words_for(tree, "--config")]
    return run(command, tree, here, **more)[2]


def flags_in(words):
    """Of these words the flags that a tree sets. (Cargo's own have a space after `-C`.)"""
    return [it for it in words if it == "--cfg" or "cc2_" in it or re.match("-C[a-z]", it)]


def documented(tree, here, tools):
    """What reached rustdoc: None where it didn't run, with Cargo's words."""
    seen = f"{here}/doc-records"
    os.mkdir(seen)
    said = cargo(["doc", "--no-deps"], tree, here, tools, CC2_RECORDS=seen)
    runs = [it[0] for it in records(seen) if os.path.basename(it[0][0]) == "rustdoc" and "--crate-name" in it[0]]
    return ({"rustdoc": runs[0][:1], "doc flags": flags_in(runs[0])} if runs else None), said


def ran(tree, here, tools):
    """The runner, and its words in front of the program: None where Cargo started none and no program, with its words."""
    said = cargo(["run", "--color", "never"], tree, here, tools, CC2_MAKES_NONE="1")
    found = re.findall(r"(?m)^ +Running `(.*)`$", said)
    return ({"runner": shlex.split(found[-1])[:-1]} if found else None), said


def cargo_and_rustc():
    """The paths of cargo and rustc themselves, and not of what comes before them in PATH; none where they aren't there."""
    if not shutil.which("cargo") or not shutil.which("rustc"):
        return None
    asked = subprocess.run(["rustc", "--print", "sysroot"], stdin=subprocess.DEVNULL, capture_output=True, text=True)
    paths = [f"{asked.stdout.strip()}/bin/{it}" for it in ("cargo", "rustc")]
    if asked.returncode or not all(map(os.path.isfile, paths)):
        return None
    return paths


def stop_on_settings(room):
    """Stops where a folder above the trees has settings of its own, which every tree would read."""
    above = room
    while True:
        for name in ("config", "config.toml"):
            if os.path.lexists(f"{above}/.cargo/{name}"):
                raise Bad(f"{above}/.cargo/{name} is above the trees: set TMPDIR to another folder")
        if above == os.path.dirname(above):
            return
        above = os.path.dirname(above)
