"""Finds the programs of this repository: those that are built, else those in dist/.

A program NAME is crates/NAME/out/NAME, where `rt ci` and `rt run` leave it. dist/x86_64-unknown-linux-gnu/ has the programs
of SHIPPED by the names there, and the library of crates/cc2_c. They were built from the sources that SOURCES in that folder
names: a checksum of each crate that goes in, and one over all of these. A crate's checksum covers its line in crates.txt
and the files below its folders src/, specs/ and proofs/.
"""
import hashlib
import os
import sys

TOP = os.path.dirname(os.path.dirname(os.path.realpath(__file__)))
PLATFORM = "x86_64-unknown-linux-gnu"
DIST = f"{TOP}/dist/{PLATFORM}"
# the crates whose programs are in dist/, each with its program's name there, and that of the library
SHIPPED = {"cc2_program": "cargo-config2", "cc2_get": "cc2_get"}
LIBRARY = "cc2_c"
HEADER = "bindings/c/cc2.h"


class Missing(Exception):
    """A program is neither built nor in dist/."""


def crates():
    """The crates of crates.txt: of each its line, and the names after the colon."""
    with open(f"{TOP}/crates.txt", encoding="utf-8") as file:
        lines = [" ".join(line.partition("#")[0].split()) for line in file]
    parts = [(line, *line.partition(":")[::2]) for line in lines if ":" in line]
    return {name.split()[0]: (line, low.split()) for line, name, low in parts}


def at_or_below(*names):
    """These crates and all crates below them, sorted. One that crates.txt doesn't list, as of the kit, is left out."""
    listed, found, left = crates(), set(), [*names]
    while left:
        name = left.pop()
        if name in listed and name not in found:
            found.add(name)
            left += listed[name][1]
    return sorted(found)


def files_of(crate, folders=("src",), ends=(".rt", ".antt")):
    """The files of a crate below these folders, sorted."""
    found = []
    for folder in folders:
        for at, _, names in os.walk(f"{TOP}/crates/{crate}/{folder}"):
            found += [f"{at}/{name}" for name in names if name.endswith(ends)]
    return sorted(found)


def checksum_of(crate, folders=("proofs", "specs", "src")):
    """The checksum of a crate: its line and its files below these folders."""
    listed = crates()
    total = hashlib.sha256(listed[crate][0].encode() if crate in listed else b"no line")
    for path in files_of(crate, folders):
        with open(path, "rb") as file:
            content = hashlib.sha256(file.read()).hexdigest()
        total.update(f"\n{os.path.relpath(path, TOP)} {content}".encode())
    return total.hexdigest()


def checksums(*names):
    """The checksum of each of these crates and of those below them, by name; without names those of all that dist/ has."""
    names = names or (*SHIPPED, LIBRARY)
    return {it: checksum_of(it) for it in sorted({*at_or_below(*names), *names})}


def key_of(name):
    """The checksum over what is compiled of a program: the lines and the folders src/ of its crate and of those below it."""
    return checksum({it: checksum_of(it, ("src",)) for it in at_or_below(name)})


def checksum(sums):
    """The checksum over those of several crates."""
    return hashlib.sha256("".join(f"{name} {it}\n" for name, it in sums.items()).encode()).hexdigest()


def recorded():
    """What dist/x86_64-unknown-linux-gnu/SOURCES records: by the first word of a line, the other words; none where there is no such file."""
    found = {"version": "", "kit": "", "sources": "", "crate": {}, "library-kit": "", "library-crate": {}, "file": {}}
    try:
        with open(f"{DIST}/SOURCES", encoding="utf-8") as file:
            lines = [line.split() for line in file if line.strip() and not line.startswith("#")]
    except OSError:
        return None
    for kind, *words in lines:
        if kind in ("crate", "library-crate"):
            found[kind][words[1]] = words[0]
        elif kind == "file":
            found["file"][words[2]] = words[0], int(words[1])
        else:
            found[kind] = " ".join(words)
    return found


def behind(*names):
    """The crates, of these and those below, whose sources aren't those that dist/ was built from; all of them where there
    is no dist/."""
    all_said = recorded() or {"crate": {}, "library-crate": {}}
    said = all_said["library-crate"] if names == (LIBRARY,) and all_said["library-crate"] else all_said["crate"]
    return [name for name, it in checksums(*names).items() if said.get(name) != it]


def built(name):
    """Where the program of a crate is when it is built."""
    return f"{TOP}/crates/{name}/out/{name}"


def shipped(name):
    """Where the program of a crate is in dist/; none where dist/ has no such."""
    path = f"{DIST}/{SHIPPED[name]}" if name in SHIPPED else ""
    return path if os.path.isfile(path) else None


def newer_source(name, path):
    """A source, of the crate or one below it, that is newer than the file at a path; none where there is none."""
    made = os.stat(path).st_mtime
    sources = (file for crate in at_or_below(name) for file in files_of(crate))
    return next((os.path.relpath(file, TOP) for file in sources if os.stat(file).st_mtime > made), None)


def find(name, given=(), only_built=False):
    """The path of the program of a crate: the given one, else the built one, else that in dist/. A program that is older than
    its sources is taken, and a line on standard error says so.

    Raises Missing where there is none; its text says how to make it."""
    given = dict(given)
    if name in given:
        if not os.path.isfile(given[name]):
            raise Missing(f"there is no {given[name]}")
        return os.path.realpath(given[name])
    path = built(name)
    if os.path.isfile(path):
        source = newer_source(name, path)
        if source:
            note(f"{os.path.relpath(path, TOP)} is older than {source}")
        return path
    path = None if only_built else shipped(name)
    if path is None:
        raise Missing(f"{os.path.relpath(built(name), TOP)} isn't built: run `rt run` in crates/{name}, or give --program {name}=PATH")
    if behind(name):
        note(f"{os.path.relpath(path, TOP)} was built from older sources than those of crates/{name}")
    return path


def find_all(names, given=(), only_built=False):
    """The paths of the programs of these crates, by name. Raises Missing as find does."""
    return {name: find(name, given, only_built) for name in names}


NOTED = set()


def note(line):
    """Writes a line on standard error, once."""
    if line not in NOTED:
        NOTED.add(line)
        print(f"note: {line}", file=sys.stderr, flush=True)
