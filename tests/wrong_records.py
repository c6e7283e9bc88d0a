"""The records of wrong bodies, tests/wrong/refused: what each rests on, and how many still fit."""
import functools
import hashlib
import os
import re

import definitions
from wrong_edits import RECORDS, TOP, Bad, crate_of, files, libraries, path_of, text, why_not

# as many are printed by name, more by their number alone
FEW = 10
CLAUSE = re.compile(r"(?m)^[ \t]*(?:requires|ensures|ghost)\b[^{;\n]*")
HEAD = re.compile(r"(?m)^[ \t]*(?:pub(?:\([^)]*\))? )?fn [^{]*")
TRAIT = re.compile(r"(?ms)^pub trait (\w+).*?^\}")
USE = re.compile(r"(?ms)^[ \t]*use .*?;")
# what is of the crate itself, or is only handed on
OTHER_USE = re.compile(r"(?ms)^[ \t]*(?:use crate::|pub use ).*?;")
TEXT = re.compile(r'"(?:[^"\\]|\\.)*"')


def end_of_braces(source, at):
    """Where the braces end that begin after this place, or the line's semicolon where none begin before it."""
    depth = 0
    while at < len(source):
        if source[at] == '"':
            found = TEXT.match(source, at)
            at = found.end() if found else at + 1
            continue
        depth += {"{": 1, "}": -1}.get(source[at], 0)
        at += 1
        if depth == 0 and source[at - 1] in "};":
            break
    return at


def clauses(source):
    """The clauses, the ghost items and the heads of functions of a source, in one line each."""
    found = [source[it.start() : end_of_braces(source, it.end())] for it in CLAUSE.finditer(source)]
    return [re.sub(r"\s+", " ", it) for it in found + HEAD.findall(source)]


@functools.lru_cache(maxsize=None)
def traits_of(crate):
    """The public traits of a crate, by name: each has before it what it uses of pages of definitions."""
    sources = [text(file) for file in files(f"{TOP}/crates/{crate}/src", ".rt")]
    return {it[1]: f"{definitions.used_by(it[0], source)}\n{it[0]}" for source in sources for it in TRAIT.finditer(source)}


def names_it(source, name):
    """Whether a source imports this name from another crate, or has it after a module's."""
    source = OTHER_USE.sub("", source)
    return any(re.search(rf"\b{name}\b", it) for it in USE.findall(source)) or re.search(rf"\b[a-z0-9_]+::{name}\b", source) is not None


def clauses_of_traits(crate):
    """The clauses of the public traits below a crate that its sources name, and of those that these traits name."""
    below = {name: it for lower in libraries().get(crate, []) for name, it in traits_of(lower).items()}
    sources = [text(file) for file in files(f"{TOP}/crates/{crate}/src", ".rt")]
    found = {name for name in below if any(names_it(it, name) for it in sources)}
    more = True
    while more:
        heads = [re.search(r"(?m)^pub trait .*", below[name])[0] for name in found]
        more = {name for name in below if any(re.search(rf"\b{name}\b", it) for it in heads)} - found
        found |= more
    return [it for name in sorted(found) for it in clauses(below[name])]


@functools.lru_cache(maxsize=None)
def said_of(crate):
    """A sum of what a crate's clauses say, on which all of its wrong bodies rest."""
    stated = [it for file in files(f"{TOP}/crates/{crate}/src", ".rt") for it in clauses(text(file))]
    stated += clauses_of_traits(crate)
    pages = definitions.reachable(stated)
    parts = [*stated, *(f"{os.path.relpath(path, TOP)}\n{pages[path]}" for path in sorted(pages))]
    return hashlib.sha256("\n".join(parts).encode()).hexdigest()


def stands_on(name):
    """The sum of what the wrong body CRATE/NAME rests on."""
    said = said_of(crate_of(name)) + text(path_of(name))
    return hashlib.sha256(said.encode()).hexdigest()[:24]


def read_records():
    """The sums by CRATE/NAME that tests/wrong/refused has."""
    lines = text(RECORDS).splitlines() if os.path.isfile(RECORDS) else []
    odd = [it for it in lines if not re.fullmatch(r"\S+ [0-9a-f]{24}", it)]
    records = dict(it.split(" ") for it in lines if it not in odd)
    if odd or len(records) < len(lines):
        raise Bad(f"tests/wrong/refused has a line that is no record, or two of one name: {' '.join(odd)}")
    return records


def write_records(records):
    """Writes tests/wrong/refused, in the order of names."""
    with open(RECORDS, "w", encoding="utf-8") as it:
        it.write("".join(f"{name} {records[name]}\n" for name in sorted(records)))


def look(names, records):
    """Looks at the records alone and prints what it finds; answers which fit, and which wrong bodies or records fail."""
    whys = {name: why for name in names if (why := why_not(name))}
    lost = sorted({*records} - {*names})
    for name, why in whys.items():
        print(f"FAILED: wrong body {name} can't be applied: {why}")
    for name in lost:
        print(f"FAILED: tests/wrong/refused has {name}, and there is no such wrong body")
    applied = [name for name in names if name not in whys]
    fitting = {name for name in applied if records.get(name) == stands_on(name)}
    stale = [name for name in applied if name not in fitting]
    if len(stale) <= FEW:
        for name in stale:
            print(f"not tried since its clauses changed: {name}")
    else:
        crates = ", ".join(sorted({crate_of(name) for name in stale}))
        print(f"not tried since their clauses changed: {len(stale)} wrong bodies, of {crates}")
    print(f"{len(fitting)} wrong bodies recorded as refused, {len(stale)} not tried since their clauses changed")
    return fitting, {*whys, *lost}
