"""The wrong bodies of tests/wrong/: their names, whether each can be applied, and which of them the gate tries."""
import functools
import hashlib
import os

TOP = os.path.dirname(os.path.dirname(os.path.realpath(__file__)))
WRONG = f"{TOP}/tests/wrong"
# what was refused, and for which clauses
RECORDS = f"{WRONG}/refused"
# what they show, and what they don't
PAGE = f"{WRONG}/README.md"
# those that the gate tries each time, each with the phrase that it turns
HEADLINE = f"{WRONG}/headline"
# how many others the gate draws
DRAWN = 10


class Bad(Exception):
    """What stops the whole run."""


def text(path):
    """The text of a file."""
    with open(path, encoding="utf-8") as it:
        return it.read()


def files(folder, ending):
    """The files below a folder whose names end so, in their order."""
    return sorted(f"{at}/{name}" for at, _, names in os.walk(folder) for name in names if name.endswith(ending))


@functools.lru_cache(maxsize=None)
def libraries():
    """The crates of this repository that each of its crates lists, from crates.txt."""
    lines = [line.partition("#")[0].partition(":") for line in text(f"{TOP}/crates.txt").splitlines()]
    # `NAME staticlib` is how the line of a static library begins
    listed = {head.split()[0]: names.split() for head, colon, names in lines if colon}
    return {name: [it for it in names if it in listed] for name, names in listed.items()}


def path_of(name):
    """The file of the wrong body CRATE/NAME."""
    return f"{WRONG}/{name}.edit"


def crate_of(name):
    """The crate of the wrong body CRATE/NAME."""
    return name.partition("/")[0]


def why_not(name):
    """Why the wrong body CRATE/NAME can't be applied; nothing where it can. As `rt` reads an edit."""
    crate = crate_of(name)
    path = old = ""
    found = {}
    for line in text(path_of(name)).split("\n"):
        if line.startswith("file: "):
            path = line.removeprefix("file: ").strip()
            if not os.path.isfile(f"{TOP}/crates/{crate}/{path}"):
                return f"crates/{crate} has no {path}"
            found.setdefault(path, text(f"{TOP}/crates/{crate}/{path}"))
        elif line.startswith("old: "):
            old = line.removeprefix("old: ")
        elif line.startswith("new:"):
            if not path or not old:
                return "a line 'new:' is before 'file:' or 'old:'"
            times = found[path].count(old)
            if times != 1:
                return f"{path} has an old: text {times} times, and not once: {old.strip()}"
            found[path] = found[path].replace(old, line.removeprefix("new:").removeprefix(" "))
            old = ""
    return "" if found and not old else "it has no pair of 'old:' and 'new:' lines"


def every():
    """The names CRATE/NAME of all wrong bodies."""
    names = []
    for path in files(WRONG, ""):
        inside = os.path.relpath(path, WRONG)
        if path in (RECORDS, PAGE, HEADLINE):
            continue
        if inside.count("/") != 1 or not inside.endswith(".edit") or inside.partition("/")[0] not in libraries():
            raise Bad(f"{inside} is in tests/wrong/, where an edit is CRATE/NAME.edit of a crate of crates.txt")
        names.append(inside.removesuffix(".edit"))
    return names


def headline():
    """The wrong bodies that the gate tries each time, each with the phrase that it turns."""
    lines = [line.strip() for line in text(HEADLINE).splitlines()]
    found = [line.split(None, 1) for line in lines if line and not line.startswith("#")]
    odd = [it[0] for it in found if len(it) != 2 or not os.path.isfile(path_of(it[0]))]
    if odd or len(dict(found)) < len(found):
        raise Bad(f"tests/wrong/headline has a line without a phrase, or of no wrong body, or two of one: {' '.join(odd)}")
    return dict(found)


def drawn(names, day, commit):
    """Those of these wrong bodies that the gate draws on this day for this commit, in their order."""
    lot = sorted(names, key=lambda name: hashlib.sha256(f"{day} {commit} {name}".encode()).hexdigest())
    return sorted(lot[:DRAWN])
