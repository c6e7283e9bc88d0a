"""The definitions of specs/ that clauses cite, and those that these cite in turn."""
import functools
import os
import re

TOP = os.path.dirname(os.path.dirname(os.path.realpath(__file__)))
# a page of some crate's definitions; what is derived from types is in none
USE = re.compile(r"use\s+Rattle\.(\w+)\.specs\.(?!contracts|declared)([\w.]+?)\.?(?:\{([^}]*)\}|\s+as\s+\w+|\s*;|\s*$)", re.M)
# what a line defines, after words such as `pub`; an equation is one of the definition that it names
DEFINED = re.compile(r"\s*(?:(?:abbrev|unfoldable|mutual|pub|record|data)\s+)*([^\s(){}:,;]+)")
RECORD = re.compile(r"\s*(?:pub )?record ")
CHOICES = re.compile(r"\s*(?:(?:pub )?data |abbrev mutual)")
WORD = re.compile(r"[^\s(){}:,;.]+")


def path_of(crate, page):
    """The path of a page."""
    return f"{TOP}/crates/{crate}/specs/{page.replace('.', '/')}.antt"


def cited(text):
    """The pages that a text uses: of each its path, and the names from it with what they are called here; None for all of them."""
    for crate, page, names in USE.findall(text):
        path = path_of(crate, page)
        if os.path.isfile(path):
            pairs = [(it.split(" as ")[0].strip(), it.split(" as ")[-1].strip()) for it in names.split(",") if it.strip()]
            yield path, dict(pairs) or None


def used_by(text, source):
    """The lines of a source that use pages of definitions, as far as a text has the names."""
    words = set(WORD.findall(text))
    lines = []
    for it in USE.finditer(source):
        names = [name for name in (it[3] or "").split(",") if name.split(" as ")[-1].strip() in words]
        if names:
            lines.append(f"ghost use Rattle.{it[1]}.specs.{it[2]}.{{{','.join(names).strip()}}};")
    return "\n".join(lines)


@functools.lru_cache(maxsize=None)
def page(path):
    """A page's use lines, and its definitions: the names and the text of each, without comments."""
    with open(path, encoding="utf-8") as file:
        lines = [it for it in file.read().split("\n") if not it.lstrip().startswith("--")]
    uses = "\n".join(it for it in lines if it.startswith(("use ", "pub use ")))
    rest = "\n".join(it for it in lines if not it.startswith(("use ", "pub use ")))
    blocks = [it for it in re.split(r"\n\s*\n", rest) if it.strip()]
    return uses, [(names_in(it), it) for it in blocks]


def names_in(block):
    """The names that a definition gives: of a record its own alone, since its fields are found by its type."""
    lines = [it for it in block.split("\n") if DEFINED.match(it)]
    if RECORD.match(block):
        lines = lines[:1]
    elif not CHOICES.match(block):
        # further lines of an equation are indented
        lines = [it for it in lines if indent(it) == indent(lines[0])]
    return {DEFINED.match(it)[1] for it in lines}


def indent(line):
    """How far a line is indented."""
    return len(line) - len(line.lstrip())


def is_frame(names, text):
    """Whether each definition of the page needs this part: it opens a module, or defines an operator."""
    return "module" in names or "◌" in text.split(" :")[0] or "mutual" in text.split("\n")[0]


def reachable(stated):
    """The text of each page as far as these texts cite it, by its path."""
    found = {}
    open_ones = [one for text in stated for one in cited(text)]
    while open_ones:
        path, names = open_ones.pop()
        uses, blocks = page(path)
        more = []
        for place, (defined, text) in enumerate(blocks):
            wanted = names is None or defined & set(names) or is_frame(defined, text)
            if wanted and place not in found.setdefault(path, {}):
                found[path][place] = text
                more.append(text)
        words = {it for text in more for it in WORD.findall(text)}
        if words:
            open_ones.append((path, dict.fromkeys(words, "")))
        for target, those in cited(uses):
            kept = None if those is None else {name: called for name, called in those.items() if called in words or name in (names or ())}
            if (kept is None and words) or kept:
                open_ones.append((target, kept))
    return {path: "\n\n".join(found[path][place] for place in sorted(found[path])) for path in found}
