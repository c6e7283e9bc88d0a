"""Tries a wrong body by the kit's checker: the function that it edits alone, over libraries that are built.

  tests/wrong_trying.py FOLDER CRATE/NAME SECONDS   tries one in a copy of the crates, and prints a line of JSON

tests/wrong-bodies calls it, each time in a process of its own, so that the limit of processor time is that of one try.

What is asked: `rattle check --only FUNCTION` of the edited crate. Where no function has that name, the file's module is
asked, and then the whole crate. A refusal counts if the edited function itself isn't proved. What is proved with the
edit is asked once more with all of its module, and where the edit is in no function, with all of the crate.
"""
import functools
import importlib.machinery
import importlib.util
import json
import os
import re
import resource
import shutil
import signal
import subprocess
import sys

sys.dont_write_bytecode = True
sys.path.insert(0, os.path.dirname(os.path.realpath(__file__)))
from wrong_edits import Bad, crate_of, path_of, text  # noqa: E402

# what a try comes to; the last two say nothing of the wrong body
REFUSED, MISSED, BAD, OVER, UNKNOWN = "refused", "NOT REFUSED", "BAD EDIT", "over its limit", "NOT TRIED"
FN = re.compile(r"( *)(?:pub(?:\([^)]*\))? )?(?:(?:const|unsafe) )*fn (\w+)")
OWNER = re.compile(r"(?:pub(?:\([^)]*\))? )?(?:unsafe )?(impl|trait)\b")
# what is called of rt
NEEDED = ("checked", "read_edit", "rtlib", "unread")


@functools.lru_cache(maxsize=None)
def kit():
    """The kit's command `rt` as a module."""
    found = shutil.which("rt")
    if not found:
        raise Bad("the kit's rt is not on the PATH")
    loader = importlib.machinery.SourceFileLoader("rt_of_kit", os.path.realpath(found))
    made = importlib.util.module_from_spec(importlib.util.spec_from_loader("rt_of_kit", loader))
    sys.modules["rt_of_kit"] = made
    try:
        loader.exec_module(made)
    except SyntaxError as error:
        raise Bad(f"{found} is no script of Python, as it is in the kits that this was written for") from error
    lacking = [it for it in NEEDED if not hasattr(made, it)]
    if lacking:
        raise Bad(f"{found} has no {' and no '.join(lacking)}, which tests/wrong_trying.py calls")
    return made


def crates_at(root):
    """The crates of a copy of the repository, by name, as `rt ci` has them where this kit keeps what that proved."""
    rt = kit()
    if hasattr(rt, "Kept"):
        rt.rtlib.Crate = rt.Crate
        rt.Crate.allowed = rt.handles_of(root)
    return {it.name: it for it in rt.rtlib.crates_below(root)}


def parameters(head):
    """The names of the parameters that the head of an impl begins with, and what is after them."""
    if not head.startswith("<"):
        return [], head
    names, depth = [], 0
    for found in re.finditer(r"(?<!-)>|<|,|\w+", head):
        mark = found[0]
        if depth == 1 and names and names[-1] is None and mark not in "<>,":
            names[-1] = mark
        if mark == "<" and depth == 0 or mark == "," and depth == 1:
            names.append(None)
        depth += {"<": 1, ">": -1}.get(mark, 0)
        if depth == 0:
            return names, head[found.end() :]
    return names, head


def owner_of(lines, at):
    """What the checker calls the type, or the trait, that has the method on this row."""
    top = next((it for it in range(at, -1, -1) if OWNER.match(lines[it])), None)
    if top is None:
        return ""
    found = OWNER.match(lines[top])
    head = " ".join(lines[top : at + 1])[found.end() :].partition("{")[0].partition(" where ")[0]
    own, head = parameters(re.sub(r"'\w+(?:, )?|\b\w+::", "", head).strip())
    if found[1] == "trait":
        return re.match(r"\s*(\w*)", head)[1]
    trait, _, kind = head.strip().rpartition(" for ")
    # as BTreeMapStringMergeFrom: the type, and then the trait, with their parameters but for those of the impl
    words = [it for part in (kind, trait) for it in re.findall(r"\w+", part) if it not in (*own, "mut")]
    return "".join(it[0].upper() + it[1:] for it in (["Any"] * (kind in own) + words))


def function_at(lines, row):
    """The function that has this row, by its path in the module; nothing where it is in none."""
    at = next((it for it in range(row, -1, -1) if FN.match(lines[it])), None)
    if at is None:
        return ""
    indent, name = FN.match(lines[at]).groups()
    is_one_line = lines[at].count("{") == lines[at].count("}") > 0
    end = at if is_one_line else next((it for it in range(at, len(lines)) if lines[it] == f"{indent}}}"), at)
    if row > end:
        return ""
    return "::".join(it for it in (owner_of(lines, at) if indent else "", name) if it)


def module_of(path):
    """The module of a file of src/, by its path below the crate; nothing for the root."""
    module = path.removeprefix("src/").removesuffix(".rt").replace("/", "::").removesuffix("::mod")
    return "" if module in ("lib", "main") else module


def rows_of(name, folder):
    """The file and the row of each text that a wrong body edits; no edit moves a row."""
    found, path = [], ""
    for line in text(path_of(name)).split("\n"):
        if line.startswith("file: "):
            path = line.removeprefix("file: ").strip()
            source = text(f"{folder}/{path}")
        elif line.startswith("old: "):
            old = line.removeprefix("old: ")
        elif line.startswith("new:"):
            found.append((path, source[: source.find(old)].count("\n")))
            source = source.replace(old, line.removeprefix("new:").removeprefix(" "))
    return found


def questions(name, folder):
    """What to ask, the least first: whether it names functions, and the names for --only. And whether each edited row is in
    a function, or imports what one calls."""
    functions, modules, inside = [], [], True
    for path, row in rows_of(name, folder):
        lines = text(f"{folder}/{path}").split("\n")
        module, own = module_of(path), function_at(lines, row) if path.startswith("src/") else ""
        modules.append(module if path.startswith("src/") else "")
        if own:
            functions.append((f"{module}::{own}" if module else own, own))
        else:
            inside = inside and lines[row].startswith(("use ", "    use "))
    asked = []
    if functions:
        asked += [(True, [it for it, _ in functions]), (True, [it for _, it in functions])]
    if all(modules):
        asked.append((False, modules))
    asked.append((False, []))
    asked = [(kind, [*dict.fromkeys(names)]) for kind, names in asked]
    return [it for at, it in enumerate(asked) if it not in asked[:at]], bool(functions) and inside


def is_over(ran, used, limit):
    """Whether a check was stopped by its limit of processor time."""
    return ran.returncode in (-signal.SIGXCPU, 128 + signal.SIGXCPU) or ran.returncode not in (0, 1) and used >= limit


def told(lines):
    """The first line that says where the checker stopped."""
    placed = [it for it in lines if re.match(r"(note: )?\S+:\d+:\d+:", it)]
    return next((it for it in placed if ": error" in it or it.startswith("note: ")), placed[0] if placed else "")[:160]


def edited_lines(lines, crate, names):
    """What the checker says of each of these functions, which may be named by the end of their paths."""
    said = [it.removeprefix(f"fn {crate}::").partition(": ")[::2] for it in lines if it.startswith(f"fn {crate}::")]
    return [verdict for path, verdict in said for name in names if path == name or path.endswith(f"::{name}")]


def answer(crate, texts, names, is_functions, limit):
    """What the checker answers to one question: what it comes to, or nothing where another one is to be asked; and a line."""
    rt = kit()
    words = ["--jobs", "1", *[word for name in names for word in ("--only", name)]]
    for _ in range(2):
        before = processor()
        ran = rt.checked(crate, texts, words, None)
        # (most likely killed for memory: once more)
        if ran.returncode != -signal.SIGKILL:
            break
    lines = ran.stdout.rstrip("\n").split("\n")
    unread = next((it for it in lines if rt.unread(it, texts)), "")
    if is_over(ran, processor() - before, limit):
        return OVER, ""
    if rt.rtlib.STALE.search(ran.stdout):
        return UNKNOWN, "a library does not fit what it was built over: remove crates/*/out, and run rt ci"
    if ran.returncode == 2 and names:
        return None, lines[-1][:160]
    if ran.returncode == 1 and unread:
        return BAD, f"the checker cannot read the edited text: {unread[:160]}"
    if ran.returncode == 1 and not lines[-1].startswith(("only=", "logic=not-proved")):
        return BAD, f"it did not compile: {next((it for it in lines if 'error' in it), lines[0])[:160]}"
    verdicts = edited_lines(lines, crate.name, names) if is_functions else []
    if ran.returncode == 1:
        # the edited function's own proof, or any of the module's
        is_own = not is_functions or any(it != "proved" for it in verdicts)
        return (REFUSED if is_own else None), told(lines)
    if ran.returncode == 0:
        return (MISSED if verdicts or not is_functions else None), lines[-1][:160]
    if ran.returncode == 3 and hasattr(rt, "LIMITS") and rt.LIMITS.search(ran.stdout):
        return REFUSED, "only by a limit of the prover, which says less of the contract"
    return UNKNOWN, f"the check ended with status {ran.returncode}: {lines[-1][:160]}"


def processor():
    """The seconds of processor time that what this process called has taken."""
    used = resource.getrusage(resource.RUSAGE_CHILDREN)
    return used.ru_utime + used.ru_stime


def try_one(root, name, limit):
    """What a wrong body comes to, what the checker was asked, and a line that it said."""
    crate = crates_at(root)[crate_of(name)]
    texts, why = kit().read_edit(path_of(name), crate.folder)
    if why:
        return BAD, "", why
    asked, is_inside = questions(name, crate.folder)
    missed = None
    for is_functions, names in asked:
        came_to, line = answer(crate, texts, names, is_functions, limit)
        what = " and ".join(names) or "the whole crate"
        if came_to == OVER and missed and is_inside:
            break
        if came_to == MISSED:
            missed = MISSED, what, line
        elif came_to:
            return came_to, what, line
        if came_to == MISSED and is_inside and not is_functions:
            break
    return missed or (UNKNOWN, what, line)


def main(root, name, limit):
    # the checker inherits the limit, and not that this process ignores the signal
    signal.signal(signal.SIGXCPU, lambda *_: None)
    resource.setrlimit(resource.RLIMIT_CPU, (int(limit), resource.getrlimit(resource.RLIMIT_CPU)[1]))
    try:
        came_to, what, line = try_one(root, name, int(limit))
    except (Bad, OSError, ValueError) as error:
        came_to, what, line = UNKNOWN, "", str(error)
    print(json.dumps([came_to, what, line, processor()]))


def called(words, **how):
    """Calls a command and answers its status, and what it wrote to either stream."""
    how = {"stdin": subprocess.DEVNULL, "stdout": subprocess.PIPE, "stderr": subprocess.STDOUT, "text": True, "errors": "replace", **how}
    ran = subprocess.run(words, check=False, **how)
    return ran.returncode, ran.stdout.rstrip("\n").split("\n")


def tried(root, name, limit):
    """Tries one in a process of its own: what it comes to, what was asked, a line of the checker's, and its seconds."""
    status, lines = called([sys.executable, os.path.realpath(__file__), root, name, str(limit)])
    try:
        return tuple(json.loads(lines[-1]))
    except ValueError:
        return UNKNOWN, "", f"status {status}: {lines[-1][:200]}", 0.0


if __name__ == "__main__":
    main(*sys.argv[1:])
