"""Random inputs for what callers hand back and read: states of loads, and cells. tests/fuzz runs them."""
import os
import shutil
import subprocess
import sys

TOP = os.path.dirname(os.path.dirname(os.path.realpath(__file__)))
sys.path.insert(0, f"{TOP}/bindings/python")
import cc2  # noqa: E402
import fuzz_files  # noqa: E402

DIRECTORY, HOME = "/p/q", "/h"
PATHS = [f"{folder}/.cargo/{name}" for folder in (DIRECTORY, "/p", "", HOME) for name in ("config", "config.toml")]
# a file that is loaded where the random ones are refused
LOADED = b"""\
alias.b = "build --release"
build.rustflags = "-C a"
env.A = { value = "b", relative = true }
net = { retry = 3, offline = false }
registry.global-credential-providers = ["cargo:token", "p -x"]
registries.r.token = "k"
[target.'cfg(unix)']
runner = ["r", "-x"]
[target.x]
linker = "l/d"
rustflags = ["a", "b c"]
"""
ITEMS = (["target", "x"], ["target", "x86_64-unknown-linux-gnu"], ["rustc"], ["host"], ["rustc-version"], ["cargo-version"], ["cfg", "x", "unix"],
         ["build"], ["--config", "a=1"], ["é"])
# no value of these is refused
VARIABLES = (b"RUSTFLAGS", b"RUSTC_WRAPPER", b"CARGO_TARGET_X_RUNNER", b"CARGO_BUILD_RUSTFLAGS")
NUMBERS = (0, 1, 2, 255, 256, 65536, 2**31, 2**32 - 1)
# how cells.c ends, by its status and what it writes to standard error. A sanitizer writes something else
CELLS_END = ((0, b""), (1, b"error: this is no reply to a load\n"))
SANITIZERS = "-O1 -g -fsanitize=address,undefined -fno-sanitize-recover=all"


def record(kind, *fields):
    """A record of texts or bytes."""
    return cc2.record(kind, *(it.encode() if isinstance(it, str) else it for it in fields))


def build(room, only_built, told):
    """The paths of the programs pipe and cells of bindings/c, the second with the compiler's sanitizers where it has them. None where
    there is no compiler. An error where they can't be built."""
    if not shutil.which(os.environ.get("CC", "cc")) or not shutil.which("make"):
        return None
    words = ["make", "-s", "-C", f"{TOP}/bindings/c", f"OUT={room}"]
    words += [f"LIBRARY={TOP}/crates/cc2_c/out/libcc2_c.a"] if only_built else []
    quiet = {"stdin": subprocess.DEVNULL, "stdout": subprocess.DEVNULL, "stderr": subprocess.DEVNULL}
    has = subprocess.run([*words, f"{room}/cells", f"CFLAGS={SANITIZERS}"], **quiet).returncode == 0
    if not has or subprocess.run([f"{room}/cells"], stdin=subprocess.DEVNULL, stderr=subprocess.PIPE).stderr != CELLS_END[1][1]:
        told("tests/fuzz: the C compiler has no sanitizers: cells are read without them")
        subprocess.run([*words, "-B", f"{room}/cells"], check=True)
    subprocess.run([*words, f"{room}/pipe"], check=True)
    return f"{room}/pipe", f"{room}/cells"


def changed(rng, content):
    """The bytes, changed as a file's text is or as numbers are; cut, twice, or random."""
    kind = rng.randrange(6)
    if kind == 0 or not content:
        return rng.randbytes(rng.choice((0, 1, 40, 1000)))
    if kind == 1:
        return content[: rng.randrange(len(content))]
    if kind == 2:
        return (content + content[rng.randrange(len(content)) :] * rng.choice((1, 2, 1000)))[: fuzz_files.LARGEST]
    if kind == 3:
        return fuzz_files.changed(rng, content, [content])
    content = bytearray(content)
    for _ in range(rng.randrange(1, 4)):
        at = rng.randrange(len(content))
        if kind == 4:
            content[at] = rng.randrange(256)
        else:
            content[at : at + 4] = rng.choice(NUMBERS).to_bytes(4, "little")
    return bytes(content)


def is_reply(reply):
    """Whether these bytes are a reply that is no load. An answer with the status 2 has no text."""
    try:
        if reply == b"B":
            return True
        if reply[:1] == b"A":
            answer = cc2.answer_in(reply)
            return answer.status < 2 or answer == (2, "")
        return bool(reply) and are_needs(reply)
    except (cc2.Unanswered, UnicodeDecodeError):
        return False


def are_needs(reply):
    """Whether these bytes are needs."""
    while reply:
        kind, (text, reply) = reply[:1], cc2.field(reply[1:])
        if kind == b"P":
            _, reply = cc2.texts(reply)
        if kind not in (b"E", b"R", b"P") or not cc2.is_text(text):
            return False
    return True


class Callers:
    """The programs, and how a program is run."""

    def __init__(self, programs, run):
        (self.pipe, self.cells), self.run = programs, run

    def faults(self, rng, texts, folder):
        """What doesn't hold of an input: a load, its state and its cells, changed."""
        known = self.surroundings(rng)
        load = self.loaded(rng, texts, known, folder)
        if isinstance(load, str):
            return [load]
        files, cells, state = load
        found = self.of_cells(rng, cells, state, folder)
        return found + (self.of_state(rng, known, files, state, folder) if state else [])

    def surroundings(self, rng):
        """The records of the process and its programs."""
        known = record(b"C", DIRECTORY) + record(b"H", HOME) + record(b"N", "rustc")
        for name in rng.sample(VARIABLES, rng.choice((0, 0, 1, 2))):
            known += record(b"V", name, rng.choice((b"", b"1", b"a b")))
        said = rng.choice((b"unix\n", b"release: 1.95.0\nhost: x\n", b"(\n"))
        for program, *args in (["rustc", "-vV"], ["cargo", "-vV"], ["rustc", "--print", "cfg", "--target", "x"]):
            command = cc2.field_of(program.encode()) + cc2.number(len(args)) + b"".join(cc2.field_of(it.encode()) for it in args)
            known += b"P" + command + cc2.field_of(b"\0") + cc2.field_of(said) + cc2.field_of(b"")
        return known

    def loaded(self, rng, texts, known, folder):
        """The records of files, and the cells and the state of their load; or what is wrong."""
        contents = [{rng.choice(PATHS): fuzz_files.content(rng, texts)[0] for _ in range(rng.randrange(1, 3))} for _ in range(2)]
        for content in (*contents, {PATHS[1]: LOADED}):
            files = b"".join(record(b"F", it, content[it]) if it in content else record(b"N", it) for it in PATHS)
            reply = self.replied(record(b"W", DIRECTORY) + record(b"W", "load") + known + files, folder)
            if isinstance(reply, str):
                return reply
            if reply[:1] == b"L":
                try:
                    cells, rest = cc2.field(reply[1:])
                    state, rest = cc2.field(rest)
                except cc2.Unanswered as why:
                    return str(why)
                return "a load goes on after its state" if rest else (files, cells, state)
            if not is_reply(reply):
                return f"the reply to a load is {reply[:100]!r}"
        return f"a load of a good file is answered {reply[:100]!r}"

    def replied(self, request, folder):
        """The reply to a request; or what is wrong."""
        status, out, err, seconds = self.run([self.pipe], request, folder)
        if status != 0 or err:
            return f"a call ends with {status}, after {seconds:.1f} seconds of the processor's time: {err[:100]!r}"
        return out

    def of_state(self, rng, known, files, state, folder):
        """What doesn't hold of items by a state, and by a changed one."""
        items = sum(rng.choices(ITEMS[:7], k=rng.randrange(1, 4)), [])
        ask = b"".join(record(b"W", it) for it in (DIRECTORY, "several", *items)) + known
        by_files, by_state = (self.replied(ask + more, folder) for more in (files, record(b"S", state)))
        if by_files != by_state:
            return [f"{items} by the state: {by_state[:200]!r}, and by the files: {by_files[:200]!r}"]
        items = sum(rng.choices(ITEMS, k=rng.randrange(1, 4)), [])
        ask = b"".join(record(b"W", it) for it in (DIRECTORY, "several", *items)) + known
        ask += record(b"S", changed(rng, state))
        reply = self.replied(ask, folder)
        if isinstance(reply, str):
            return [f"with a changed state {reply}"]
        if not is_reply(reply):
            return [f"with a changed state the reply is {reply[:200]!r}"]
        return [] if self.replied(ask, folder) == reply else ["with a changed state there are two replies"]

    def of_cells(self, rng, cells, state, folder):
        """What doesn't hold of the callers that read cells, in C and in Python. The one in Rust has such tests of its own."""
        read = self.are_read(cells, state, folder)
        found = [] if read == ("", True, True) else [f"the cells of a load aren't read: {read}"]
        why, by_c, by_python = self.are_read(changed(rng, cells), state, folder)
        if why:
            found.append(why)
        elif by_python and not by_c:
            found.append("Python reads cells that C doesn't")
        return found

    def are_read(self, cells, state, folder):
        """What is wrong, and whether the caller in C and the one in Python read these cells."""
        status, _, err, seconds = self.run([self.cells], b"L" + cc2.field_of(cells) + cc2.field_of(state), folder)
        why = "" if (status, err) in CELLS_END else f"cells.c ends with {status}, after {seconds:.1f} seconds: {err[:300]!r}"
        try:
            cc2.configuration(cells)
        except cc2.Unanswered:
            return why, status == 0, False
        return why, status == 0, True
