#!/usr/bin/env python3
"""Questions about Cargo's configuration, answered by the proved program cc2_pipe, by the rules of the crate cargo-config2 0.1.45.

  cc2.py DIR (build | target T | rustc | host) [--config TEXT | --config-file PATH]...
  cc2.py DIR show ..    the resolved configuration, or what is at a key, as cc2.h says
  cc2.py DIR several build rustc target T ..    several answers by one load, with an empty line after each

Cargo 1.95 itself answers otherwise in places, which docs/CARGO.md lists. `show`, alone or with --format, prints what
`cargo-config2 get --resolved` prints; with a key, --files or --show-origin, what `cargo-config2 get --rules crate` prints. For Cargo's own
rules run `cargo-config2 get --format json`.

This module reads the files and starts the programs; cc2_pipe asks for those that it needs, and then answers.
It is the program at the path in the variable CC2_PIPE, else crates/cc2_pipe/out/cc2_pipe, else bindings/c/out/pipe, which `make` there builds.

  >>> import cc2
  >>> cc2.ask(["examples/p/q", "target", "x86_64-unknown-linux-gnu"]).text
  'rustflags[0] = "b"\\nrustflags[1] = "a"\\n'
  >>> loaded = cc2.load("examples/p/q")
  >>> loaded.config["build"]["rustflags"]
  ['b', 'a']
  >>> loaded.several("target", "x86_64-unknown-linux-gnu").text
  'rustflags[0] = "b"\\nrustflags[1] = "a"\\n\\n'
"""
import os
import pwd
import shlex
import stat
import subprocess
import sys
from typing import NamedTuple

TOP = os.path.dirname(os.path.dirname(os.path.dirname(os.path.realpath(__file__))))
PIPES = (f"{TOP}/crates/cc2_pipe/out/cc2_pipe", f"{TOP}/bindings/c/out/pipe")
USAGE = "usage: cc2_get DIR (build | target T | rustc | host) [--config TEXT | --config-file PATH]...\n"


class Answer(NamedTuple):
    """What cc2_get prints, or what `show` has, and its status: 0, 1 with an error, 2 for words that are no question."""

    status: int
    text: str


class Unanswered(Exception):
    """Why there is no answer: the library's program failed, its reply is none, or the question is none that it can be asked."""


class Refused(Exception):
    """Why a configuration isn't loaded, in the words of cc2_get."""


class Loaded(NamedTuple):
    """A configuration that was loaded: `config` has its resolved tables, and `state` answers later questions without its files.
    The others are what it was loaded by: the directory, the records of the process, and the overrides."""

    config: dict
    state: bytes
    directory: str
    known: bytes
    overrides: tuple

    def __repr__(self):
        """The directory and the configuration without tokens. The rest has variables of the process, and files with their tokens.

        >>> Loaded({"registry": {"token": "t", "default": "r"}}, b"state", "p", b"variables", ("--config", "text"))
        Loaded(directory='p', config={'registry': {'token': '[REDACTED]', 'default': 'r'}})
        """
        return f"Loaded(directory={self.directory!r}, config={redacted(self.config)!r})"

    def several(self, *items):
        """The answer to several items, as to the words DIR `several`, with an empty line after each. An item is `rustc`, `host`,
        `target` and a triple, `cfg` with a triple and a name, `rustc-version` or `cargo-version`. The state is handed back, and
        no file is read. Where it is empty, the files are read again."""
        if self.state:
            return answer_in(reply_to(self.directory, ["several", *items], self.known + record(b"S", self.state)))
        return answer_in(reply_to(self.directory, ["several", *items, *self.overrides], self.known))


def redacted(value):
    """The configuration, with a word in the place of what may be a secret."""
    if not isinstance(value, dict):
        return value
    return {key: "[REDACTED]" if key in ("token", "secret-key") else redacted(it) for key, it in value.items()}


def ask(words):
    """The answer to cc2_get's words, or to those of `show`, by the process, its files and its programs, and by the crate's rules. DIR
    is looked up by its physical path."""
    if not words:
        return Answer(2, "")
    [directory, *rest] = words
    return answer_in(reply_to(directory, rest, surroundings()))


def load(directory, overrides=()):
    """The resolved configuration of a directory, and the state for later questions. Overrides are words `--config`, TEXT and
    `--config-file`, PATH.

    `config` is nested dictionaries with the keys of the files. Values are integers, booleans, texts, and lists of texts. A
    variable of `env` is a dictionary of `value`, `force` and `relative`, and a provider of
    `registry.global-credential-providers` a text or a list. What isn't set isn't there, but a registry or a source that has
    nothing is an empty dictionary. Paths are resolved, and tokens are as they were set.

    Refused is raised where the configuration has an error, and ValueError where the overrides are no such words."""
    known = surroundings()
    reply = reply_to(directory, ["load", *overrides], known)
    if reply[:1] == b"A":
        answer = answer_in(reply)
        if answer.status == 2:
            raise ValueError("overrides are pairs of `--config` and a text, or `--config-file` and a path")
        raise Refused(answer.text.removeprefix("error: ").rstrip("\n"))
    cells, rest = field(reply[1:])
    state, rest = field(rest)
    if rest:
        raise Unanswered("the reply goes on after its state")
    return Loaded(configuration(cells), state, directory, known, tuple(overrides))


def reply_to(directory, words, known):
    """The reply to a question about a directory by these records, and by what is found out besides: an answer or a load."""
    given = [encoded(word) for word in (directory, *words)]
    found, why = physical(directory)
    request = b"".join(record(b"W", word) for word in [encoded(found) if found else given[0], *given[1:]]) + known
    while True:
        reply = replied(request)
        if found is None and reply[:2] != b"A\2":
            raise Unanswered(f"cannot enter the directory `{directory}`: {why}")
        if reply[:1] in (b"A", b"L"):
            return reply
        request += found_out(reply)


def answer_in(reply):
    """The answer that a reply is."""
    if reply[:1] != b"A" or len(reply) < 2:
        raise Unanswered("the reply is no answer")
    text, rest = field(reply[2:])
    if rest:
        raise Unanswered("the reply goes on after its answer")
    return Answer(reply[1], text.decode())


def physical(directory):
    """The physical path of a directory, without symbolic links; where there is none, None and why."""
    try:
        os.stat(f"{directory}/." if directory else "")
        return os.path.realpath(directory), None
    except OSError as error:
        return None, f"{error.strerror} (os error {error.errno})"
    except ValueError as error:
        return None, str(error)


def encoded(word):
    """The bytes of a word."""
    try:
        return word.encode()
    except UnicodeEncodeError:
        raise Unanswered("cannot read the arguments: they must be UTF-8") from None


def replied(request):
    """The reply to a request."""
    program = os.environ.get("CC2_PIPE") or next(filter(os.path.isfile, PIPES), None)
    if program is None:
        raise Unanswered(f"cc2_pipe isn't built: run `make -C {shlex.quote(TOP)}/bindings/c`, or set CC2_PIPE to the program's path")
    try:
        ran = subprocess.run([program], input=request, stdout=subprocess.PIPE, env={})
    except OSError as error:
        raise Unanswered(f"{program} can't be started: {error.strerror}") from None
    if ran.returncode or not ran.stdout:
        raise Unanswered(f"{program} ended with {ran.returncode}, and replied {len(ran.stdout)} bytes")
    return ran.stdout


def surroundings():
    """The records of the directory, the variables that set something, and the home. A name or a home that isn't UTF-8 is left out."""
    try:
        directory = os.getcwdb()
    except OSError:
        directory = b"\xff"
    if not is_text(directory):
        raise Unanswered("cannot read the current directory or the environment")
    known = record(b"C", directory)
    for name, value in os.environb.items():
        if is_text(name) and (name.startswith((b"CARGO", b"RUST")) or name == b"BROWSER"):
            known += record(b"V", name, value)
    home = os.environb.get(b"HOME") or home_of_user()
    return known + record(b"H", home) if home and is_text(home) else known


def home_of_user():
    """The home directory by the system's user database, where Cargo looks for it without HOME; empty where it has none."""
    try:
        return os.fsencode(pwd.getpwuid(os.getuid()).pw_dir)
    except KeyError:
        return b""


def found_out(needs):
    """The records that answer all needs of a reply."""
    found = b""
    while needs:
        kind, (text, needs) = needs[:1], field(needs[1:])
        if kind == b"P":
            args, needs = texts(needs)
            found += run(text, args)
        elif kind in (b"E", b"R"):
            found += looked_at(text, reads=kind == b"R")
        else:
            raise Unanswered(f"the reply has the unknown need {kind!r}")
    return found


def looked_at(path, reads):
    """The record of the file at a path. Only a regular file and /dev/null are read: a pipe or another device may never end."""
    try:
        mode = os.stat(path).st_mode
    except (OSError, ValueError):
        return record(b"N", path)
    if not reads:
        return record(b"T", path)
    try:
        if stat.S_ISREG(mode) or os.path.realpath(path) == "/dev/null":
            with open(path, "rb") as file:
                return record(b"F", path, file.read())
    except OSError:
        pass
    return record(b"U", path)


def run(program, args):
    """The record of what a program answers to these arguments."""
    command = field_of(program) + number(len(args)) + b"".join(map(field_of, args))
    try:
        ran = subprocess.run([program, *args], stdin=subprocess.DEVNULL, capture_output=True)
    except (OSError, ValueError):
        return b"X" + command
    code = bytes([ran.returncode]) if ran.returncode >= 0 else b""
    return b"P" + command + field_of(code) + field_of(ran.stdout) + field_of(ran.stderr)


def record(kind, *fields):
    """A record of fields alone."""
    return kind + b"".join(map(field_of, fields))


def field_of(content):
    """A field: its length and its bytes."""
    return number(len(content)) + content


def number(value):
    """A number in four bytes."""
    return value.to_bytes(4, "little")


def field(bytes_):
    """The field at the front, and the rest."""
    length = int.from_bytes(bytes_[:4], "little")
    if len(bytes_) < 4 + length:
        raise Unanswered("the reply ends within a field")
    return bytes_[4 : 4 + length], bytes_[4 + length :]


def texts(bytes_):
    """The list at the front, and the rest."""
    count, rest, found = int.from_bytes(bytes_[:4], "little"), bytes_[4:], []
    for _ in range(count):
        text, rest = field(rest)
        found.append(text)
    return found, rest


def configuration(cells):
    """The nested dictionaries of cells, whose format cc2.h has.

    >>> configuration(b"\\2\\0\\0\\0f\\5\\0\\0\\0buildf\\4\\0\\0\\0jobsi\\1\\2\\0\\0\\0")
    {'build': {'jobs': -2}}
    >>> configuration(b"\\2\\0\\0\\0f\\6\\0\\0\\0sourcen\\1\\0\\0\\0ae")
    {'source': {'a': {}}}
    """
    reader, tables = Cells(cells), {}
    while reader.at < len(cells):
        *above, last = reader.path()
        table, value = tables, reader.value()
        for key in above:
            table = table.setdefault(key, {})
            if not isinstance(table, dict):
                raise Unanswered(f"the reply has a value and a table at `{key}`")
        if last in table:
            raise Unanswered(f"the reply has `{last}` twice")
        table[last] = value
    return tables


class Cells:
    """Cells in bytes, and the place up to which they are read."""

    def __init__(self, bytes_):
        self.bytes, self.at = bytes_, 0

    def take(self, length):
        """The next bytes."""
        if len(self.bytes) - self.at < length:
            raise Unanswered("the reply ends within a cell")
        self.at += length
        return self.bytes[self.at - length : self.at]

    def number(self):
        """The next number."""
        return int.from_bytes(self.take(4), "little")

    def truth(self):
        """The next byte, which is 1 or 0."""
        byte = self.take(1)
        if byte not in (b"\0", b"\1"):
            raise Unanswered(f"the reply has {byte!r} for a truth value")
        return byte == b"\1"

    def text(self):
        """The next text."""
        try:
            return self.take(self.number()).decode()
        except UnicodeDecodeError:
            raise Unanswered("the reply has a text that is not UTF-8") from None

    def key(self):
        """The next key."""
        kind = self.take(1)
        if kind not in (b"f", b"n"):
            raise Unanswered(f"the reply has the unknown key {kind!r}")
        return self.text()

    def path(self):
        """The keys of the next cell."""
        keys = self.several(self.key)
        if not keys:
            raise Unanswered("the reply has a cell without a key")
        return keys

    def several(self, one):
        """A number, and so many."""
        return [one() for _ in range(self.number())]

    def provider(self):
        """The next provider: its name, or the texts of its command."""
        kind = self.take(1)
        if kind == b"t":
            return self.text()
        if kind == b"a":
            return self.several(self.text)
        raise Unanswered(f"the reply has the unknown provider {kind!r}")

    def value(self):
        """The next value."""
        kind = self.take(1)
        if kind == b"i":
            negative, absolute = self.truth(), self.number()
            return -absolute if negative else absolute
        if kind == b"b":
            return self.truth()
        if kind == b"t":
            return self.text()
        if kind == b"a":
            return self.several(self.text)
        if kind == b"p":
            return self.several(self.provider)
        if kind == b"e":
            return {}
        if kind == b"v":
            return {"value": self.text(), "force": self.truth(), "relative": self.truth()}
        raise Unanswered(f"the reply has the unknown value {kind!r}")


def is_text(bytes_):
    """Whether these bytes are UTF-8."""
    try:
        bytes_.decode()
    except UnicodeDecodeError:
        return False
    return True


def main(words):
    """Prints the answer; the status to end with."""
    try:
        answer = ask(words) if words else Answer(0, USAGE)
    except Unanswered as why:
        return f"error: {why}"
    text = USAGE if answer.status == 2 else answer.text
    try:
        sys.stdout.buffer.write(text.encode())
        sys.stdout.buffer.flush()
    except OSError:
        sys.stdout = None
        return "error: cannot write the output"
    return answer.status


if __name__ == "__main__":
    sys.exit(main(sys.argv[1:]))
