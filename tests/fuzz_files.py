"""Random contents of configuration files: tables of the keys that Cargo knows, changed texts of tests/rows/, bytes, and what is no file."""
import os
import tomllib

TOP = os.path.dirname(os.path.dirname(os.path.realpath(__file__)))
LARGEST = 64 * 1024
TOKEN = "tOkEn-0123456789abcdef"

TEXTS = ("", "a", "a b", " ", "x/y", "/x/y", "\\u0000", "é", "..", "false", "-1", "never", "sparse", "git", "cargo:token",
         "cargo:token-from-stdout", "cargo:token-from-stdout a", "cfg(unix)", "x86_64-unknown-linux-gnu", "a.json")
TRIPLES = ("x", "x86_64-unknown-linux-gnu", "a.json", "cfg(unix)", "", "A_b.c", "é", "-", "a" * 300)
CFGS = ("cfg(unix)", "cfg(all())", "cfg(any(unix, windows))", "cfg(not(a))", "cfg(a b)", "cfg(", "cfg(k = \\\"v\\\")",
        "cfg(" + "not(" * 300 + "a" + ")" * 300 + ")", "cfg(é)")
FIELDS = {
    "build": ("jobs", "rustc", "rustc-wrapper", "rustc-workspace-wrapper", "rustdoc", "target", "target-dir", "rustflags",
              "rustdocflags", "incremental", "dep-info-basedir", "build-dir"),
    "http": ("debug", "proxy", "timeout", "cainfo", "check-revoke", "low-speed-limit", "multiplexing", "user-agent"),
    "net": ("retry", "git-fetch-with-cli", "offline"),
    "term": ("quiet", "verbose", "color"),
    "doc": ("browser",),
    "cargo-new": ("vcs",),
    "future-incompat-report": ("frequency",),
    "registry": ("default", "credential-provider", "global-credential-providers"),
    "term.progress": ("when", "width"),
}
SPLICES = ("[", "]", "[[", "]]", "{", "}", "=", ".", "'", '"', '"""', "'''", "\\", "\n", "\r\n", "\r", "\t", "#", ",", "\0",
           "\x7f", "\ufeff", "é", "inf", "nan", "1979-05-27", "0x", "1e999", "9" * 40, "true", "[build]", "[target.x]", "a.b.c=1")


def corpus():
    """The texts of files in the rows."""
    texts = []
    folder = os.path.join(TOP, "tests", "rows")
    for name in sorted(os.listdir(folder)):
        if not name.endswith(".toml"):
            continue
        with open(os.path.join(folder, name), "rb") as file:
            rows = tomllib.load(file)
        for row in rows.get("row", []):
            texts += [text.encode() for text in row.get("files", {}).values() if isinstance(text, str)]
    return texts


def quoted(text):
    return '"' + text + '"'


def value(rng, depth=0):
    kind = rng.randrange(10 if depth < 4 else 6)
    if kind < 3:
        return quoted(rng.choice(TEXTS))
    if kind == 3:
        return str(rng.choice((0, 1, -1, 2**31, 2**63 - 1, 4294967296)))
    if kind == 4:
        return rng.choice(("true", "false"))
    if kind == 5:
        return rng.choice(("1.5", "inf", "1979-05-27T07:32:00Z", "[]", "{}"))
    if kind < 9:
        return "[" + ", ".join(value(rng, depth + 1) for _ in range(rng.randrange(5))) + "]"
    return "{" + ", ".join(f"{key} = {value(rng, depth + 1)}" for key in ("value", "force", "relative")[: rng.randrange(4)]) + "}"


def table(rng):
    """A table of known and odd keys, some of whose values are of their types."""
    lines = []
    for _ in range(rng.randrange(1, 12)):
        kind = rng.randrange(8)
        if kind < 4:
            name = rng.choice(sorted(FIELDS))
            lines.append(f"{name}.{rng.choice(FIELDS[name])} = {value(rng)}")
        elif kind == 4:
            key = rng.choice(CFGS + TRIPLES)
            field = rng.choice(("linker", "runner", "rustflags", "rustdocflags", "other"))
            lines.append(f"target.{quoted(key)}.{field} = {value(rng)}")
        elif kind == 5:
            lines.append(f"{rng.choice(('alias', 'env', 'credential-alias'))}.{quoted(rng.choice(TEXTS))} = {value(rng)}")
        elif kind == 6:
            lines.append(f"{rng.choice(('registries', 'source'))}.{rng.choice('rst')}.{rng.choice(('index', 'protocol', 'git', 'tag'))} = {value(rng)}")
        else:
            lines.append(rng.choice((f"registry.token = {quoted(TOKEN)}", f"registries.r.token = {quoted(TOKEN)}")))
    unique = {line.split(" = ", 1)[0]: line for line in lines}
    return "\n".join(unique.values()).encode() + b"\n"


def changed(rng, text, texts):
    """The text with some bytes changed, cut, doubled, or spliced in."""
    text = bytearray(text)
    for _ in range(rng.randrange(1, 8)):
        at = rng.randrange(len(text) + 1)
        end = min(len(text), at + rng.randrange(1, 20))
        kind = rng.randrange(6)
        if kind == 0 and at < len(text):
            text[at] = rng.randrange(256)
        elif kind == 1:
            del text[at:end]
        elif kind == 2:
            text[at:at] = text[at:end] * rng.choice((1, 2, 1000))
        elif kind == 3:
            text[at:at] = rng.choice(SPLICES).encode()
        elif kind == 4:
            text[at:at] = rng.choice(texts)
        else:
            text[at:at] = rng.choice((b"[", b"{a=", b"a.", b"[[", b"'", b"not(")) * rng.choice((10, 100, 20000))
    return bytes(text[:LARGEST])


def content(rng, texts):
    """Bytes of a file, and whether tokens are in their fields alone."""
    kind = rng.randrange(10)
    if kind < 5:
        return table(rng), True
    if kind < 9:
        return changed(rng, rng.choice(texts).replace(TOKEN.encode(), b"t"), texts), False
    return rng.randbytes(rng.choice((0, 1, 100, LARGEST))), False


def put_odd(rng, path):
    """In a file's place something that is none."""
    kind = rng.randrange(6)
    if kind == 0:
        os.mkdir(path)
    elif kind == 1:
        os.mkfifo(path)
    elif kind == 2:
        os.symlink("/dev/zero", path)
    elif kind == 3:
        os.symlink(os.path.basename(path), path)
    elif kind == 4:
        os.symlink("/nowhere", path)
    else:
        with open(path, "wb") as file:
            file.truncate(4 << 30)
