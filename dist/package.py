"""What dist/ has and what is installed: the files, and how each is made."""
import datetime
import gzip
import hashlib
import os
import re
import shutil
import struct
import subprocess
import sys
import tempfile

sys.dont_write_bytecode = True
TOP = os.path.dirname(os.path.dirname(os.path.realpath(__file__)))
sys.path[:0] = [f"{TOP}/tests", f"{TOP}/dist"]
import place  # noqa: E402
import programs  # noqa: E402

SUMMARY = "Cargo's configuration, merged and resolved"
# the files of dist/x86_64-unknown-linux-gnu but SOURCES
NAMES = (*programs.SHIPPED.values(), "libcc2.a", "cc2.h", "cc2.pc")
# an ELF file for 64 bits, the lowest byte first, as both the platform's programs and libraries are
HEADER, SECTION = struct.Struct("<16sHHIQQQIHHHHHH"), struct.Struct("<IIQQQQIIQQ")
ALLOC, NOBITS, STRTAB = 2, 8, 3


class Failed(Exception):
    """Why a file can't be made."""


def releases():
    """The releases by CHANGELOG.md, the latest first: of each its version and the start of its day."""
    found = re.findall(r"(?m)^## \[(\d+\.\d+\.\d+)\] - (\d{4}-\d\d-\d\d)$", read("CHANGELOG.md").decode())
    if not found:
        raise Failed("CHANGELOG.md names no release")
    return [(version, datetime.datetime.fromisoformat(day).replace(tzinfo=datetime.timezone.utc)) for version, day in found]


def version():
    """The version of this project."""
    return releases()[0][0]


def kit():
    """The folder of the kit of which `rt` on the PATH is; none where there is none."""
    rt = shutil.which("rt")
    folder = os.path.dirname(os.path.dirname(os.path.realpath(rt))) if rt else "/opt/rattle"
    return folder if os.path.isfile(f"{folder}/c/liblibc_c.a") else None


def kit_version():
    """What `rt version` prints."""
    said = subprocess.run(["rt", "version"], stdin=subprocess.DEVNULL, stdout=subprocess.PIPE, text=True, check=True)
    return said.stdout.strip()


def stripped(content):
    """An executable without symbols, debugging information and comments: the sections that are loaded are kept as they are."""
    head = list(HEADER.unpack_from(content))
    if head[0][:6] != b"\x7fELF\x02\x01":
        raise Failed("the program is no ELF file for 64 bits")
    start, count, names_at = head[6], head[12], head[13]
    sections = [list(SECTION.unpack_from(content, start + SECTION.size * at)) for at in range(count)]
    names = sections[names_at]
    text = content[names[4] : names[4] + names[5]]
    kept = [at for at, it in enumerate(sections) if at == 0 or it[2] & ALLOC]
    end = max((it[4] + (it[5] if it[1] != NOBITS else 0) for it in (sections[at] for at in kept)), default=0)
    new_names, made = b"\0", []
    for at in kept:
        section = sections[at]
        section[6] = kept.index(section[6]) if section[6] in kept else 0
        if at:
            name = text[section[0] : text.index(b"\0", section[0])] + b"\0"
            section[0], new_names = len(new_names), new_names + name
        made.append(section)
    made.append([len(new_names), STRTAB, 0, 0, end, len(new_names) + len(b".shstrtab\0"), 0, 0, 1, 0])
    new_names += b".shstrtab\0"
    table = -(-(end + len(new_names)) // 8) * 8
    head[6], head[12], head[13] = table, len(made), len(made) - 1
    body = HEADER.pack(*head) + content[HEADER.size : end] + new_names
    return body.ljust(table, b"\0") + b"".join(SECTION.pack(*it) for it in made)


def one_library(archive, out):
    """Writes the library libcc2.a: the objects of an archive of crates/cc2_c and those of the kit's archives that they
    need, linked to one object, so that a program in C links this file alone."""
    home = kit()
    if home is None:
        raise Failed("libcc2.a needs the kit's archives: there is no `rt` on the PATH and no kit in /opt/rattle")
    tools = f"{home}/toolchain/bin"
    with tempfile.TemporaryDirectory(prefix="dist-") as room:
        words = [f"{tools}/ld.lld", "-r", "--strip-debug", "-o", f"{room}/cc2.o", "--whole-archive", archive]
        run([*words, "--no-whole-archive", f"{home}/c/libos_c.a", f"{home}/c/liblibc_c.a"])
        # D: no times, no owners
        run([f"{tools}/llvm-ar", "rcsD", f"{room}/libcc2.a", f"{room}/cc2.o"])
        shutil.copyfile(f"{room}/libcc2.a", out)


def run(words):
    """Runs a tool; raises Failed with what it says where it ends with another status than 0."""
    ended = subprocess.run(words, stdin=subprocess.DEVNULL, stdout=subprocess.PIPE, stderr=subprocess.STDOUT)
    if ended.returncode:
        said = ended.stdout.decode(errors="replace").strip()
        raise Failed(f"{os.path.basename(words[0])} ended with {ended.returncode}: {said[-500:]}")


def escaped(folder):
    """A folder as the value of a variable in a file for pkg-config."""
    if re.search(r"[\x00-\x1f\x7f]", folder):
        raise Failed(f"pkg-config can't have the prefix {folder!r}: it has a control character")
    return re.sub(r"""([ "'\\#])""", r"\\\1", folder).replace("$", "$$")


def pkg_config(prefix, libraries, headers):
    """The text of cc2.pc, with the folders of the library and of the header, escaped where it needs to be."""
    return (
        f"prefix={prefix}\nlibdir={libraries}\nincludedir={headers}\n\n"
        f"Name: cc2\nDescription: {SUMMARY}, as a static library\nVersion: {version()}\n"
        "Cflags: -I${includedir}\nLibs: -L${libdir} -lcc2\n"
    )


def build(folder, inputs):
    """Builds the files of NAMES into a folder, of the built programs and the library at the paths of `inputs` by crate."""
    build_programs(folder, inputs)
    build_library(folder, inputs[programs.LIBRARY])


def build_programs(folder, inputs):
    """Builds the programs into a folder, of the built ones at the paths of `inputs` by crate."""
    for crate, name in programs.SHIPPED.items():
        with open(inputs[crate], "rb") as file:
            content = stripped(file.read())
        place.write(f"{folder}/{name}", content, 0o755)


def build_library(folder, archive):
    """Builds the library, its header and cc2.pc into a folder, of an archive of crates/cc2_c."""
    one_library(archive, f"{folder}/libcc2.a")
    os.chmod(f"{folder}/libcc2.a", 0o644)
    with open(f"{TOP}/{programs.HEADER}", "rb") as file:
        place.write(f"{folder}/cc2.h", file.read())
    # the folder of cc2.pc itself, wherever the checkout lies
    place.write(f"{folder}/cc2.pc", pkg_config("${pcfiledir}", "${prefix}", "${prefix}").encode())


def sum_of(path):
    """The SHA-256 of a file and its size in bytes."""
    with open(path, "rb") as file:
        content = file.read()
    return hashlib.sha256(content).hexdigest(), len(content)


def built_inputs(takes_older=False):
    """The paths of the built programs and of the built library, by crate; and for each that isn't there, or is older than its
    sources and `takes_older` is false, a line that says how to make it."""
    paths = {crate: programs.built(crate) for crate in programs.SHIPPED}
    paths[programs.LIBRARY] = f"{TOP}/crates/{programs.LIBRARY}/out/lib{programs.LIBRARY}.a"
    lacking = []
    for crate, path in paths.items():
        verb = "lib" if crate == programs.LIBRARY else "run"
        source = programs.newer_source(crate, path) if os.path.isfile(path) and not takes_older else None
        if source or not os.path.isfile(path):
            why = f"is older than {source}" if source else "isn't built"
            lacking.append(f"{os.path.relpath(path, TOP)} {why}: run `rt {verb}` in crates/{crate}")
    return paths, lacking


def pages():
    """The manual pages of what dist/ has."""
    names = [f"{it}.1" for it in programs.SHIPPED.values()]
    return [f"docs/man/{it}" for it in names if os.path.isfile(f"{TOP}/docs/man/{it}")]


def completions():
    """The files of completions, each with its shell and the name that the shell looks for."""
    found = []
    for name in programs.SHIPPED.values():
        for path, shell, file in (
            ("hiuskero.bash", "bash", name),
            (f"_{name}", "zsh", f"_{name}"),
            (f"{name}.fish", "fish", f"{name}.fish"),
        ):
            if os.path.isfile(f"{TOP}/docs/completions/{path}"):
                found.append((f"docs/completions/{path}", shell, file))
    # what fish reads when it starts, for `cargo config2`
    return [*found, ("docs/completions/conf.fish", "fishconf", "cargo-config2.fish")]


def read(path):
    """The bytes of a file of this repository."""
    with open(f"{TOP}/{path}", "rb") as file:
        return file.read()


def squeezed(content):
    """The bytes as gzip packs them, with no time and no name."""
    return gzip.compress(content, 9, mtime=0)


def installed(folders, programs_at, library, prefix, squeeze=False):
    """The files to install: of each its path, its bytes and its mode.

    `folders` has the folders for `bin`, `man`, `bash`, `zsh`, `fish`, `fishconf`, `include`, `lib` and `pkgconfig`; `programs_at` the path of each
    program by crate, `library` that of libcc2.a. `prefix` is the folder that cc2.pc names. With `squeeze` manual pages are packed."""
    for crate, name in programs.SHIPPED.items():
        with open(programs_at[crate], "rb") as file:
            yield f"{folders['bin']}/{name}", stripped(file.read()), 0o755
    for page in pages():
        name = os.path.basename(page)
        packed = f"{folders['man']}/{name}.gz", squeezed(read(page)), 0o644
        yield packed if squeeze else (f"{folders['man']}/{name}", read(page), 0o644)
    for path, shell, name in completions():
        yield f"{folders[shell]}/{name}", read(path), 0o644
    yield f"{folders['include']}/cc2.h", read(programs.HEADER), 0o644
    with open(library, "rb") as file:
        yield f"{folders['lib']}/libcc2.a", file.read(), 0o644
    below = {it: "${prefix}" + escaped(folders[it].removeprefix(prefix)) for it in ("lib", "include")}
    yield f"{folders['pkgconfig']}/cc2.pc", os.fsencode(pkg_config(escaped(prefix), below["lib"], below["include"])), 0o644
