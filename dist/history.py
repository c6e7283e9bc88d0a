"""What dist/ had in earlier commits: two programs that answer differently must not have the same version."""
import os
import re
import subprocess
import sys

sys.dont_write_bytecode = True
sys.path.insert(0, os.path.join(os.path.dirname(os.path.realpath(__file__)), "..", "tests"))
import programs  # noqa: E402

FOLDER = os.path.relpath(programs.DIST, programs.TOP)
LIBRARY = "libcc2.a"
# what answers, and so has a version
NAMES = (*programs.SHIPPED.values(), LIBRARY)


class Unknown(Exception):
    """Why there is no history to look at."""


def git(*words):
    """What git prints."""
    try:
        said = subprocess.run(["git", "-C", programs.TOP, *words], stdin=subprocess.DEVNULL, capture_output=True, text=True, check=True)
        return said.stdout
    except (OSError, subprocess.CalledProcessError):
        raise Unknown("there is no history of git") from None


def versions(sources, pkg_config):
    """The version and the checksum of each of NAMES, by the texts of SOURCES and of cc2.pc. The library's version is that of cc2.pc."""
    sums = {name: content for content, name in re.findall(r"(?m)^file (\S+) \d+ (\S+)$", sources)}
    version = dict.fromkeys(NAMES, "".join(re.findall(r"(?m)^version (\S+)$", sources)))
    version[LIBRARY] = "".join(re.findall(r"(?m)^Version: (\S+)$", pkg_config))
    return {name: (version[name], sums.get(name)) for name in NAMES}


def committed():
    """For each commit that changed dist/, the newest first, its short name and what `versions` says of it.

    Raises Unknown where there is no history, or only its end."""
    if git("rev-parse", "--is-shallow-repository").strip() != "false":
        raise Unknown("this clone has only the end of the history")
    if os.path.realpath(git("rev-parse", "--show-toplevel").strip()) != programs.TOP:
        raise Unknown("there is no history of git")
    for commit in git("log", "--format=%h", "--", f"{FOLDER}/SOURCES").split():
        try:
            yield commit, versions(*(git("show", f"{commit}:{FOLDER}/{name}") for name in ("SOURCES", "cc2.pc")))
        except Unknown:
            return  # dist/ had no such files yet


def changed():
    """For each of NAMES the first commit with the same version, where the file had other bytes then; none where it had the same ones."""
    with open(f"{programs.DIST}/SOURCES", encoding="utf-8") as sources, open(f"{programs.DIST}/cc2.pc", encoding="utf-8") as pkg_config:
        now = versions(sources.read(), pkg_config.read())
    first = {}
    open_ones = {*NAMES}
    for commit, then in committed():
        open_ones = {name for name in open_ones if then[name][0] == now[name][0]}
        first |= {name: commit if then[name] != now[name] else None for name in open_ones}
    return {name: (now[name][0], first.get(name)) for name in NAMES}
