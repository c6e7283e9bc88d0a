"""Where the tries of wrong bodies get the libraries below a crate: what `rt ci` left, what it kept, or built here."""
import os
import shutil

from wrong_edits import TOP
from wrong_trying import called, crates_at, kit

PARTS = ("src", "specs", "proofs")


def link(one, other):
    """Gives a file of a library a second name, also from another disk; rt replaces such files, and changes none."""
    try:
        os.link(one, other)
    except OSError:
        os.symlink(one, other)


def newest(crate):
    """When a file of a crate, or of one below it, was last written, or crates.txt."""
    times = [os.lstat(f"{TOP}/crates.txt").st_mtime]
    for it in [*crate.below(), crate]:
        for part in PARTS:
            for at, _, names in os.walk(f"{it.folder}/{part}"):
                times += [os.lstat(path).st_mtime for path in (at, *(f"{at}/{name}" for name in names))]
    return max(times)


def skipped(at, names):
    """What a copy of the crates leaves out."""
    return [it for it in names if it == "out" and os.path.dirname(at) == f"{TOP}/crates"]


class Libraries:
    """Copies of the crates, each with the libraries of one origin: a library fits those alone that it was built over."""

    def __init__(self, room, is_gate):
        self.room, self.is_gate = room, is_gate
        self.copies, self.found, self.times, self.store, self.given = {}, {}, {}, None, set()
        self.crates = crates_at(TOP)

    def below(self, crate):
        """A copy of the repository that has the libraries below this crate, and else why there is none: one of the two is nothing."""
        if crate not in self.found:
            origins = (self.left, self.built, self.kept, self.made)
            self.found[crate] = next((found for origin in origins if (found := origin(crate))), None) or (None, self.why(crate))
        return self.found[crate]

    def copy(self, origin):
        """The root of the copy for an origin, with its crates by name."""
        if origin not in self.copies:
            root = f"{self.room}/{origin}"
            os.makedirs(f"{root}/.git")
            shutil.copytree(f"{TOP}/crates", f"{root}/crates", ignore=skipped)
            for name in ("crates.txt", "HANDLES"):
                shutil.copyfile(f"{TOP}/{name}", f"{root}/{name}")
            self.copies[origin] = root, crates_at(root)
        return self.copies[origin]

    def taken(self, origin, crate):
        """The copy with the libraries that this checkout has below a crate."""
        root, crates = self.copy(origin)
        for it in self.crates[crate].below():
            if not os.path.isdir(crates[it.name].rlib):
                shutil.copytree(it.rlib, crates[it.name].rlib, copy_function=link)
        return root, ""

    def is_left(self, crate):
        """Whether `rt ci` left the library in this checkout, after all that it was made from was written."""
        if os.path.exists(f"{crate.folder}/out/rlib/stamp") or not os.path.isfile(f"{crate.rlib}/format"):
            return False
        if crate.name not in self.times:
            self.times[crate.name] = newest(crate)
        return os.lstat(crate.rlib).st_mtime >= self.times[crate.name]

    def left(self, crate):
        """From this checkout, where `rt ci` left them all."""
        return self.taken("left", crate) if all(map(self.is_left, self.crates[crate].below())) else None

    def built(self, crate):
        """From this checkout, where `rt lib` or `rt check` built them all."""
        return self.taken("built", crate) if all(it.is_built() for it in self.crates[crate].below()) else None

    def kept(self, crate):
        """From what the kit keeps beside it, by the sums of all that each was proved from; a kit may keep nothing."""
        rt = kit()
        if not hasattr(rt, "Kept"):
            return None
        root, crates = self.copy("kept")
        self.store = self.store or rt.Kept([*crates.values()])
        for it in crates[crate].below():
            if it.name not in self.given:
                if not self.store.give(it, False, self.store.key(it)):
                    return None
                # (the sums of those above count this one's)
                self.store.is_built(it)
                self.given.add(it.name)
        return root, ""

    def made(self, crate):
        """Built in a copy by `rt lib`, which proves each of them. In the gate only where no `rt ci` left any library."""
        below = self.crates[crate].below()
        if self.is_gate and any(os.path.isdir(it.rlib) for it in below) and not all(os.path.isdir(it.rlib) for it in below):
            return None
        root, crates = self.copy("made")
        print(f"no rt ci left or kept the libraries below {crate}: rt lib builds them, which is slow", flush=True)
        for it in crates[crate].below():
            status, lines = called(["rt", "lib"], cwd=it.folder)
            if status:
                print(*lines[-6:], sep="\n", flush=True)
                return None
        return root, ""

    def why(self, crate):
        """Why there is no library for a crate."""
        lacking = [it.name for it in self.crates[crate].below() if not self.is_left(it)]
        return f"there is no library {' '.join(lacking[:3])}{' ..' * (len(lacking) > 3)} of these sources: run rt ci in a clean clone"
