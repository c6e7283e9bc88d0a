"""Puts files in their places: all of them, or none."""
import contextlib
import os
import stat
import tempfile


@contextlib.contextmanager
def about(path):
    """Errors of the system name this path, and no other."""
    try:
        yield
    except OSError as error:
        raise OSError(error.errno, error.strerror, path) from error


def kept_beside(path, content, mode):
    """Writes a file under a new name in the folder of a path, and gives that name. No file or link that is there is opened."""
    handle, name = tempfile.mkstemp(prefix=f".{os.path.basename(path)}.", dir=os.path.dirname(path) or ".")
    try:
        with open(handle, "wb") as file:
            os.fchmod(handle, mode)
            file.write(content)
    except BaseException:
        quietly(os.remove, name)
        raise
    return name


def write(path, content, mode=0o644):
    """Writes a file anew, with its mode."""
    with about(path):
        name = kept_beside(path, content, mode)
        try:
            os.replace(name, path)
        except BaseException:
            quietly(os.remove, name)
            raise


def content_of(path):
    """The bytes of a file; none where something else is there, or nothing."""
    try:
        if not stat.S_ISREG(os.stat(path).st_mode):
            return None
        with open(path, "rb") as file:
            return file.read()
    except FileNotFoundError:
        return None


def is_same(path, content, mode):
    """Whether a file is there with this content and this mode, and not by a link."""
    return not os.path.islink(path) and content_of(path) == content and os.stat(path).st_mode & 0o777 == mode


class Placing:
    """Files on their way to their places."""

    def __init__(self):
        self.folders, self.waiting, self.put = [], [], []

    def __enter__(self):
        return self

    def __exit__(self, kind, *_):
        self.take_back() if kind else self.forget()

    def add(self, path, content, mode):
        """Writes a file under another name beside its place, and makes the folders above."""
        self.make(os.path.dirname(path))
        with about(path):
            self.waiting.append((kept_beside(path, content, mode), path))

    def make(self, folder):
        """Makes a folder and those above it, where they aren't there."""
        if not os.path.isdir(folder):
            self.make(os.path.dirname(folder))
            os.mkdir(folder)
            self.folders.append(folder)

    def finish(self):
        """Gives all files their names. What was there gets another one until the end."""
        while self.waiting:
            name, path = self.waiting[0]
            old = f"{name}.old" if os.path.lexists(path) else None
            with about(path):
                if old:
                    os.rename(path, old)
                self.put.append((path, old))
                os.rename(name, path)
            self.waiting.pop(0)

    def take_back(self):
        """Puts back what was there, and removes the rest."""
        for path, old in reversed(self.put):
            quietly(os.replace, old, path) if old else quietly(os.remove, path)
        for name, _ in self.waiting:
            quietly(os.remove, name)
        for folder in reversed(self.folders):
            quietly(os.rmdir, folder)

    def forget(self):
        """Removes what was replaced."""
        for _, old in self.put:
            if old:
                quietly(os.remove, old)


def quietly(do, *words):
    """Does it, and goes on where it fails."""
    try:
        do(*words)
    except OSError:
        pass
