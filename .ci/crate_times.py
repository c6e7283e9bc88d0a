"""How much processor time the proof of each crate takes, as far as `/proc` shows it while `rt ci` runs."""
import os
import re
import threading
import time

# Every so many seconds the processes are looked at. What a crate used after the last look is not seen.
SECONDS = 1.0
TICKS = os.sysconf("SC_CLK_TCK")
NAME = re.compile(rb"\0--crate-name\0(\w+)\0")


def stat_of(pid):
    """The parent of a process, the seconds of processor time that it used, and those with the children that it waited for; None where it ended."""
    try:
        with open(f"/proc/{pid}/stat", encoding="ascii", errors="replace") as file:
            fields = file.read().rpartition(")")[2].split()
    except (OSError, IndexError):
        return None
    user, system, of_children, system_of_children = (int(field) / TICKS for field in fields[11:15])
    return int(fields[1]), user + system, user + system + of_children + system_of_children


def crate_of(pid):
    """The crate that a process of `rattle` checks or builds, if it is one."""
    try:
        with open(f"/proc/{pid}/cmdline", "rb") as file:
            found = NAME.search(file.read())
    except OSError:
        return None
    return found[1].decode() if found else None


class CrateTimes:
    """Looks at the processes below `rt ci` from the first line of it until it is stopped."""

    def __init__(self):
        self.root = None
        self.begun = time.monotonic()
        self.used = {}
        self.done = {}
        self.is_over = threading.Event()
        self.looking = None

    def watch(self, pid):
        """Begins to look at what this process starts."""
        if self.looking is None:
            self.root = pid
            self.looking = threading.Thread(target=self.look_often, daemon=True)
            self.looking.start()

    def ended(self, crate):
        """Notes that a crate is done."""
        self.done.setdefault(crate, time.monotonic() - self.begun)

    def stop(self):
        """Looks no more."""
        self.is_over.set()
        if self.looking is not None:
            self.looking.join()

    def rows(self):
        """Each crate with the seconds that it used, and the seconds by the clock after which it was done, the dearest first."""
        used = {}
        for (crate, _), seconds in self.used.items():
            used[crate] = used.get(crate, 0) + seconds
        return sorted(((crate, seconds, self.done.get(crate, 0)) for crate, seconds in used.items()), key=lambda row: -row[1])

    def look_often(self):
        """Looks until it is stopped."""
        while not self.is_over.wait(SECONDS):
            self.look()

    def look(self):
        """Adds up what each crate's processes have used: the first one of a crate with the children that it waited for, and those that still run."""
        seen = {}
        for name in os.listdir("/proc"):
            if name.isdigit() and (stat := stat_of(name)):
                seen[int(name)] = stat
        crates = {pid: crate_of(pid) for pid in seen if self.is_below_root(pid, seen)}
        now = {}
        for pid, crate in crates.items():
            if crate is None:
                continue
            first = pid
            while crates.get(seen[first][0]) == crate:
                first = seen[first][0]
            now[crate, first] = now.get((crate, first), 0) + seen[pid][2]
        for key, seconds in now.items():
            self.used[key] = max(self.used.get(key, 0), seconds)

    def is_below_root(self, pid, seen):
        """Whether the process was started by `rt ci`, or by what that started."""
        while pid in seen and pid != self.root:
            pid = seen[pid][0]
        return pid == self.root
