#!/usr/bin/env python3
"""The gate. Its last line, 'N passed, M failed', sums up its steps; its status is 0 where nothing failed.

  .ci/run          takes all steps
  .ci/run --help   prints this text

The steps:

  rt ci                        proves every crate from nothing, and builds and runs the programs
  tests/library/run            runs the tests of crates, beside the last proofs where there is room
  tests/wrong-bodies --gate    tries a sample of wrong bodies, and beside it:
    tests/house                counts crates, pages, long lines and the like: none may grow
    ./test --built             runs the rows and scripts of tests/ with the programs that rt ci built
  dist/check                   compares the files of dist/ with what these sources give

At the end it prints how long each step and each crate took: minutes of processor time, and by the clock. docs/CONTRIBUTING.md
has these of a run from nothing with nothing beside it.
"""
import concurrent.futures
import os
import re
import subprocess
import sys
import threading
import time

sys.dont_write_bytecode = True
TOP = os.path.dirname(os.path.dirname(os.path.realpath(__file__)))
sys.path.insert(0, f"{TOP}/.ci")
import crate_times  # noqa: E402

COUNTED = re.compile(r"^(\d+) passed, (\d+) failed$")
CRATE_ENDED = re.compile(r"^rt: (\w+) (proved|NOT PROVED|is kept)")
LISTED = re.compile(r"^\w+(?: staticlib)?:", re.M)
PROOFS = ["rt", "ci"]
# The last crates wait for one another and leave processors idle: this is begun when that one is done, where there is room.
BESIDE_PROOFS = ["tests/library/run"]
BEGUN_AFTER = "cargo_config2"
# So many bytes a proof or a step beside others may take.
ROOM = 6_000_000_000
AVAILABLE = re.compile(r"^MemAvailable: +(\d+) kB$", re.M)
# Steps that run side by side are in one list.
STEPS = [
    [["tests/wrong-bodies", "--gate"], ["tests/house"], ["./test", "--built"]],
    [["dist/check"]],
]


def has_room(steps):
    """Whether so many steps find processors and memory now."""
    with open("/proc/meminfo", encoding="ascii") as file:
        found = AVAILABLE.search(file.read())
    return len(os.sched_getaffinity(0)) > steps and found is not None and int(found[1]) * 1024 > steps * ROOM


class Step:
    """A command, what it counted, and how long it took."""

    def __init__(self, words):
        self.words = words
        self.name = " ".join(words)
        self.passed, self.failed = 0, 1
        self.processor = self.clock = 0.0

    def run(self, line_came):
        """Runs it and calls `line_came` with each line. One that counts nothing has failed once, and so has one that counts no failure and ends badly."""
        counted = None
        begun = time.monotonic()
        with subprocess.Popen(self.words, cwd=TOP, stdout=subprocess.PIPE, stderr=subprocess.STDOUT, text=True, errors="replace") as running:
            for line in running.stdout:
                counted = COUNTED.match(line) or counted
                line_came(line, running.pid)
            # so that the time of this child alone is known
            _, status, used = os.wait4(running.pid, 0)
            running.returncode = os.waitstatus_to_exitcode(status)
        self.clock = time.monotonic() - begun
        self.processor = used.ru_utime + used.ru_stime
        if counted:
            self.passed, self.failed = int(counted[1]), int(counted[2])
            if self.failed == 0 and running.returncode:
                self.failed = 1


PRINTING = threading.Lock()


def run_proofs(proofs, beside, crates):
    """Runs `rt ci` and prints its lines as they come, with how many crates are left; and the other step beside it, from one of the crates on."""
    with open(f"{TOP}/crates.txt", encoding="utf-8") as file:
        count = len(LISTED.findall(file.read()))
    begun = time.monotonic()
    ended = set()
    other = threading.Thread(target=run_quietly, args=[beside])

    def line_came(line, pid):
        crates.watch(pid)
        with PRINTING:
            print(line, end="", flush=True)
        found = CRATE_ENDED.match(line)
        if found:
            ended.add(found[1])
            crates.ended(found[1])
            minutes = int((time.monotonic() - begun) / 60)
            with PRINTING:
                print(f".ci/run: {len(ended)} of {count} crates are done after {minutes} minutes, {count - len(ended)} are left", flush=True)
            if found[1] == BEGUN_AFTER and other.ident is None and has_room(2):
                other.start()

    proofs.run(line_came)
    if other.ident is None:
        other.start()
    other.join()


def run_quietly(step):
    """Runs a step, and prints its lines when it has ended."""
    lines = []
    step.run(lambda line, pid: lines.append(line))
    with PRINTING:
        print(f"== {step.name}\n{''.join(lines)}", end="", flush=True)


def print_times(steps, crates, clock):
    """Prints what steps and crates took."""
    print("\nminutes of processor time, minutes by the clock")
    for step in steps:
        print(f"  {step.processor / 60:6.1f} {step.clock / 60:6.1f}  {step.name}")
    print(f"  {sum(step.processor for step in steps) / 60:6.1f} {clock / 60:6.1f}  .ci/run")
    rows = crates.rows()
    if rows:
        print("\nof rt ci, by crate: minutes of processor time, and the minute by the clock at which it was done")
        for name, processor, ended in rows:
            print(f"  {processor / 60:6.1f} {ended / 60:6.1f}  {name}")
        rest = steps[0].processor - sum(processor for _, processor, _ in rows)
        print(f"  {rest / 60:6.1f}         the rest: building and running the programs, and what was not seen")
    print()


def main(words):
    """Takes the steps."""
    if words:
        print(__doc__)
        return 0 if words == ["--help"] else 2
    print(__doc__.partition("The steps:\n\n")[2].partition("At the end")[0], end="", flush=True)
    begun = time.monotonic()
    crates = crate_times.CrateTimes()
    steps = [Step(PROOFS), Step(BESIDE_PROOFS)]
    run_proofs(*steps, crates)
    for side_by_side in STEPS:
        now = [Step([*step, "--jobs", "2"] if step[0] == "tests/wrong-bodies" and has_room(2) else step) for step in side_by_side]
        steps += now
        with concurrent.futures.ThreadPoolExecutor(len(now)) as pool:
            list(pool.map(run_quietly, now))
    crates.stop()
    print_times(steps, crates, time.monotonic() - begun)
    failed = sum(step.failed for step in steps)
    print(f"{sum(step.passed for step in steps)} passed, {failed} failed")
    return 1 if failed else 0


if __name__ == "__main__":
    sys.exit(main(sys.argv[1:]))
