#!/usr/bin/env python3
"""Runs on several threads where the system makes fewer than they ask for: each of the first so many alone, and all later
ones refused, by a library that is compiled (`refused-threads.c`) and preloaded; and such in which each thread begins
late. Each run ends within its time, with the status and the text of its scenario, where these do not depend on the order
of moves, and else with those of a legal history: `check` judges it.

Each scenario is run by 2 and by 4 workers of the processor, or as --workers tells, once or as often as --times says; a run
that lacks a thread takes a second or two before it begins. PROCLAB names another program than the proved one, and WORKERS
tells how many runs there are at once. It needs a C compiler. The last line is 'N passed, M failed'.
"""
import argparse
import collections
import os
import struct
import subprocess
import tempfile
import time

from checks import PROVED, TOP, Checks, each, read
from sweeps import LENDINGS, MANY_THINGS, is_legal_front

# Two processes that never end by themselves, and for each a script that kills it: where its worker did not come to its
# turns, they would take all places of the history.
KILLS = """turns 30000
program p
again:
jmp again
end
spawn p
spawn p
script
open c 1 ctl w
until 2
write c stop
write c kill 9 run
close c
end
script
open c 2 ctl w
until 3
write c kill 9
close c
end
"""

EACH_ALONE, ALL_LATER, BEGIN_LATE = "one refused", "all later ones refused", "each begins late"
SECONDS = 600


class Case:
    """A scenario, how many controllers it has, and what it writes in any order of moves, where that is the same."""

    def __init__(self, name, data, controllers, text=None):
        self.name, self.data, self.controllers, self.text = name, data, controllers, text


def cases():
    alike = read("examples/truss-on-several-threads.in")
    yield Case("truss-on-several-threads", alike, 1, read("examples/truss-on-several-threads.out"))
    yield Case("many things", MANY_THINGS.encode(), 5)
    yield Case("lendings", LENDINGS.encode(), 4)
    yield Case("kills", KILLS.encode(), 2)


class Ran:
    """A run: its status or None, what it wrote, how many threads it asked for and was refused, and its seconds."""

    def __init__(self, library, words, data, refused, variables):
        with tempfile.NamedTemporaryFile() as counted:
            counted.write(bytes(16))
            counted.flush()
            env = {"LD_PRELOAD": library, "COUNTED": counted.name, "REFUSED": str(refused), **variables}
            began = time.monotonic()
            try:
                ran = subprocess.run([PROVED] + words, input=data, capture_output=True, timeout=SECONDS, env=env)
                self.status, self.out = ran.returncode, ran.stdout + ran.stderr
            except subprocess.TimeoutExpired:
                self.status, self.out = None, b""
            self.seconds = time.monotonic() - began
            with open(counted.name, "rb") as file:
                self.asked, self.refused = struct.unpack("qq", file.read())


def wrong_of(case, ran, threads, refused):
    """What is wrong with a run, if anything."""
    if ran.status is None:
        return "it did not end"
    if ran.asked != threads or ran.refused != refused:
        return "%d threads asked for, %d refused" % (ran.asked, ran.refused)
    if case.text is not None:
        return "" if (ran.status, ran.out) == (0, case.text) else "status %s, %d bytes" % (ran.status, len(ran.out))
    if ran.status not in (0, 3, 4) or not is_legal_front(case.data, ran.out, True):
        return "status %s, and no legal history" % ran.status
    return ""


def jobs_of(threads, times):
    """Which thread is refused, how many are, how the library is told so, and how the runs are called."""
    for _ in range(times):
        for number in range(1, threads + 1):
            yield number, 1, {}, EACH_ALONE
            yield number, threads - number + 1, {"ONWARDS": "1"}, ALL_LATER
        for late in "1", "20", "2000":
            yield 0, 0, {"LATE": late}, BEGIN_LATE


def tried(checks, library, case, workers, times):
    """One scenario with so many workers of the processor."""
    words = ["run", "-j", str(workers)] + (["-q"] if case.text is not None else [])
    threads = workers + case.controllers - 1
    jobs = list(jobs_of(threads, times))
    runs = each(lambda job: Ran(library, words, case.data, job[0], job[2]), jobs)
    wrong = ["%s, %d: %s" % (how, number, is_wrong) for (number, refused, _, how), ran in zip(jobs, runs)
             for is_wrong in [wrong_of(case, ran, threads, refused)] if is_wrong]
    slowest = max(ran.seconds for ran in runs)
    statuses = collections.Counter(ran.status for ran in runs)
    figures = "%d runs of %d workers, the longest took %.1f s; status %s" % (
        len(runs), threads + 1, slowest, ", ".join("%s %d times" % of for of in sorted(statuses.items(), key=str)))
    checks.check("%s, -j %d" % (case.name, workers), "; ".join(wrong[:5]), figures)
    return len(runs), slowest


def main():
    words = argparse.ArgumentParser()
    words.add_argument("--times", type=int, default=1)
    words.add_argument("--workers", type=int, nargs="+", default=[2, 4])
    asked_for = words.parse_args()
    checks, count, slowest = Checks(), 0, 0.0
    with tempfile.TemporaryDirectory() as room:
        library = os.path.join(room, "refuse-threads.so")
        source = os.path.join(TOP, "tests/refused-threads.c")
        subprocess.run(["cc", "-shared", "-fPIC", "-O2", "-o", library, source], check=True)
        for case in cases():
            for workers in asked_for.workers:
                runs, longest = tried(checks, library, case, workers, asked_for.times)
                count, slowest = count + runs, max(slowest, longest)
    print("%d runs; the longest took %.1f s" % (count, slowest))
    checks.end()


if __name__ == "__main__":
    main()
