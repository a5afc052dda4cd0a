#!/usr/bin/env python3
"""How many calls and replies a second a client in Python makes over a pipe, one by one: reads of a status by the client's
module, and the same as bare lines. For 2,000, 6,000 and 20,000 calls; with the ratio of the times to that of the first size,
and the memory of pdrive.

    bench/calls.py [PDRIVE]"""
import os
import subprocess
import sys
import time
from pathlib import Path

TOP = Path(__file__).resolve().parents[1]
PDRIVE = sys.argv[1] if len(sys.argv) > 1 else str(TOP / "crates/pdrive/out/pdrive")
os.environ["PDRIVE"] = PDRIVE
sys.path.insert(0, str(TOP / "clients/python"))

from pdrive import Session  # noqa: E402

SCENARIO = "turns 100000\nprogram s\nsys pause\nend\n"


def memory_of(pid):
    """The most memory that a process has had, in KiB."""
    lines = Path("/proc/%d/status" % pid).read_text().splitlines()
    return int(next(line.split()[1] for line in lines if line.startswith("VmHWM")))


def bare(count):
    """Seconds of so many calls, and the memory of pdrive."""
    made = subprocess.Popen([PDRIVE, "-q"], stdin=subprocess.PIPE, stdout=subprocess.PIPE)
    made.stdin.write((SCENARIO + "%calls\nspawn s held\nopen 1 status r\n").encode())
    made.stdin.flush()
    made.stdout.readline(), made.stdout.readline()
    start = time.perf_counter()
    for _ in range(count):
        made.stdin.write(b"read 0 0 368\n")
        made.stdin.flush()
        made.stdout.readline()
    seconds = time.perf_counter() - start
    memory = memory_of(made.pid)
    made.stdin.close()
    made.stdout.read()
    made.wait()
    return seconds, memory


def decoded(count):
    """Seconds of so many statuses, each read and decoded."""
    with Session(SCENARIO) as session:
        process = session.spawn("s", held=True)
        process.status()
        start = time.perf_counter()
        for _ in range(count):
            process.status()
        return time.perf_counter() - start


def main():
    first = {}
    for count in (2000, 6000, 20000):
        seconds, memory = bare(count)
        for what, took in (("bare lines", seconds), ("decoded statuses", decoded(count))):
            first.setdefault(what, took)
            print("%d %s: %.3f s, %d a second, ratio %.2f of %.2f" % (
                count, what, took, count / took, took / first[what], count / 2000), flush=True)
        print("%d bare lines: %d KiB" % (count, memory))


if __name__ == "__main__":
    main()
