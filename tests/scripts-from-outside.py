#!/usr/bin/env python3
"""Each scenario of examples/ and cases/ whose last controller is a script is driven from outside: the script is left out,
and pdrive is given its calls, line by line. The history is that of the scenario's run, which stands beside it.
Scenarios whose schedule names that script are left out: a session passes it over there, as pdrive(1) says.

    tests/scripts-from-outside.py [FILE ..]

PDRIVE names the program; else it is the one that the gate has built."""
import glob
import os
import re
import subprocess
import sys

from checks import TOP, Checks, program_of

PDRIVE = program_of("pdrive")
SIGNALS = ("HUP INT QUIT ILL TRAP ABRT EMT FPE KILL BUS SEGV SYS PIPE ALRM TERM USR1 USR2 CLD PWR WINCH URG POLL STOP "
           "TSTP CONT TTIN TTOU VTALRM PROF XCPU XFSZ RT0 RT1 RT2 RT3 RT4 RT5 RT6 RT7").split()
NO_HANDLE = 4294967295
# In the run of these the clock goes on in the round behind a call, since the script's next call waits for a moment; driven
# from outside it goes on a round later.
CLOCK_GOES_ON = {"cases/limits/a-write-that-sleeps.in", "cases/truss/mix017.in"}


def names_last(lines, last):
    """Whether a schedule has the last controller: where that is driven from outside the schedule passes it over."""
    schedules = [re.split(r"[,\s]+", line.split("#")[0]) for line in lines if line.split()[:1] == ["schedule"]]
    return any(re.match(r"c%d(\*|$)" % last, word) for words in schedules for word in words)


def parts(text):
    """A scenario without its last controller, and the lines of that, if it is a script; else None."""
    lines = text.splitlines()
    heads = [at for at, line in enumerate(lines) if re.match(r"\s*(script|truss|tool|gcore|apfiles)\b", line)]
    if names_last(lines, len(heads) - 1):
        return None
    if not heads or lines[heads[-1]].split("#")[0].split() != ["script"]:
        return None
    first = heads[-1]
    last = next((at for at in range(first, len(lines)) if lines[at].split()[:1] == ["end"]), None)
    if last is None:
        return None
    script = [line.split(" #")[0].strip() for line in lines[first + 1: last]]
    return "\n".join(lines[:first] + lines[last + 1:]) + "\n", [line for line in script if line and line[0] != "#"]


def number(word):
    return str(int(word, 0))


class Session:
    """A session with pdrive."""

    def __init__(self, scenario):
        self.pipe = subprocess.Popen([PDRIVE], stdin=subprocess.PIPE, stdout=subprocess.PIPE)
        self.handles = {}
        self.send(scenario + "%calls\n")

    def send(self, text):
        self.pipe.stdin.write(text.encode("latin-1"))
        self.pipe.stdin.flush()

    def ask(self, line):
        """The replies to a line: an empty move behind it tells where they end."""
        self.send(line + "\nmoves 0\n")
        replies = []
        while not replies or not replies[-1].startswith("at "):
            said = self.pipe.stdout.readline().decode()
            if not said:
                raise ValueError("it ended at: " + line)
            replies.append(said.rstrip("\n"))
        return replies[:-1]

    def handle(self, name):
        return str(self.handles.get(name, NO_HANDLE))

    def line_of(self, words):
        """The line of pdrive for the words of a line of a script."""
        head, rest = words[0], words[1:]
        if head == "open":
            return " ".join(["open", re.sub("/0$", "", rest[1])] + rest[2:])
        if head == "write":
            return " ".join(["ctl", self.handle(rest[0])] + rest[1:])
        if head == "read":
            return " ".join(["read", self.handle(rest[0])] + [number(word) for word in rest[1:]])
        if head in ("close", "poll"):
            return " ".join([head] + [self.handle(name) for name in rest])
        if head == "kill":
            signal = str(SIGNALS.index(rest[1]) + 1) if rest[1] in SIGNALS else number(rest[1])
            return "kill %s %s" % (number(rest[0]), signal)
        if head in ("until", "interrupt"):
            return "%s %s" % (head, number(rest[0]))
        return " ".join(words)

    def drive(self, script):
        for line in script:
            words = line.split()
            replies = self.ask(self.line_of(words))
            if words[0] == "open":
                opened = replies[0].startswith("handle ")
                self.handles[words[1]] = int(replies[0].split()[1]) if opened else NO_HANDLE
            if replies[-1:] == ["never"]:
                break

    def end(self):
        self.ask("moves 100000")
        self.send("%end\n")
        self.pipe.stdin.close()
        return self.pipe.stdout.read().decode()


def history_in(text):
    """The entries of what a run writes."""
    lines = text.splitlines()
    at = next((place for place, line in enumerate(lines) if re.fullmatch(r"history \d+", line)), None)
    return None if at is None else lines[at: at + 1 + int(lines[at].split()[1])]


def wrong_of(path):
    """What differs; None where the scenario is of another kind."""
    out = re.sub(r"\.in$", ".out", path)
    divided = parts(open(path, encoding="latin-1").read())
    if divided is None or not os.path.exists(out):
        return None
    wanted = history_in(open(out, encoding="latin-1").read())
    if wanted is None:
        return None
    session = Session(divided[0])
    try:
        session.drive(divided[1])
        made = history_in(session.end())
    except (ValueError, IndexError, OSError) as error:
        session.pipe.kill()
        return repr(error)
    at = next((n for n, (a, b) in enumerate(zip(made, wanted)) if a != b), min(len(made), len(wanted)))
    return "" if made == wanted else "line %d: %s, and not %s" % (at, made[at: at + 1], wanted[at: at + 1])


def main():
    checks = Checks()
    paths = sys.argv[1:] or sorted(glob.glob(TOP + "/examples/*.in") + glob.glob(TOP + "/cases/**/*.in", recursive=True))
    for path in paths:
        name = os.path.relpath(path, TOP)
        wrong = None if name in CLOCK_GOES_ON else wrong_of(path)
        if wrong is not None:
            checks.check(name, wrong)
    checks.end()


if __name__ == "__main__":
    main()
