#!/usr/bin/env python3
"""Random sessions with pdrive: each is made twice, and gives the same history; each reply is that of its entry; a line
that is refused adds none; and `proclab check` calls each history legal, where a proclab is there.

    tests/sessions.py [COUNT [SEED]]

PDRIVE and PROCLAB name the programs; else they are those that the gate has built."""
import os
import random
import re
import subprocess
import sys

from checks import PROVED as PROCLAB, Checks, program_of

PDRIVE = program_of("pdrive")

PROGRAMS = """turns 400
file log ""
program w
text name "log"
set r1, name
set r2, 1
sys open
mov r4, r0
set r5, 6
set r6, 1
again:
mov r1, r4
set r2, name
set r3, 3
sys write
sub r5, r6
jnz r5, again
set r1, 3
sys exit
end
program f
sys fork
jz r0, child
set r1, 0
sys wait
set r1, 0
sys exit
child:
set r1, 4
sys sleep
set r1, 5
sys exit
end
"""

CONTROLLERS = ["", "truss -f w\n", "tool pwait 1\n", "script\nopen s 1 status r\nread s 0 368\nuntil 3\nclose s\nend\n"]

REFUSED = ["", "nonsense", "open 1 ctl", "open  1 ctl w", "ctl 0 xyz", "ctl x stop", "moves", "moves -1", "move 1",
           "read 0 0", "list -> done", "\xff\x00\x7f", "spawn", "kill 1", "poll x", "run now", "%end ", "0 c0 list"]


def random_line(dice, controllers):
    """A line, most of them calls about one of a few processes and handles."""
    pid, handle = dice.randint(0, 4), dice.randint(0, 5)
    return dice.choice([
        lambda: "open %d ctl %s" % (pid, dice.choice(["w", "wx", "r"])),
        lambda: "open %d %s r" % (pid, dice.choice(["status", "lstatus", "psinfo", "map", "usage", "fds", "as"])),
        lambda: "close %d" % handle,
        lambda: "read %d 0 %d" % (handle, dice.choice([8, 104, 368, 20480])),
        lambda: "ctl %d %s" % (handle, dice.choice(["stop", "dstop", "run", "sentry write", "strace INT run"])),
        lambda: "ctl %d %s" % (handle, dice.choice(["0200000000000000", "05000000000000000000000000000000", "ff"])),
        lambda: "ctlwait %d %d 0300000000000000" % (handle, dice.randint(1, 9)),
        lambda: "poll %s" % " ".join(str(dice.randint(0, 5)) for _ in range(dice.randint(0, 3))),
        lambda: "spawn %s%s" % (dice.choice(["w", "f", "none"]), dice.choice(["", " held"])),
        lambda: "kill %d %d" % (pid, dice.choice([0, 2, 9, 15, 99])),
        lambda: "until %d" % dice.randint(0, 12),
        lambda: "interrupt %d" % dice.randint(0, controllers + 1),
        lambda: "list",
        lambda: "moves %d" % dice.randint(0, 20),
        lambda: "move %s" % dice.choice(["1/1", "2/1", "c0", "clock", "9/9"]),
        lambda: "run",
        lambda: dice.choice(REFUSED),
    ])()


def session(data):
    """What a session writes, and its status."""
    made = subprocess.run([PDRIVE], input=data, stdout=subprocess.PIPE, timeout=60)
    return made.stdout.decode("latin-1"), made.returncode


def split(out):
    """The replies, and the lines of the history with the status."""
    lines = out.splitlines()
    at = max(place for place, line in enumerate(lines) if re.fullmatch(r"history \d+", line))
    return lines[:at], lines[at:]


def wrong_replies(replies, entries, outside):
    """Whether the replies to calls are not, in their order, those of the outside's entries."""
    own = [entry.split(" -> ", 1)[1] for entry in entries if entry.split(" ", 2)[1] == "c%d" % outside]
    told = [line for line in replies if not re.match(r"\d+ |at \d+$|no$|never$|line \d+: ", line)]
    return "" if own == told else "replies %s, of the entries %s" % (told[:9], own[:9])


def judged(scenario, history):
    """What is wrong with a history, by check; nothing where there is no proclab."""
    if not os.access(PROCLAB, os.X_OK):
        return ""
    given = "%sscript\nend\n%%history\n%s\n" % (scenario, "\n".join(history))
    said = subprocess.run([PROCLAB, "check"], input=given.encode("latin-1"), stdout=subprocess.PIPE, timeout=60)
    return "" if said.returncode == 0 else said.stdout.decode()


def try_one(dice):
    """What is wrong with a random session."""
    controllers = [text for text in CONTROLLERS if text and dice.random() < 0.3]
    scenario = PROGRAMS + "".join(controllers)
    lines = [random_line(dice, len(controllers)) for _ in range(dice.randint(0, 40))]
    data = (scenario + "%calls\n" + "".join(line + "\n" for line in lines)).encode("latin-1")
    out, status = session(data + b"%end\n")
    if out != session(data)[0]:
        return "another history without %end"
    replies, end = split(out)
    entries = end[1: int(end[0].split()[1]) + 1]
    if end[-1] != "status %d" % status:
        return "status %d, and told: %s" % (status, end[-1])
    refused = sum(1 for line in lines if line in REFUSED)
    if sum(1 for line in replies if re.match(r"line \d+: ", line)) < refused:
        return "a line that is none was not refused"
    return wrong_replies(replies, entries, len(controllers)) or judged(scenario, end)


def main():
    count = int(sys.argv[1]) if len(sys.argv) > 1 else 2000
    seed = int(sys.argv[2]) if len(sys.argv) > 2 else 1
    checks = Checks()
    for number in range(seed, seed + count):
        try:
            wrong = try_one(random.Random(number))
        except (subprocess.TimeoutExpired, ValueError, IndexError) as error:
            wrong = repr(error)
        checks.check("session %d" % number, wrong)
    checks.end()


if __name__ == "__main__":
    main()
