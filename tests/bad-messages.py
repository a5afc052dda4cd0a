#!/usr/bin/env python3
"""Bytes that are no control message, each in a write of its own: on a process that runs and on one that stands, to ctl
and to lwpctl. With the word `write` it makes the scenarios of cases/hostile/bad-messages-*.in anew. Without it, it
looks at what the proved program, or the one that is named, writes of them: each write is answered by EINVAL and adds
its entry alone, and what is read before the first of them is read after the last one too: status, memory and areas, the
marks and sets among it that a message would have changed. A script cannot write no bytes at all; a test of
pr_words_tests reads them. The last line is 'N passed, M failed'.
"""
import os
import subprocess
import sys

from checks import PROVED, TOP, Checks

# The first place of a program's data.
DATA = 0x80000


def words(*numbers):
    """Their bytes, 8 for each, the least first, in hex."""
    return b"".join(number.to_bytes(8, "little") for number in numbers).hex()


TABLE = [
    ("fewer than 8 bytes", ["00000000000000", "02"]),
    ("codes that are none: 0, 24, and PCDSTOP with a high byte", [words(0), words(24), "0200000000000001"]),
    ("fewer bytes than the message has", [words(5), words(12) + "000000000000"]),
    ("PCRUN of flag 32, PCSET and PCUNSET of mode 16", [words(5, 32), words(16, 16), words(17, 16)]),
    ("PCTWSTOP of 1,000,000,001 milliseconds", [words(4, 1_000_000_001)]),
    ("PCSSIG of signal 40, PCKILL of 0 and of 40, PCUNKILL of 9",
     [words(8, 40), words(9, 0), words(9, 40), words(10, 9)]),
    ("sets with a number past their table: signal 40 in two, fault 9, call 32 in two",
     [words(11, 1 << 39), words(12, 1 << 39), words(13, 1 << 8), words(14, 1 << 31), words(15, 1 << 31)]),
    ("PCWATCH: no bytes, with flags; an end past 2^64; TRAPAFTER alone; flag 16",
     [words(20, DATA, 0, 1), words(20, 2**64 - 8, 16, 1), words(20, DATA, 1, 8), words(20, DATA, 1, 16)]),
    ("PCREAD of 0 bytes and of 4,097; PCWRITE of 0 bytes, and of 4,097 that are not there",
     [words(22, DATA, 0), words(22, DATA, 4097), words(23, DATA, 0), words(23, DATA, 4097)]),
    ("PCWRITE of 1 byte: without it, and with padding that is not zero",
     [words(23, DATA, 1), words(23, DATA, 1) + "4100000000000001"]),
]

PROGRAM = """turns 90
program p
text word "aa"
again:
nop
jmp again
end
spawn p
script
"""

# What is read before the bad messages, and after them.
READS = ["read s 0 368", "read m 0x%x 8" % DATA, "read w 0 24"]


def scenario(stands, file):
    """The scenario of a process that stands or runs, whose file takes the messages."""
    lines = ["open c 1 ctl w" if file == "ctl" else "open c 1/1 lwpctl w"]
    lines += ["open s 1 status r", "open m 1 as r", "open w 1 watch r"] + ["write c stop"] * stands
    lines += READS
    for comment, messages in TABLE:
        lines += ["# " + comment] + ["write c raw " + message for message in messages]
    lines += READS
    head = "# Each way in which bytes begin with no message, in writes to %s of a process that %s: EINVAL, and no more."
    head %= file, "stands" if stands else "runs"
    # The process does not move while the messages are written: the schedule has it move first, and then the script.
    order = "schedule 1/1*3 c0*5 1/1 c0*60" if stands else "schedule 1/1*3 c0*60"
    return "\n".join([head] + [PROGRAM + "\n".join(lines), "end", order, ""])


def cases():
    for stands in False, True:
        for file in "ctl", "lwpctl":
            name = "bad-messages-%s-%s" % ("standing" if stands else "running", file)
            yield os.path.join(TOP, "cases/hostile", name + ".in"), scenario(stands, file)


def wrong_with(history):
    """What is wrong with the history of a case."""
    calls = [line.split(" ", 1)[1] for line in history if " c0 " in line]
    bad = [message for _, messages in TABLE for message in messages]
    first = next((k for k, call in enumerate(calls) if call.startswith("c0 ctl 0 %s ->" % bad[0])), None)
    if first is None:
        return "no bad message"
    answers = calls[first:first + len(bad)]
    wanted = ["c0 ctl 0 %s -> fail EINVAL" % message for message in bad]
    if answers != wanted:
        return "%s" % [answer for answer in answers if answer not in wanted]
    before, after = calls[first - len(READS):first], calls[first + len(bad):first + len(bad) + len(READS)]
    if before != after or not all("-> bytes" in call for call in before[:2]):
        return "%s, and not %s" % (after, before)
    places = [int(line.split()[0]) for line in history if " c0 " in line]
    places = places[first - len(READS):first + len(bad) + len(READS)]
    return None if places == list(range(places[0], places[0] + len(places))) else "another entry between them"


def main():
    if sys.argv[1:] == ["write"]:
        for path, text in cases():
            with open(path, "w") as file:
                file.write(text)
        return
    program = sys.argv[1] if len(sys.argv) > 1 else PROVED
    checks = Checks()
    for path, text in cases():
        with open(path) as file:
            checks.check(path + " is the one that is made here", file.read() != text and "another text")
        ran = subprocess.run([program, "run"], input=text.encode(), capture_output=True)
        checks.check(path, wrong_with(ran.stdout.decode().splitlines()))
    checks.end()


if __name__ == "__main__":
    main()
