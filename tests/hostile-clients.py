#!/usr/bin/env python3
"""Clients of pdrive that do not behave: one that ends in the middle of a line, one that stops reading, lines of a MiB, bytes
that are no text, a client that waits for each reply. Each session ends, with the status and the replies that pdrive(1) says.

    tests/hostile-clients.py

PDRIVE names the program; else it is the one that the gate has built."""
import random
import subprocess
import sys

from checks import Checks, program_of

PDRIVE = program_of("pdrive")
SCENARIO = b"turns 200\nprogram l\na:\njmp a\nend\nspawn l\n%calls\n"
MIB = 1 << 20


def session(calls, words=(), seconds=60):
    """The replies and the end of a session with these bytes behind its scenario, and its status."""
    made = subprocess.run([PDRIVE, *words], input=SCENARIO + calls, stdout=subprocess.PIPE, timeout=seconds)
    lines = made.stdout.split(b"\n")
    at = next((n for n, line in enumerate(lines) if line.startswith((b"history ", b"status "))), len(lines))
    return lines[:at], lines[at:], made.returncode


def replies_are(calls, wanted, status=0):
    """What is wrong with the replies to these bytes."""
    replies, end, code = session(calls)
    if replies != wanted:
        return "replies %r" % replies[:9]
    if code != status or end[-2:] != [b"status %d" % status, b""]:
        return "status %d, and %r" % (code, end[-2:])
    return ""


def cut_short(line):
    """A client that ends in the middle of a line: what there is of the line is read as a line."""
    for size in range(len(line)):
        replies, end, code = session(b"list\n" + line[:size])
        known = [b"bytes", b"handle", b"used", b"line"]
        if len(replies) != (2 if size else 1) or replies[-1].split(b" ")[0] not in known or code != 0:
            return "cut behind %d bytes: %r, status %d" % (size, replies, code)
    return ""


def stops_reading():
    """A client that closes its end while replies still come: the program ends, as one whose write failed."""
    made = subprocess.Popen([PDRIVE], stdin=subprocess.PIPE, stdout=subprocess.PIPE)
    made.stdout.close()
    try:
        made.stdin.write(SCENARIO + b"list\n" * 20)
        made.stdin.close()
    except BrokenPipeError:
        pass
    code = made.wait(60)
    return "" if code == 6 else "status %d" % code


def stops_writing():
    """A client that closes its end at once, before the scenario is whole."""
    made = subprocess.run([PDRIVE], input=SCENARIO[:-9], stdout=subprocess.PIPE, timeout=60)
    return "" if (made.returncode, made.stdout) == (2, b"line 0: NoEnd\n") else "%d, %r" % (made.returncode, made.stdout)


def waits_for_each_reply(count):
    """A client that writes a line only when it has the reply to the line before: each comes at once."""
    made = subprocess.Popen([PDRIVE, "-q"], stdin=subprocess.PIPE, stdout=subprocess.PIPE)
    made.stdin.write(b"turns 1000\n%calls\n")
    for number in range(count):
        made.stdin.write(b"nonsense\n")
        made.stdin.flush()
        said = made.stdout.readline()
        if said != b"line %d: NoCall\n" % (number + 3):
            made.kill()
            return "reply %r" % said
    made.stdin.close()
    return "" if made.wait(60) == 0 else "it does not end well"


def any_bytes(dice):
    """Bytes that are no text: each line of them is refused by its number, and nothing else is answered."""
    lines = [bytes(dice.choice([0, 9, 32, 37, 128, 255, dice.randint(11, 255)]) for _ in range(dice.randint(1, 60)))
             for _ in range(dice.randint(1, 20))]
    replies, end, code = session(b"".join(line + b"\n" for line in lines))
    first = SCENARIO.count(b"\n") + 1
    wanted = [b"line %d: NoCall" % (first + n) for n in range(len(lines))]
    return "" if replies == wanted and code == 0 and end[0] == b"history 0" else "%r, status %d" % (replies[:3], code)


def main():
    checks = Checks()
    hex_of = lambda size: b"ctl 0 " + b"00" * size + b"\n"
    checks.check("cut calls", cut_short(b"open 1 ctl w"))
    checks.check("a client that stops reading", stops_reading())
    checks.check("a client that stops writing", stops_writing())
    checks.check("a client that waits for each reply", waits_for_each_reply(500))
    checks.check("a line of a MiB", replies_are(b"x" * MIB + b"\nuntil 0\n", [b"line 8: NoCall", b"done"]))
    checks.check("a line past a MiB", replies_are(b"x" * (MIB + 1) + b"\nuntil 0\n", [b"line 8: TooLong", b"done"]))
    checks.check("five lines past a MiB", replies_are((b"y" * 2 * MIB + b"\n") * 5, [b"line %d: TooLong" % n for n in range(8, 13)]))
    checks.check("a message of half a MiB", replies_are(hex_of(MIB // 2 - 3), [b"fail EBADF"]))
    checks.check("a line of blanks", replies_are(b" " * MIB + b"\n", [b"line 8: NoCall"]))
    checks.check("an end of a line of another system", replies_are(b"list\r\n", [b"line 8: NoCall"]))
    for number in range(40):
        checks.check("bytes %d" % number, any_bytes(random.Random(number)))
    checks.end()


if __name__ == "__main__":
    main()
