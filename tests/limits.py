#!/usr/bin/env python3
"""Inputs at their limits, by the built program: a scenario of exactly 1 MiB of each kind of line, and with a byte more;
one more of each thing than there may be; long runs; and `check` on inputs of up to 256 MiB, whose time grows as they do,
and whose memory is at most four times the input, whatever its lines are. What has a limit while a scenario runs
(processes, handles, lwps, areas, files, pipes, memory) is in cases/ and not here.

A word names another program than the proved one. Each line has what was measured; the last is 'N passed, M failed'.
"""
import sys

from checks import PROVED, Checks, run

TEXT = 1 << 20          # the bytes of a scenario, at most
LINE = 4096             # those of a line
INPUT = 256 << 20       # those of an input of check
TURNS = 100_000         # the entries of a history, at most

PAUSES = "program p\nsys pause\nend\nspawn p\n"     # comes to pause and sleeps, which is two entries
LOOPS = "program p\nagain:\njmp again\nend\nspawn p\n"


def filled(head, line, tail="", most=None):
    """A scenario of 1 MiB: the head, as many lines as there is room for, or so many, and the tail, and then comments. The
    line may have a %d, which counts. Gives the text and the number of lines."""
    lines, left = [], TEXT - len(head) - len(tail)
    while most is None or len(lines) < most:
        text = (line % len(lines) if "%d" in line or "%0" in line else line) + "\n"
        if len(text) > left:
            break
        lines.append(text)
        left -= len(text)
    comments = []
    while left > 0:
        size = min(left, LINE)
        comments.append("#" * (size - 1) + "\n")
        left -= size
    return head + "".join(lines) + tail + "".join(comments), len(lines)


def wide(text, size=LINE):
    """The line, with blanks up to a size."""
    return text + " " * (size - len(text))


def repeated(head, part, tail="", size=LINE):
    """A line of as many parts as it may have."""
    return head + part * ((size - len(head) - len(tail)) // len(part)) + tail


def script(line, opens=""):
    return "turns 100000\n" + PAUSES + "script\n" + opens, line, "end\n"


# Each kind of line: the head, the line, the tail, and how many there may be; and how many entries a line makes, from which
# follows the status, or None where it is 0 in any case. Words come in the forms that are longest, or most in number.
KINDS = {
    "comment": ("", "#" * LINE, "", None, None),
    "empty line": ("", "", "", None, None),
    "blank line": ("", " \t, ", "", None, None),
    "turns": ("turns 0x" + "0" * 4080 + "1\n", "#", "", None, None),
    "file": ("", 'file f%03d "' + "x" * (LINE - 13) + '"', "", 256, None),
    "file of escapes": ("", repeated('file f%03d "', "\\x00", '"', LINE - 1), "", 256, None),
    "program": ("", "program p%03d\n" + "nop\n" * 1019 + "end", "", 256, None),
    "instruction": ("program p\nhere:\n", wide("jlt r1, r2, here", 254), "end\n", 4096, None),
    "label": ("program p\n", "a%d:", "end\n", None, None),
    "label and jumps": ("program p\n" + "jmp a90000\n" * 4096, "a%d:", "end\n", None, None),
    "text": ("program p\n", wide('text t%04d ""', 126), "end\n", 8192, None),
    "space": ("program p\n", wide("space s%04d 8", 126), "end\n", 8192, None),
    "spawn": ("program p\nsys pause\nend\n", wide("spawn p", 254), "", 4095, None),
    "open": script("open v%d 1 as r") + (None, 1),
    "close": script("close v") + (None, 1),
    "read": script("read v 0x10000 20480", "open v 1 as r\n") + (None, 1),
    "write": script("write v dstop", "open v 1 ctl w\n") + (None, 1),
    "write of many": script(repeated("write v", " csig"), "open v 1 ctl w\n") + (None, 800),
    "write of raw": script(repeated("write v raw ", "00"), "open v 1 ctl w\n") + (None, 1),
    "poll": script(repeated("poll", " v")) + (None, 1),
    "interrupt": script("interrupt 0") + (None, 1),
    "kill": script("kill 1 0") + (None, 1),
    "until": script("until 0") + (None, 1),
    "list": script(wide("list", 254)) + (4096, 1),
    "spawn of a script": ("turns 100000\nprogram p\nend\nscript\n", wide("spawn p held", 254), "end\n", None, None),
    "schedule": (PAUSES, repeated("schedule", " c0*0x001"), "", 220, None),
    "truss": (PAUSES, repeated("truss -t !pause -s ", "KILL+", "KILL -p 2"), "", 64, None),
    "tool": (PAUSES, wide("tool pmap 2"), "", 64, None),
}

PROGRAM = "program p\nend\n"

# One more than there may be of each thing, with the line that is named.
PAST = {
    "257 files": ("".join('file f%d ""\n' % k for k in range(257)), "line 257: TooMany"),
    "257 programs": ("".join("program p%d\nend\n" % k for k in range(257)), "line 513: TooMany"),
    "4,096 spawns": (PROGRAM + "spawn p\n" * 4096, "line 4098: TooMany"),
    "spawns past 64 MiB": ("program p\nspace s 28672\nend\n" + "spawn p\n" * 2049, "line 2052: TooBig"),
    "65 scripts": ("script\nend\n" * 65, "line 129: TooMany"),
    "65 trusses": ("truss -p 1\n" * 65, "line 65: TooMany"),
    "65 tools": ("tool ptree\n" * 65, "line 65: TooMany"),
    "4,097 lists": ("script\n" + "list\n" * 2049 + "end\nscript\n" + "list\n" * 2048 + "end\n", "line 4100: TooMany"),
    "100,001 turns of a schedule": ("schedule clock*60000\nschedule clock*40001\n", "line 2: TooMany"),
    "100,001 turns of a schedule at once": ("schedule clock*100001\n", "line 1: TooMany"),
    "2^64 - 1 turns of a schedule": ("schedule clock clock*18446744073709551615 clock\n", "line 1: TooMany"),
    "2^64 turns of a schedule": ("schedule clock*18446744073709551616\n", "line 1: BadOperand"),
    "100,001 turns": ("turns 100001\n", "line 1: TooMany"),
    "4,097 instructions": ("program p\n" + "nop\n" * 4097 + "end\n", "line 4098: TooBig"),
    "65,537 bytes of data": ("program p\nspace a 65528\nspace b 8\nspace c 1\nend\n", "line 4: TooBig"),
    "a space of 65,537 bytes": ("program p\nspace a 65537\nend\n", "line 2: BadOperand"),
    "a line of 4,097 bytes": ("#" * 4097 + "\n", "line 1: TooLong"),
    "a name of 32 letters": ("program " + "p" * 32 + "\nend\n", "line 1: BadOperand"),
}


def expect(ran, status, out):
    """What is wrong with a run that is to end so, with this text or one that ends so."""
    if ran is None:
        return "no end"
    if ran.status != status or ran.err:
        return "status %d and not %d: %r %r" % (ran.status, status, ran.out[:60], ran.err[:60])
    return None if ran.out.decode("ascii").endswith(out) else "%r and not %r" % (ran.out[-60:], out)


def measured(ran, size):
    return ran and "%.2f s, %d MiB, %.1f times the input" % (ran.seconds, ran.memory >> 10, 1024 * ran.memory / size)


def each_kind_of_line(checks, program):
    for name, (head, line, tail, most, entries) in KINDS.items():
        text, count = filled(head, line, tail, most)
        full = entries is not None and count * entries + 2 >= TURNS
        ran = run(program, ["run", "-q"], text.encode())
        checks.check("1 MiB, %s" % name, expect(ran, 3 if full else 0, "status %d\n" % (3 if full else 0)),
                     "%d lines, %s" % (count, measured(ran, TEXT)))
        checks.check("1 MiB and a byte, %s" % name, expect(run(program, ["run"], (text + "\n").encode()), 2, "line 0: TooLong\n"))


def past_each_limit(checks, program):
    for name, (text, line) in PAST.items():
        checks.check(name, expect(run(program, ["run"], text.encode()), 2, line + "\n"))


def long_runs(checks, program):
    ran = run(program, ["run"], ("turns 100000\n" + LOOPS).encode())
    wrong = expect(ran, 3, "99999 1/1 ran\nstatus 3\n") or (not ran.out.startswith(b"history 100000\n") and "another heading")
    checks.check("100,000 turns", wrong, measured(ran, TEXT))
    text = "turns 100000\n" + PAUSES + "spawn p\n" * 63 + "".join("truss -p %d\n" % (k + 1) for k in range(63))
    text += "script\nuntil 5\n" + "".join("kill %d 15\n" % (k + 1) for k in range(64)) + "end\n"
    for words in ["run", "-q"], ["run", "-q", "-j", "16"]:
        ran = run(program, words, text.encode())
        checks.check("64 controllers, " + " ".join(words), expect(ran, 0, "\nstatus 0\n"), measured(ran, TEXT))


def judged(checks, program, name, data, status, out, most=4):
    """`check` of an input, whose memory is at most so many times the input: no entry is kept."""
    ran = run(program, ["check"], data)
    wrong = expect(ran, status, out)
    if not wrong and ran.memory << 10 > most * len(data):
        wrong = "more than %d times the input" % most
    checks.check("check, %s" % name, wrong, "%d MB, %s" % (len(data) // 1_000_000, measured(ran, len(data))))
    return ran.seconds if ran else 0.0


def reads(program, count):
    """A history with so many reads of 20,480 bytes, which is a line of 41 kB each, under its scenario."""
    head = "turns 100000\nprogram p\nspace data 20480\nsys pause\nend\nspawn p\nscript\nopen a 1 as r\n"
    text = head + "read a 0x80000 20480\n" * count + "end\n"
    return text.encode() + b"%history\n" + run(program, ["run"], text.encode()).out


CALLS = "program p\nagain:\nsys getpid\njmp again\nend\nspawn p\n"


def steps(program, count):
    """A history of so many instructions, which is a line of some 14 bytes each, under its scenario."""
    lines = "".join("%d 1/1 ran\n" % k for k in range(count))
    return (LOOPS + "%history\nhistory " + "%d\n" % count + lines).encode()


def calls(program, count):
    """A history of so many entries in which a program calls without end, under its scenario: what it does comes again
    after the entries of one call and one jump."""
    out = run(program, ["run"], ("turns 64\n" + CALLS).encode()).out.decode()
    acts = [line.split(" ", 1)[1] for line in out.splitlines()[1:65]]
    size = next(k for k in range(1, 32) if acts[k:] == acts[:-k])
    lines = "".join("%d %s\n" % (k, acts[k % size]) for k in range(count))
    return (CALLS + "%history\nhistory " + "%d\n" % count + lines).encode()


def traced(program, count):
    """A history of so many entries in which truss follows a program that calls without end, under its scenario."""
    text = "turns %d\n" % count + CALLS + "truss -p 1\n"
    return text.encode() + b"%history\n" + run(program, ["run"], text.encode()).out


ASKS = "program p\nend\nscript\nend\n"


def polls(program, count, handles=20_000):
    """A history of so many entries that each poll so many handles, of which none is open, under its scenario. A handle is
    two bytes of its line."""
    lines = "".join("%d c0 poll%s -> fail EBADF\n" % (k, " 7" * handles) for k in range(count))
    return (ASKS + "%history\nhistory " + "%d\n" % count + lines).encode()


def misled(program, count):
    """The history of `steps` with a call in place of its first entry, whose controller there is not: its lines are read."""
    return steps(program, count).replace(b"\n0 1/1 ran\n", b"\n0 c0 until 0 -> done\n", 1)


def large_histories(checks, program):
    for name, make, sizes in [("long lines", reads, [1250, 2500, 5000]),
                              ("lines of many handles", polls, [250, 500, 1000]),
                              ("lines of a traced program", traced, [25_000, 50_000, 99_990]),
                              ("lines of a program that calls", calls, [500_000, 1_000_000, 2_000_000]),
                              ("the shortest lines", steps, [1_000_000, 2_000_000, 4_000_000])]:
        times = []
        for size in sizes:
            entries = size + 3 if make == reads else size
            times.append(judged(checks, program, name, make(program, size), 0, "legal %d\n" % entries))
        slow = times[2] > 6 * times[0] + 0.2 and "more than linear"
        checks.check("the time of check, " + name, slow, "ratio %.2f of 4" % (times[2] / times[0]))


def limits_of_check(checks, program):
    none = b"%history\nhistory 0\n"
    judged(checks, program, "256 MiB", none + b"x" * (INPUT - len(none)), 0, "legal 0\n")
    judged(checks, program, "256 MiB and a byte", none + b"x" * (INPUT + 1 - len(none)), 2, "line 0: TooLong\n")
    comments, _ = filled("", "#")
    judged(checks, program, "1 MiB above the history", comments.encode() + none, 0, "legal 0\n", most=100)
    judged(checks, program, "1 MiB and a byte above it", b"\n" + comments.encode() + none, 2, "line 0: TooLong\n", most=100)
    judged(checks, program, "a line of 60 MB, of handles", polls(program, 1, 30_000_000), 0, "legal 1\n")
    wrong = misled(program, 2_000_000)
    judged(checks, program, "an entry that is not legal, before others", wrong, 8, "entry 0: not legal\n")
    judged(checks, program, "a line that is none, behind one", wrong[:-1] + b"!\n", 2, "line 2000007: BadHistory\n")
    judged(checks, program, "10^12 entries that are not there", b"%history\nhistory 1000000000000\n", 2, "line 3: BadHistory\n", most=1 << 20)


def main():
    program = sys.argv[1] if len(sys.argv) > 1 else PROVED
    checks = Checks()
    for part in each_kind_of_line, past_each_limit, long_runs, large_histories, limits_of_check:
        part(checks, program)
    checks.end()


if __name__ == "__main__":
    main()
