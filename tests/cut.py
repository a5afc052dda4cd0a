#!/usr/bin/env python3
"""Two scenarios, one under truss and tools and a shell under truss, cut at every byte: what is left is run, or refused at
its last line with the kind that scenario(5) says, or at the first line of the block that the cut left open. The
expectation comes from a reading of that page which stands here, and which knows of scenarios only what these need: all
lines above the last one are right. What is run gives what the same text with a newline gives, with status 0, 3 or 4.

A word names another program than the proved one. The last line is 'N passed, M failed'.
"""
import collections
import re
import sys

from checks import PROVED, Checks, each, read, run

SCENARIO = r'''# a reader and its child, a script, truss and tools
turns 900
file greeting "hello\n\x41\"\\"
program reader
    text path, "greeting"
    space buffer, 16
    set r1, path
    sys open
    mov r1, r0
    set r2, buffer
    set r3, 16
    sys read
    sys fork
    jz r0, done
    set r1, 0
    sys wait
done:
    set r1, 3
    sys exit
end
spawn reader
script
    open c 1 ctl w
    write c sentry read dstop wstop run
    close c
end
truss -f -l -t open+read+wait -s !CLD+TERM -m all reader
truss -c -p 1+2
tool pflags 1
tool ptree
tool pwait 1
schedule c0*2, 1/1*3 clock c1
'''

SHELL = read("cases/truss/shell.in").decode()

CALLS = "exit fork read write open close wait getpid getppid exec pipe dup lseek kill sigaction sigmask pause sigreturn brk " \
        "mmap munmap mprotect time sleep lwp_create lwp_exit lwp_suspend lwp_continue fstat sigqueue vfork".split()
SIGNALS = "HUP INT QUIT ILL TRAP ABRT EMT FPE KILL BUS SEGV SYS PIPE ALRM TERM USR1 USR2 CLD PWR WINCH URG POLL STOP TSTP " \
          "CONT TTIN TTOU VTALRM PROF XCPU XFSZ RT0 RT1 RT2 RT3 RT4 RT5 RT6 RT7".split()
FAULTS = "FLTILL FLTBPT FLTTRACE FLTWATCH FLTACCESS FLTBOUNDS FLTSTACK FLTIZDIV".split()
TOOLS = "pflags psig pstack pmap pfiles pstop prun pwait".split()

NAME = re.compile(r"[A-Za-z][A-Za-z0-9_.-]{0,30}")
NUMBER = re.compile(r"0|[1-9][0-9]*|0x[0-9a-fA-F]+")
TEXT = re.compile(r'"([^"\\]|\\[n\\"]|\\x[0-9A-Fa-f]{2})*"')
ACTOR = re.compile(r"(c\d+|\d+/\d+|clock)(\*[1-9]\d*)?")


def is_list(text, names, count):
    """Whether a list of truss names what is there; a part may be a number."""
    text = text[1:] if text.startswith("!") else text
    known = lambda part: part in names or (NUMBER.fullmatch(part) and 1 <= int(part, 0) <= count)
    return text == "all" or all(known(part) for part in text.split("+"))


def truss_refusal(words, programs):
    lists = {"-t": CALLS, "-s": SIGNALS + ["SIG" + name for name in SIGNALS], "-m": FAULTS}
    counts = {"-t": 30, "-s": 39, "-m": 8}
    target = unknown = False
    words = list(words)
    while words:
        word = words.pop(0)
        if word in ("-f", "-c", "-l", "-i"):
            continue
        if word in lists or word == "-p":
            if not words:
                return "BadOperand"
            value = words.pop(0)
            if word == "-p":
                if target or not all(NUMBER.fullmatch(part) for part in value.split("+")):
                    return "BadOperand"
                target = True
            elif not is_list(value, lists[word], counts[word]):
                unknown = True
        elif target or words or not NAME.fullmatch(word):
            return "BadOperand"
        else:
            target = True
            unknown = unknown or word not in programs
    return "BadOperand" if not target else "UnknownName" if unknown else None


def refusal(line, programs):
    """The kind with which a last line outside a block is refused, or None."""
    words = re.findall(r'"(?:[^"\\]|\\.)*"?|[^ \t,"][^ \t,]*', line)
    if not words or words[0].startswith("#"):
        return None
    word, rest = words[0], words[1:]
    right = {
        "turns": lambda: len(rest) == 1 and NUMBER.fullmatch(rest[0]),
        "file": lambda: len(rest) == 2 and NAME.fullmatch(rest[0]) and TEXT.fullmatch(rest[1]),
        "program": lambda: len(rest) == 1 and NAME.fullmatch(rest[0]),
        "script": lambda: not rest,
        "spawn": lambda: len(rest) == 1 and NAME.fullmatch(rest[0]),
        "tool": lambda: rest == ["ptree"] or len(rest) == 2 and rest[0] != "ptree" and NUMBER.fullmatch(rest[1]),
        "schedule": lambda: rest and all(ACTOR.fullmatch(part) for part in rest),
        "truss": lambda: truss_refusal(rest, programs) != "BadOperand",
    }
    unknown = {
        "spawn": lambda: rest[0] not in programs,
        "tool": lambda: rest[0] not in TOOLS + ["ptree"],
        "truss": lambda: truss_refusal(rest, programs) == "UnknownName",
    }
    if word not in right:
        return "UnknownWord"
    if not right[word]():
        return "BadOperand"
    if unknown.get(word, lambda: False)():
        return "UnknownName"
    return "NoEnd" if word in ("program", "script") else None


def expected(text):
    """The line with which a cut scenario is refused, or None where it is run."""
    opened, programs = None, []
    lines = text.split("\n")
    for number, line in enumerate(lines, 1):
        words = line.split()
        if opened and words[:1] == ["end"]:
            opened = None
            if number == len(lines):
                return None
        elif opened:
            continue
        elif words[:1] in (["program"], ["script"]) and number < len(lines):
            opened = number
            programs += words[1:]
    if opened:
        return "line %d: NoEnd" % opened
    kind = refusal(lines[-1], programs)
    return kind and "line %d: %s" % (len(lines), kind)


def wrong_with(program, text):
    """What is wrong with what the program makes of a cut scenario, and what was expected of it."""
    line = expected(text)
    ran = run(program, ["run"], text.encode())
    if ran is None or ran.err:
        return "no end, or standard error", line
    if line:
        return None if (ran.status, ran.out) == (2, line.encode() + b"\n") else "%r, and not %s" % (ran.out[:60], line), line
    same = run(program, ["run"], text.encode() + b"\n")
    if ran.status not in (0, 3, 4) or (ran.status, ran.out) != (same.status, same.out):
        return "status %d, %r" % (ran.status, ran.out[:60]), line
    return None, line


def main():
    program = sys.argv[1] if len(sys.argv) > 1 else PROVED
    checks, kinds = Checks(), collections.Counter()
    cuts = [text[:size] for text in (SCENARIO, SHELL) for size in range(len(text) + 1)]
    for cut, (wrong, line) in zip(cuts, each(lambda cut: wrong_with(program, cut), cuts)):
        checks.check("cut at byte %d" % len(cut), wrong)
        kinds[line.split()[-1] if line else "run"] += 1
    print("%d cuts: %s" % (len(cuts), ", ".join("%d %s" % (count, kind) for kind, count in kinds.most_common())))
    checks.end()


if __name__ == "__main__":
    main()
