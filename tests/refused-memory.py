#!/usr/bin/env python3
"""Each request for memory refused in turn, in the built programs: for each number N a run in which all requests from the
Nth on are refused, and one in which the Nth alone is, until a run asks for fewer. Where all are, the status is 7, and what
was written is a prefix of the whole output; phist writes nothing. Where one alone is, the same, or the run is whole: what
grows a table asks a second time, for no more than it needs. Runs on several threads ask for memory in an order of their
own, and the system asks for their threads: there a run may be whole in both ways. Where their text depends on the order,
what was written is judged by `check`: it is the front of a legal history.

Before that it compares two runs that differ in one turn: a read that gives no bytes, into a page that its process shares,
asks for as much memory as one that is refused, for none.

Of more than 1,500 requests some are refused, the first and the last ones among them; --most tells another number. With
--sample one input alone is run, as in the gate. PROCLAB, PHIST and PDRIVE name other programs than the proved ones, and
WORKERS tells how many runs there are at once. It needs a C compiler. The last line is 'N passed, M failed'.
"""
import argparse
import collections
import subprocess
import tempfile

from checks import PROVED, Checks, each, program_of, read
from sweeps import LENDINGS, MANY_THINGS, Sweep, is_legal_front, make_library, some

PHIST, PDRIVE = program_of("phist"), program_of("pdrive")

EXAMPLES = ["alone", "stop-and-look", "truss-two-calls", "truss-vfork", "truss-two-processes", "truss-a-pipeline",
            "truss-interrupted", "looks-at-a-process", "where-it-stands", "a-family-and-its-end", "watchpoint", "agent",
            "two-lwps", "catches-a-signal", "untraced-steps", "kept-and-judged", "changed-and-judged", "not-a-scenario",
            "truss-functions", "writes-a-core", "looks-at-a-core", "asks-by-an-agent"]
CASES = ["cases/truss/shell", "cases/tools/pmap-of-a-reader"]
SESSIONS = ["waits-agents-and-memory", "asleep-at-a-pipe", "lines-that-ask-for-nothing"]
ON_ONE, IN_ANY_ORDER, IN_AN_ORDER = "on one thread", "in any order", "in an order of its own"

# A read from descriptor 0, which is an empty file, or from another one, which is not open. The buffer does not begin where
# its page begins; the process shares that page with the program that it runs.
READS_NOTHING = """turns 40
file e ""
program p
text n "e"
space b 16
set r1, n
set r2, 0
sys open
set r1, %d
set r2, b
set r3, 16
sys read
set r1, 0
sys exit
end
spawn p
"""


def words_of(name):
    """The words for an example or a case."""
    try:
        return read(name + ".args").decode().split()
    except FileNotFoundError:
        return ["run"]


def with_history(text):
    """An input of `check`: a scenario, and the history of its run."""
    ran = subprocess.run([PROVED, "run"], input=text.encode(), capture_output=True)
    return text.encode() + b"%history\n" + ran.stdout


def inputs():
    """The name, the program with its words, the input, and whether it runs on threads, and its text depends on them."""
    yield "the first run", [PROVED, "run"], read("crates/proclab/stdin"), ON_ONE
    for name in ["examples/" + name for name in EXAMPLES] + CASES:
        yield name, [PROVED] + words_of(name), read(name + ".in"), ON_ONE
    for name, text in ("many things", MANY_THINGS), ("lendings", LENDINGS):
        yield name, [PROVED, "run"], text.encode(), ON_ONE
        yield name, [PROVED, "plain"], text.encode(), ON_ONE
        yield name, [PROVED, "check"], with_history(text), ON_ONE
        yield name, [PROVED, "run", "-j", "2"], text.encode(), IN_AN_ORDER
    yield "the usage line", [PROVED], b"", ON_ONE
    yield "gen", [PROVED, "gen", "3"], b"", ON_ONE
    yield "truss on several threads", [PROVED, "run", "-q", "-j", "2"], read("examples/truss-on-several-threads.in"), IN_ANY_ORDER
    for words in [], ["lanes"], ["svg"], ["-p", "1"]:
        yield "debugger", [PHIST] + words, read("examples/debugger.out"), ON_ONE
    yield "breakpoint with its scenario", [PHIST], read("examples/breakpoint.in") + b"%history\n" + read("examples/breakpoint.out"), ON_ONE
    for name in SESSIONS:
        yield name, [PDRIVE], read("cases/sessions", name + ".session"), ON_ONE
    yield SESSIONS[0], [PDRIVE, "-q"], read("cases/sessions", SESSIONS[0] + ".session"), ON_ONE


def swept(checks, name, command, data, order, room, most):
    sweep = Sweep(command[0], command[1:], data, room)
    status, whole, asked = sweep.run(0, False)
    last = asked + (1 if order == ON_ONE else 200)
    wrong, ends, prefixes, numbers = [], collections.Counter(), 0, some(last, most)
    jobs = [(number, onwards) for number in numbers for onwards in (True, False)]
    for (number, onwards), (ended, out, count) in zip(jobs, each(lambda job: sweep.run(*job), jobs)):
        refused = count >= number
        if order == IN_AN_ORDER:
            front = is_legal_front(data, out)
            is_whole, is_cut = ended in (0, 3, 4) and front, ended == 7 and front
        else:
            is_whole = (ended, out) == (status, whole)
            is_cut = ended == 7 and whole.startswith(out) and (command[0] != PHIST or not out)
        if refused:
            ends[onwards, is_cut] += 1
            prefixes += is_cut and len(out) > 0
        if not (is_cut and refused or is_whole and (order != ON_ONE or not refused or not onwards)):
            wrong.append("request %d%s: status %s, %d bytes" % (number, " and all later" if onwards else "", ended, len(out)))
    figures = "%d requests, of which %d were refused; status 7 where all later ones are refused too %d times, where it alone is" \
              " %d times, and else whole %d times; %d runs wrote something"
    figures %= asked, sum(number <= asked for number in numbers), ends[True, True], ends[False, True], ends[False, False], prefixes
    checks.check(" ".join([command[0].split("/")[-1]] + command[1:]) + ", " + name, "; ".join(wrong[:5]), figures)
    return asked, ends


def asks_for_nothing(checks, room):
    """A read of no bytes asks for no memory."""
    runs = [Sweep(PROVED, ["run"], (READS_NOTHING % fd).encode(), room).run(0, False) for fd in (0, 1)]
    (ended, out, asked), (refused_ended, refused_out, refused_asked) = runs
    made = ended == refused_ended == 0 and b"made read = 0\n" in out and b"made read EBADF\n" in refused_out
    wrong = "" if made and asked == refused_asked else "%d requests, and %d where the read is refused" % (asked, refused_asked)
    checks.check("proclab run, a read of no bytes", wrong, "%d requests, as many as where the read is refused" % asked)


def main():
    words = argparse.ArgumentParser()
    words.add_argument("--most", type=int, default=1500)
    words.add_argument("--sample", action="store_true")
    asked_for = words.parse_args()
    checks, requests, total = Checks(), 0, collections.Counter()
    with tempfile.TemporaryDirectory() as room:
        make_library(room)
        asks_for_nothing(checks, room)
        chosen = [("many things", [PROVED, "run"], MANY_THINGS.encode(), ON_ONE)] if asked_for.sample else inputs()
        for name, command, data, order in chosen:
            asked, ends = swept(checks, name, command, data, order, room, asked_for.most)
            requests, total = requests + asked, total + ends
    print("%d requests; all later ones refused too: status 7 %d times; one alone: status 7 %d times, and else whole %d times"
          % (requests, total[True, True], total[False, True], total[False, False]))
    checks.end()


if __name__ == "__main__":
    main()
