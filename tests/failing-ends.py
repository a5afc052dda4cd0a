#!/usr/bin/env python3
"""Each read and each write failing in turn, in the built programs: with reads and writes as large as they come, and
with those of one byte. Where a read fails the status is 5, and nothing was written. Where a write fails, or takes
nothing, the status is 6, and what the writes before it took is there and no more: a prefix of the whole text. Where
each read and each write takes one byte and none fails, status and text are those of the whole run.

Of pdrive, which writes each reply before it reads on, the replies before a failed read are there, and no more.

Of more than 2,000 reads or writes of one byte some 60 fail in turn, the first and the last among them; --most tells
another number, for each input. PROCLAB, PHIST and PDRIVE name other programs than the proved ones, and WORKERS tells how
many runs there are at once. It needs a C compiler. The last line is 'N passed, M failed'.
"""
import argparse
import os
import re
import struct
import subprocess
import tempfile

from checks import PROVED, TOP, Checks, each, program_of, read
from sweeps import some

PHIST, PDRIVE = program_of("phist"), program_of("pdrive")

# A history of two blocks, under its scenario.
LONG = "turns 9000\nprogram p\nagain:\njmp again\nend\nspawn p\n"
ENTRIES = "history 9000\n" + "".join("%d 1/1 ran\n" % k for k in range(9000))


def example(name):
    return read("examples", name)


def inputs(proclab):
    """The program, the words and the input."""
    for words in ["run"], ["run", "-q"], ["plain"]:
        yield proclab, words, example("stop-and-look.in")
    yield proclab, ["run"], example("not-a-scenario.in")
    yield proclab, ["run"], LONG.encode()
    yield proclab, ["run"], b"#" * 4000 + b"\n" + LONG.encode() + (b"#" * 4000 + b"\n") * 30
    yield proclab, ["run", "-q", "-j", "2"], example("truss-on-several-threads.in")
    yield proclab, ["check"], example("kept-and-judged.in")
    yield proclab, ["check"], example("changed-and-judged.in")
    yield proclab, ["check"], (LONG + "%history\n" + ENTRIES).encode()
    yield proclab, ["gen", "3"], b""
    yield proclab, [], b""
    yield PHIST, [], example("truss-two-calls.out")
    yield PHIST, [], ENTRIES.encode()
    yield PHIST, ["svg"], example("debugger.out")
    for name in "waits-agents-and-memory", "asleep-at-a-pipe", "lines-that-ask-for-nothing":
        yield PDRIVE, [], read("cases/sessions", name + ".session")


class Ends:
    """The runs of one input, whose ends fail."""

    def __init__(self, command, data, room):
        self.command, self.data, self.room, self.replies = command, data, room, {}

    def answered(self, number, short):
        """What is written before the read of this number: nothing, or the replies of pdrive to the lines that it has."""
        size = number - 1 if short else len(self.data) if number > 1 else 0
        lines = self.data[:self.data.rfind(b"\n", 0, size) + 1]
        if self.command[0] != PDRIVE or b"\n%calls\n" not in lines:
            return b""
        if lines not in self.replies:
            out = subprocess.run(self.command, input=lines, capture_output=True, timeout=120).stdout
            self.replies[lines] = out[:re.search(rb"(?m)^history \d+$", out).start()]
        return self.replies[lines]

    def run(self, **faults):
        """A run: its status, what it wrote, and how many reads and writes it made."""
        with tempfile.NamedTemporaryFile(dir=self.room) as counted, tempfile.TemporaryFile(dir=self.room) as source:
            counted.write(bytes(16))
            counted.flush()
            source.write(self.data)
            source.seek(0)
            env = {"LD_PRELOAD": os.path.join(self.room, "ends.so"), "COUNTED": counted.name}
            env.update({name: str(number) for name, number in faults.items()})
            ran = subprocess.run(self.command, stdin=source, capture_output=True, timeout=120, env=env)
            with open(counted.name, "rb") as counts:
                return ran.returncode, ran.stdout, struct.unpack("qq", counts.read()), ran.stderr


def chosen(count, most):
    """The numbers up to this one, or so many of them; some 60 of more than 2,000."""
    return some(count, most or (2000 if count <= 2000 else 60))


def jobs_of(reads, writes, short, most):
    one = {"SHORT": 1} if short else {}
    yield from (dict(one, FAILING_READ=number) for number in chosen(reads, most))
    for number in chosen(writes, most):
        yield dict(one, FAILING_WRITE=number)
        yield dict(one, FAILING_WRITE=number, NOTHING=1)


def wrong_with(ends, ended, faults, whole, pieces):
    """What is wrong with a run in which this read or write failed; the whole text was written in these pieces."""
    status, out, _, err = ended
    if "FAILING_READ" in faults:
        status_wanted, text = 5, ends.answered(faults["FAILING_READ"], "SHORT" in faults)
    else:
        status_wanted, text = 6, whole[:sum(pieces[:faults["FAILING_WRITE"] - 1])]
    if (status, out, err) != (status_wanted, text, b""):
        return "%s: status %d, %d bytes and not %d" % (faults, status, len(out), len(text))
    return None


def swept(checks, ends, most):
    status, whole, (reads, writes), _ = ends.run()
    short = ends.run(SHORT=1)
    wrong = [] if short[:2] == (status, whole) else ["another text or status where each read and write takes a byte"]
    large = [len(ends.run(FAILING_WRITE=number + 1)[1]) for number in range(writes)] + [len(whole)]
    pieces = {False: [b - a for a, b in zip(large, large[1:])], True: [1] * len(whole)}
    count = 0
    jobs = [(faults, False) for faults in jobs_of(reads, writes, False, most)]
    jobs += [(faults, True) for faults in jobs_of(*short[2], True, most)]
    for (faults, one), ended in zip(jobs, each(lambda job: ends.run(**job[0]), jobs)):
        count += 1
        wrong.append(wrong_with(ends, ended, faults, whole, pieces[one]))
    if large[0] != 0 or sorted(set(large)) != large:
        wrong.append("a write that took nothing, or one after the failed one")
    wrong = [what for what in wrong if what]
    figures = "%d reads and %d writes, or %d and %d of one byte; %d runs with a fault"
    figures %= reads, writes, *short[2], count
    checks.check(" ".join([os.path.basename(ends.command[0])] + ends.command[1:]) + ", %d bytes" % len(ends.data),
                 "; ".join(wrong[:5]), figures)
    return count


def main():
    words = argparse.ArgumentParser()
    words.add_argument("--most", type=int, help="how many reads and how many writes of an input fail")
    most = words.parse_args().most
    checks, runs = Checks(), 0
    with tempfile.TemporaryDirectory() as room:
        source = os.path.join(TOP, "tests/failing-ends.c")
        subprocess.run(["cc", "-shared", "-fPIC", "-O2", "-o", os.path.join(room, "ends.so"), source], check=True)
        for program, given, data in inputs(PROVED):
            runs += swept(checks, Ends([program] + given, data, room), most)
    print("%d runs with a fault" % runs)
    checks.end()


if __name__ == "__main__":
    main()
