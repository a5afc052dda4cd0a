#!/usr/bin/env python3
"""The history that a call of `serve` keeps where memory is refused. A program that stands here calls `serve` between ends
in memory, and writes the history that is left, which `proclab` does not. For each number N it is run once with all
requests from the Nth on refused, and once with the Nth alone. Where that ends with status 7:

- the history is a front of the one of the whole run, and so is the text;
- it is not shorter than where the request before was refused;
- it is as long as the run was when memory ran out, which runs of K turns tell, of which no request is refused: a
  request behind theirs leaves K entries at least. Where nothing is printed, what they ask for behind their last entry
  is the same for each K, and then the length is known but for one entry. Else it is taken to be no less than what a run
  of one, two or three turns asks for there, and so the length is only known to be no less than some K;
- `check` calls it legal.

So it is with `run -q` and with `plain`, which goes over the whole history behind its last entry, and so counts as one
that prints. With -j the order is another one in each run: each history is only judged.

It copies the crates below, with what this checkout has built of them, and proves and builds the program there in some
minutes; --in FOLDER keeps that copy for a later call. WORKERS tells how many runs there are at once. It needs rt and a C
compiler. The last line is 'N passed, M failed'.
"""
import argparse
import functools
import os
import re
import shutil
import subprocess
import tempfile

from checks import Checks, copy_crates, each, read
from sweeps import LENDINGS, MANY_THINGS, Sweep, make_library, some

CRATE = "kept_history"
BELOW = ["pr_io", "pr_num", "pr_plain", "pr_serve"]
PROGRAM = r"""//! Calls `serve` with its words, between ends in memory, and writes what that leaves: status, history and text.
#![tactic(auto)]

use pr_io::{MemSink, MemSource, OpenGate, StdSink, StdSource, read_all, write_all};
use pr_num::{Bytes, NoMemory};
use pr_plain::{write_entry, write_heading, write_status};
use pr_serve::{Outcome, serve};
use std::alloc::{AllocError, Global};
use std::env;
use std::env::Args;
use std::process::ExitCode;
use std::sync::Wait;
use std::thread::Threads;

/// The bytes that there is room for: of the input, of the text, and of all that is written.
const ROOM: usize = 4_194_304;

fn words_after_name(alloc: Global, arguments: Args) -> Result<Vec<String>, AllocError> {
    arguments.skip(1).collect(alloc)
}

fn write_left(out: &mut Vec<u8>, outcome: &Outcome, text: &[u8]) -> Result<(), NoMemory> {
    write_status(out, outcome.status)?;
    write_heading(out, outcome.history.len())?;
    for place in 0..outcome.history.len() {
        if let Some(entry) = outcome.history.get(place) {
            write_entry(out, place, entry)?;
        }
    }
    Ok(out.extend_from_slice(text)?)
}

fn call<R: Threads + Wait + Sync>(
    rt: &R,
    alloc: Global,
    words: &[String],
    input: Bytes,
    out: &mut Vec<u8>,
) -> Result<(), NoMemory> {
    let mut source = MemSource::new(input, Vec::new(alloc));
    let mut sink = MemSink::new(alloc, ROOM, Vec::new(alloc))?;
    let outcome = serve(rt, alloc, words, &mut source, &mut sink, &OpenGate);
    write_left(out, &outcome, sink.bytes())
}

fn main(rt: HostRuntime) -> ExitCode {
    let alloc = rt.alloc();
    let Ok(arguments) = env::args(&rt) else {
        return ExitCode::from(70);
    };
    let Ok(words) = words_after_name(alloc, arguments) else {
        return ExitCode::from(70);
    };
    let mut source = StdSource::new(rt.stdin());
    let Ok(input) = read_all(alloc, &mut source, ROOM) else {
        return ExitCode::from(70);
    };
    let Ok(mut out) = Vec::with_capacity(alloc, ROOM) else {
        return ExitCode::from(70);
    };
    if call(&rt, alloc, &words, input, &mut out).is_err() {
        return ExitCode::from(70);
    }
    match write_all(&mut StdSink::new(rt.stdout()), &out) {
        Ok(()) => ExitCode::from(0),
        Err(_) => ExitCode::from(71),
    }
}
"""


def build(room):
    """Proves and builds the program in a copy of the crates below it, and says where it stands."""
    copy_crates(room, BELOW)
    with open(os.path.join(room, "crates.txt"), "a") as file:
        file.write("%s may_wait=1: %s\n" % (CRATE, " ".join(BELOW)))
    folder = os.path.join(room, "crates", CRATE)
    os.makedirs(os.path.join(folder, "src"), exist_ok=True)
    with open(os.path.join(folder, "src/main.rt"), "w") as file:
        file.write(PROGRAM)
    built = subprocess.run(["rt", "run"], cwd=folder, stdin=subprocess.DEVNULL, capture_output=True, text=True)
    program = os.path.join(folder, "out", CRATE)
    if not os.path.exists(program):
        raise SystemExit("the program is not built:\n" + (built.stdout + built.stderr)[-2000:])
    return program


class Left:
    """What a run left: the status of `serve`, or None where the program did not come so far, the entries and the text;
    and how often it asked for memory."""

    def __init__(self, ended, out, asked):
        self.asked, self.status, self.entries, self.text = asked, None, [], b""
        head = re.match(rb"status (\d+)\nhistory (\d+)\n", out)
        if ended == 0 and head:
            lines = out[head.end():].split(b"\n", int(head.group(2)))
            self.status, self.entries, self.text = int(head.group(1)), lines[:-1], lines[-1]


def turns(text, count):
    """A scenario with so many turns, in a line that is as long for each number."""
    return b"turns 0x%06x\n" % count + re.sub(rb"(?m)^turns .*\n", b"", text)


class Scenario:
    """The runs of one scenario with some words, of so many turns at most."""

    def __init__(self, program, words, text, room, most=100_000):
        self.program, self.words, self.text, self.room = program, words, turns(text, most), room
        self.whole = self.left(0, False)

    def left(self, number, onwards):
        return Left(*Sweep(self.program, self.words, self.text, self.room).run(number, onwards))

    @functools.lru_cache(None)
    def asked_by(self, made):
        """How often a run of so many turns asks for memory; it takes one turn at least."""
        return 0 if made == 0 else Sweep(self.program, self.words, turns(self.text, made), self.room).run(0, False)[2]

    def made_before(self, number):
        """How many turns a run has made at the latest when it asks for memory for this time."""
        low, high = 0, len(self.whole.entries) + 1
        while low < high:
            middle = (low + high) // 2
            low, high = (middle + 1, high) if self.asked_by(middle) < number else (low, middle)
        return low - 1

    def asked_behind(self):
        """How often the whole run asks for memory when all its entries are made."""
        number = self.whole.asked
        while number > 0 and len(self.left(number, True).entries) == len(self.whole.entries):
            number -= 1
        return self.whole.asked - number

    def is_legal(self, entries):
        """Whether `check` calls a history of this scenario legal."""
        history = b"%%history\nhistory %d\n" % len(entries) + b"".join(line + b"\n" for line in entries)
        judged = Left(*Sweep(self.program, ["check"], self.text + history, self.room).run(0, False))
        return judged.text == b"legal %d\n" % len(entries)


def wrong_end(left, onwards, whole):
    """What is wrong with a run of which a request was refused, seen alone."""
    if left.status not in (7, None):
        same = (left.status, left.entries, left.text) == (whole.status, whole.entries, whole.text)
        return None if same and not onwards else "status %d" % left.status
    if whole.entries[:len(left.entries)] != left.entries:
        return "%d entries that are no front" % len(left.entries)
    return None if whole.text.startswith(left.text) else "a text that is no front"


def wrong_lengths(kept):
    """What is wrong with the lengths of the histories that were kept, by the numbers of the requests."""
    pairs = list(kept.items())
    for (number, before), (other, after) in zip(pairs, pairs[1:]):
        if after < before:
            return "request %d leaves %d entries, and request %d leaves %d" % (number, before, other, after)
    return None


def wrong_moments(scenario, kept, prints):
    """What is wrong with these lengths, of which the last is that of the whole run, by the runs of fewer turns."""
    size = len(scenario.whole.entries)
    short = [Scenario(scenario.program, scenario.words, scenario.text, scenario.room, turns) for turns in (1, 2, 3)]
    behind = min(one.asked_behind() for one in (short if prints else [scenario]))
    for number, length in kept.items():
        made = scenario.made_before(number + behind)
        if length < made or not prints and length > made + 1:
            return "request %d comes when %d entries are made, and leaves %d" % (number, made, length)
    return None


def swept(checks, scenario, name, prints, most):
    """One scenario, each of whose requests is refused in turn, or so many of them."""
    whole, wrong, figures = scenario.whole, [], []
    numbers = some(whole.asked, most)
    for onwards in True, False:
        ended = each(lambda number: scenario.left(number, onwards), numbers)
        ends = [wrong_end(left, onwards, whole) for left in ended]
        wrong += ["request %d: %s" % (number, why) for number, why in zip(numbers, ends) if why]
        kept = {number: len(left.entries) for number, left in zip(numbers, ended) if left.status == 7}
        wrong.append(wrong_lengths(kept))
        figures.append("%d ends with 7, which leave %d lengths" % (len(kept), len(set(kept.values()))))
        if onwards:
            kept[whole.asked + 1] = len(whole.entries)
            wrong += [wrong_lengths(kept), wrong_moments(scenario, kept, prints)]
            lengths = sorted(set(kept.values()))
            legal = each(lambda length: scenario.is_legal(whole.entries[:length]), lengths)
            wrong += ["%d entries are not legal" % length for length, is_legal in zip(lengths, legal) if not is_legal]
    told = "%d requests, of which %d were refused, %d entries; %s, where all later ones are too, and %s, where one alone is"
    checks.check("%s, %s" % (" ".join(scenario.words), name), "; ".join([why for why in wrong if why][:5]),
                 told % (whole.asked, len(numbers), len(whole.entries), *figures))


def judged(checks, scenario, name, most):
    """One scenario on threads, whose histories are judged."""
    jobs = [(number, onwards) for number in some(scenario.whole.asked + 50, most) for onwards in (True, False)]
    ended = [left for left in each(lambda job: scenario.left(*job), jobs) if left.status is not None]
    legal = each(lambda left: left.status in (0, 3, 4, 7) and scenario.is_legal(left.entries), ended)
    wrong = ["status %d and %d entries" % (left.status, len(left.entries)) for left, right in zip(ended, legal) if not right]
    sevens = [len(left.entries) for left in ended if left.status == 7]
    checks.check("%s, %s" % (" ".join(scenario.words), name), "; ".join(wrong[:5]),
                 "%d runs, %d ends with 7, which leave %d lengths" % (len(ended), len(sevens), len(set(sevens))))


def scenarios():
    """The name, the scenario, whether something is printed, and the most turns."""
    yield "the first run", read("crates/proclab/stdin"), False, 100_000
    yield "alone", read("examples/alone.in"), False, 100_000
    yield "stop and look", read("examples/stop-and-look.in"), False, 100_000
    yield "a loop", b"program p\nagain:\njmp again\nend\nspawn p\n", False, 600
    yield "many things but tools", re.sub(r"(?m)^tool .*\n", "", MANY_THINGS).encode(), False, 400
    yield "many things", MANY_THINGS.encode(), True, 400
    yield "lendings", LENDINGS.encode(), True, 400
    yield "a shell under truss", read("cases/truss/shell.in"), True, 2000
    yield "pmap of a reader", read("cases/tools/pmap-of-a-reader.in"), True, 100_000
    yield "gcore", read("examples/writes-a-core.in"), True, 1000
    yield "apfiles", read("examples/asks-by-an-agent.in"), True, 1500
    yield "truss of functions", read("examples/truss-functions.in"), True, 2000


def main():
    words = argparse.ArgumentParser()
    words.add_argument("--in", dest="room")
    words.add_argument("--program", help="one that was built before")
    words.add_argument("--most", type=int, default=1500, help="how many requests of a scenario are refused at most")
    asked = words.parse_args()
    room = os.path.abspath(asked.room or tempfile.mkdtemp())
    os.makedirs(room, exist_ok=True)
    program, checks = asked.program or build(room), Checks()
    make_library(room)
    for name, text, prints, most in scenarios():
        swept(checks, Scenario(program, ["run", "-q"], text, room, most), name, prints, asked.most)
        swept(checks, Scenario(program, ["plain"], text, room, most), name, True, asked.most)
    for name, text in ("many things", MANY_THINGS), ("lendings", LENDINGS):
        judged(checks, Scenario(program, ["run", "-q", "-j", "2"], text.encode(), room, 400), name, asked.most)
    if not asked.room:
        shutil.rmtree(room)
    checks.end()


if __name__ == "__main__":
    main()
