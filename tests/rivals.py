#!/usr/bin/env python3
"""Rivals: random scenarios in which two to six controllers (scripts, trusses, tools) open the same processes, stop,
run and kill them and interrupt one another; lenders and borrowers of a vfork are among them, and trusses that plant
breakpoints (-u), gcore and apfiles, which may be disturbed. Each is run by `run` and by `run -j 1`, `-j 4` and
`-j 16`, and what was written is handed to `check`. A run passes where it ends within the given seconds with status 0,
3 or 4, writes nothing to standard error, and its history is legal to the last entry.

A scenario is made of its seed alone. What fails is printed with its seed, and `--seed SEED --count 1` runs it again;
`--show SEED` prints the scenario. With `--minutes M` it goes on to new seeds for so long. The last line is
'N passed, M failed'; before it stand the figures of all runs.
"""
import argparse
import collections
import concurrent.futures
import random
import re
import subprocess
import sys
import time

from checks import PROVED, WORKERS

# Short programs that fork, sleep, wait for one another, send themselves signals, make lwps, and incur faults.
PROGRAMS = {
    "loop": "again:/sys getpid/jmp again",
    "forks": "set r5, 1/set r4, 3/again:/sys fork/jz r0, child/set r1, 0/sys wait/sub r4, r5/jnz r4, again/set r1, 0"
             "/sys exit/child:/sys getppid/set r1, 3/sys exit",
    "pipes": "space ends, 16/space got, 16/set r1, ends/sys pipe/sys fork/set r6, ends/set r2, got/set r3, 4/jz r0, child"
             "/ld r1, r6, 0/sys read/set r1, 0/sys wait/set r1, 0/sys exit/child:/ld r1, r6, 8/sys write/set r1, 1/sys exit",
    "catches": "set r1, 16/set r2, handler/sys sigaction/set r1, 2/sys sigaction/set r5, 1/set r4, 3/again:/sys getpid"
               "/mov r1, r0/set r2, 16/sys kill/sub r4, r5/jnz r4, again/sys pause/set r1, 0/sys exit/handler:/sys sigreturn",
    "sleeps": "set r1, 5/sys sleep/set r1, 2/sys sleep/sys pause/set r1, 0/sys exit",
    "lwps": "set r1, other/set r2, 0x700800/sys lwp_create/set r1, other/set r2, 0x700c00/sys lwp_create/mov r1, r0"
            "/sys lwp_suspend/sys lwp_continue/sys getpid/sys lwp_exit/other:/sys getpid/set r1, 2/sys sleep/sys lwp_exit",
    "faults": "set r1, 5/set r2, handler/sys sigaction/bpt/nop/set r1, 1/set r2, 0/div r1, r2/handler:/sys sigreturn",
    "stops": "sys getpid/mov r4, r0/mov r1, r4/set r2, 24/sys kill/mov r1, r4/set r2, 34/set r3, 7/sys sigqueue"
             "/set r1, 0/sys exit",
}
# Programs of functions: in a loop, in one another and around a fork, and of two lwps and a handler.
CALLERS = {
    "calls": "set r4, 5/set r5, 1/again:/call one/call two/sub r4, r5/jnz r4, again/set r1, 0/sys exit/one:/nop/ret"
             "/two:/mov r1, r4/sys getpid/ret",
    "nests": "set r4, 3/set r5, 1/call down/set r1, 0/sys exit/down:/sub r4, r5/jz r4, bottom/call down/ret/bottom:/nop"
             "/sys fork/jz r0, child/set r1, 0/sys wait/ret/child:/call leaf/set r1, 0/sys exit/leaf:/set r2, 2/ret",
    "shares": "set r1, other/set r2, 0x700800/sys lwp_create/set r1, 16/set r2, handler/sys sigaction/sys getpid"
              "/mov r1, r0/set r2, 16/sys kill/other:/set r4, 4/set r5, 1/more:/call shared/sub r4, r5/jnz r4, more"
              "/sys lwp_exit/handler:/call shared/sys sigreturn/shared:/nop/ret",
}
PROGRAMS.update(CALLERS)
# What a program does after a vfork in the parent: it waits for the child and ends.
WAITS = "/set r1, 0/sys wait/set r1, 0/sys exit/child:"
# Programs that lend their space to a child, which exits, execs, lends it on, dozes, kills its lender, stops, or dies.
LENDERS = {
    "lends": "space x, 8/set r6, x/set r5, 1/set r4, 3/again:/sys vfork/jz r0, child/set r1, 0/sys wait/sub r4, r5"
             "/jnz r4, again/ld r1, r6, 0/sys exit/child:/st r4, r6, 0/sys getppid/set r1, 3/sys exit",
    "execs": 'text path "lends"/sys vfork/jz r0, child' + WAITS + "/set r1, path/sys exec/set r1, 9/sys exit",
    "fails": 'text path "nobody"/text other "sleeps"/sys vfork/jz r0, child' + WAITS
             + "/set r1, path/sys exec/sys getpid/set r1, other/sys exec",
    "chains": "space x, 8/set r6, x/set r5, 1/set r4, 3/again:/sys vfork/jnz r0, parent/sub r4, r5/jnz r4, again"
              "/st r5, r6, 0/set r1, 1/sys sleep/set r1, 1/sys exit/parent:/set r1, 0/sys wait/ld r1, r6, 0/sys exit",
    "orphans": 'text path "loop"/sys vfork/jnz r0, parent/sys vfork/jnz r0, parent/sys getpid/set r1, path/sys exec'
               "/parent:/set r1, 2/sys exit",
    "dozes": "sys vfork/jz r0, child" + WAITS + "/set r1, 5/sys sleep/sys pause/set r1, 0/sys exit",
    "kills": "sys vfork/jz r0, child" + WAITS + "/sys getppid/mov r1, r0/set r2, 9/sys kill/set r1, 2/sys sleep"
             "/sys getpid/set r1, 0/sys exit",
    "pauses": "set r1, 16/set r2, handler/sys sigaction/sys vfork/jz r0, child" + WAITS + "/sys getpid/mov r4, r0"
              "/mov r1, r4/set r2, 16/sys kill/mov r1, r4/set r2, 24/sys kill/bpt/handler:/sys sigreturn",
    "both": 'text path "forks"/sys vfork/jz r0, child' + WAITS + "/sys fork/jz r0, leaf/sys vfork/jz r0, leaf"
            "/set r1, path/sys exec/leaf:/sys getppid/set r1, 4/sys exit",
    "borrows": 'text path "calls"/call before/sys vfork/jz r0, child' + WAITS + "/call before/set r1, path/sys exec"
               "/before:/nop/ret",
}
PROGRAMS.update(LENDERS)
CALLS = ["exit", "fork", "read", "write", "wait", "getpid", "kill", "pause", "sleep", "lwp_create", "sigqueue",
         "vfork", "exec"]
SIGNALS = ["HUP", "INT", "TERM", "USR1", "CLD", "TSTP", "CONT", "TRAP", "STOP", "RT1"]
FAULTS = ["FLTBPT", "FLTIZDIV", "FLTTRACE", "FLTWATCH", "FLTACCESS"]
# Labels before an instruction that is no system call: truss can name these as functions.
FUNCTIONS = {"calls": ["one", "two"], "nests": ["down", "bottom", "child", "leaf"], "shares": ["other", "handler", "shared"],
             "borrows": ["before", "child"], "pipes": ["child"], "lends": ["child"], "chains": ["parent"]}
TOOLS = ["pflags", "psig", "pstack", "pmap", "pfiles", "pstop", "prun", "pwait"]
PROBERS = ["gcore", "apfiles", "apfiles"]
READS = ["status", "lstatus", "psinfo", "map", "usage", "as", "sigact", "watch", "fds"]
PIDS = [1, 1, 1, 2, 2, 3, 4]
# Messages that a process refuses while its space is lent, and the stop that it still obeys.
REFUSED_TO_LENDERS = ["watch 0x80000 8 2", "watch 0x80000 0 0", "write 0x80000 0102030405060708", "stop", "dstop",
                      "agent 0 0 0 0 0 0 0 0 0x701000 0 0x10000"]


def a_program(rng):
    return rng.choice(list(rng.choice([PROGRAMS, LENDERS, CALLERS])))


def some(rng, names):
    return "+".join(rng.sample(names, rng.randint(1, 3)))


def message(rng):
    """A control message, as a script has it; those that stop and run come more often."""
    number = rng.choice([2, 9, 15, 16, 18, 23, 24, 25, 33])
    return rng.choices([
        rng.choice(["stop", "dstop", "wstop", "stop", "dstop"]),
        "run " + " ".join(rng.sample(["prcsig", "prcfault", "prstep", "prsabort", "prstop"], rng.choice([0, 0, 0, 1, 2]))),
        "twstop %d" % rng.choice([1, 2, 10]),
        rng.choice(["strace ", "shold "]) + rng.choice(["none", "all", some(rng, SIGNALS)]),
        rng.choice(["sentry ", "sexit "]) + rng.choice(["none", "all", some(rng, CALLS)]),
        "sfault " + rng.choice(["none", "all", some(rng, FAULTS)]),
        rng.choice(["ssig", "kill", "unkill"]) + " %d" % number,
        rng.choice(["set ", "unset "]) + some(rng, ["fork", "rlc", "klc", "async"]),
        rng.choice(["csig", "cfault", "svaddr 0x10000", "agent 0 0 0 0 0 0 0 0 0x701000 0 0x10000"]),
        rng.choice(["watch 0x80000 8 %d", "watch 0x10010 16 %d"]) % rng.choice([0, 1, 2, 4, 12]),
        rng.choice(["read 0x80000 16", "write 0x80008 00ff", "raw 0500000000000000", "sreg 1 2 3 4 5 6 7 8 9 10 0x10000"]),
        " ".join(rng.sample(REFUSED_TO_LENDERS, rng.choice([1, 2, 3]))),
    ], [8, 8, 2, 3, 4, 2, 2, 3, 1, 2, 1, 4])[0].strip()


def script_line(rng, controllers):
    pid = rng.choice(PIDS)
    return rng.choices([
        "open c %d ctl %s" % (pid, rng.choice(["w", "w", "wx"])),
        "open %s %d %s r" % (rng.choice("st"), pid, rng.choice(READS)),
        "open l %d/%d %s" % (pid, rng.randint(1, 3), rng.choice(["lwpctl w", "lwpstatus r"])),
        "write %s %s" % (rng.choice("cccl"), " ".join(message(rng) for _ in range(rng.choice([1, 1, 2, 3])))),
        "read %s %d %d" % (rng.choice("stl"), rng.choice([0, 0, 104, 0x80000]), rng.choice([1, 344, 4096])),
        "poll " + " ".join(rng.sample("cslt", rng.randint(1, 3))),
        "interrupt %d" % rng.randrange(controllers),
        "kill %d %d" % (pid, rng.choice([0, 2, 9, 9, 15, 16, 18, 23, 25, 33])),
        "spawn %s%s" % (a_program(rng), rng.choice(["", " held"])),
        "until %d" % rng.randint(0, 12),
        "list",
        "close " + rng.choice("cstl"),
    ], [5, 3, 2, 12, 4, 2, 3, 2, 1, 2, 1, 3])[0]


def truss_line(rng):
    functions = rng.random() < 0.4
    words = [word for word in (["-l", "-i"] if functions else ["-f", "-c", "-l"]) if rng.random() < 0.4]
    words += rng.choice([[], ["-t", some(rng, CALLS)], ["-t", "!" + some(rng, CALLS)]])
    words += rng.choice([[], ["-s", "!CLD"], ["-m", some(rng, FAULTS)]])
    pids = "+".join(str(pid) for pid in sorted({rng.choice(PIDS) for _ in range(rng.randint(1, 3))}))
    program = a_program(rng)
    if functions:
        program = rng.choice(list(FUNCTIONS))
        words += ["-u", program + ":" + "+".join(rng.sample(FUNCTIONS[program], rng.randint(1, len(FUNCTIONS[program]))))]
    return " ".join(["truss"] + words + rng.choice([[program], ["-p", pids], ["-p", pids]]))


def controller(rng, controllers):
    kind = rng.choice(["script", "script", "script", "truss", "truss", "tool"])
    if kind == "truss":
        return [truss_line(rng)]
    if kind == "tool":
        return ["tool ptree" if rng.random() < 0.1 else "tool %s %d" % (rng.choice(rng.choice([TOOLS, PROBERS])), rng.choice(PIDS))]
    lines = [script_line(rng, controllers) for _ in range(rng.randint(2, 25))]
    return ["script", "open c %d ctl w" % rng.choice(PIDS)] + lines + ["end"]


def scenario(seed):
    rng = random.Random(seed)
    lines = ["turns %d" % rng.choice([100, 400, 1000, 3000])]
    for name, text in PROGRAMS.items():
        lines += ["program " + name] + text.split("/") + ["end"]
    lines += ["spawn " + a_program(rng) for _ in range(rng.randint(1, 3))]
    controllers = rng.randint(2, 6)
    for _ in range(controllers):
        lines += controller(rng, controllers)
    actors = ["c%d" % k for k in range(controllers)] + ["1/1", "1/1", "2/1", "3/1", "1/2", "clock"]
    for _ in range(rng.choice([0, 1, 2])):
        lines.append("schedule " + " ".join("%s*%d" % (rng.choice(actors), rng.randint(1, 9)) for _ in range(8)))
    return "\n".join(lines) + "\n"


def proclab(program, words, text, seconds):
    return subprocess.run([program] + words, input=text.encode(), capture_output=True, timeout=seconds)


def judged(program, words, text, seconds):
    """How a run and the judgement of its history went: what is wrong or None, its status, and what it wrote."""
    try:
        ran = proclab(program, words, text, seconds)
        if ran.returncode not in (0, 3, 4) or ran.stderr:
            return "status %d, %r, %r" % (ran.returncode, ran.stdout[:80], ran.stderr[:80]), ran.returncode, ""
        out = ran.stdout.decode("ascii")
        entries = re.match(r"history (\d+)\n", out).group(1)
        verdict = proclab(program, ["check"], text + "%history\n" + out, 10 * seconds).stdout.decode("ascii")
    except subprocess.TimeoutExpired as late:
        return "no end within %d seconds: %s" % (late.timeout, late.cmd[1:]), None, ""
    wrong = None if verdict == "legal %s\n" % entries else "check says %r of %s entries" % (verdict, entries)
    return wrong, ran.returncode, out


def try_seed(seed, options):
    """What each way of running the scenario of a seed gave."""
    text = scenario(seed)
    ways = ([["run"]] if options.one else []) + [["run", "-j", n] for n in options.workers.split(",")]
    return seed, [(words, judged(options.program, words, text, options.seconds)) for words in ways]


# What is counted in what a run writes.
SEEN = {"vforks": r" made vfork = ", "calls of functions shown": r"(?m)^(?:\S+ )?-> \w+\(", "cores": r"(?m)^core \d",
        "lists of files by apfiles": r"(?m)^controller \d+ apfiles\n\d+:$", "refusals of apfiles": r"(?m)^apfiles: ",
        "refusals of gcore": r"(?m)^gcore: "}


def seeds(options):
    end = time.monotonic() + 60 * options.minutes
    seed = options.seed
    while seed < options.seed + options.count or time.monotonic() < end:
        yield seed
        seed += 1


def main():
    parser = argparse.ArgumentParser(description=__doc__, formatter_class=argparse.RawDescriptionHelpFormatter)
    parser.add_argument("--program", default=PROVED)
    parser.add_argument("--seed", type=int, help="the first seed; by default the moment")
    parser.add_argument("--count", type=int, default=500, help="how many scenarios")
    parser.add_argument("--minutes", type=float, default=0, help="go on for at least so long")
    parser.add_argument("--workers", default="1,4,16", help="the numbers after -j")
    parser.add_argument("--no-run", dest="one", action="store_false", help="no run without -j")
    parser.add_argument("--seconds", type=float, default=10, help="how long a run may take")
    parser.add_argument("--show", type=int, metavar="SEED", help="print the scenario of a seed")
    options = parser.parse_args()
    if options.show is not None:
        sys.stdout.write(scenario(options.show))
        return 0
    if options.seed is None:
        options.seed = int(time.time())
    print("seeds from %d on" % options.seed, flush=True)
    statuses, refusals = collections.Counter(), collections.Counter()
    seen = collections.Counter()
    scenarios = passed = failed = entries = 0
    with concurrent.futures.ThreadPoolExecutor(WORKERS) as pool:
        waiting = collections.deque()
        coming = seeds(options)
        while True:
            while len(waiting) < 2 * WORKERS and (seed := next(coming, None)) is not None:
                waiting.append(pool.submit(try_seed, seed, options))
            if not waiting:
                break
            seed, results = waiting.popleft().result()
            scenarios += 1
            if scenarios % 500 == 0:
                print("%d scenarios, %d runs passed, %d failed" % (scenarios, passed, failed), flush=True)
            for words, (wrong, status, out) in results:
                statuses[status] += 1
                entries += int(out[8:out.index("\n")]) if out else 0
                seen.update({what: len(re.findall(line, out)) for what, line in SEEN.items()})
                refusals.update(re.findall(r"-> fail (E\w+)", out))
                passed, failed = (passed + 1, failed) if wrong is None else (passed, failed + 1)
                if wrong is not None:
                    print("seed %d, %s: %s" % (seed, " ".join(words), wrong), flush=True)
    print("%d scenarios, %d entries, %s; statuses %s; refused calls of controllers %s"
          % (scenarios, entries, ", ".join("%d %s" % (seen[what], what) for what in SEEN), dict(statuses),
             dict(refusals.most_common())))
    print("%d passed, %d failed" % (passed, failed))
    return 1 if failed else 0


if __name__ == "__main__":
    sys.exit(main())
