"""What the tests of this folder share: which programs they run, and how many at once, how a run is measured, which crates
a crate stands on, copies of these, and the count of what passed."""
import concurrent.futures
import os
import shutil
import subprocess
import sys
import tempfile

TOP = os.path.dirname(os.path.dirname(os.path.abspath(__file__)))


def program_of(name):
    """The program of a name: the one that its variable (PROCLAB, PHIST, PDRIVE) tells, or else the proved one."""
    return os.environ.get(name.upper(), os.path.join(TOP, "crates", name, "out", name))


PROVED = program_of("proclab")


def read(*parts):
    """The bytes of a file of the repository."""
    with open(os.path.join(TOP, *parts), "rb") as file:
        return file.read()


WORKERS = int(os.environ.get("WORKERS", os.cpu_count()))


def each(call, jobs):
    """What a call gives of each job. As many are made at once as there are processors, or as WORKERS says."""
    with concurrent.futures.ThreadPoolExecutor(WORKERS) as pool:
        return list(pool.map(call, jobs))


class Ran:
    """A run that has ended: its status, what it wrote, its seconds, and the most memory that it had, in KiB."""

    def __init__(self, process, measured):
        self.status = process.returncode
        self.out = process.stdout
        self.err = process.stderr
        seconds, memory = measured.split()[-2:]
        self.seconds = float(seconds)
        self.memory = int(memory)


def run(program, words, data, seconds=120):
    """A run with this input, or None where it does not end in time."""
    with tempfile.NamedTemporaryFile() as measured, tempfile.TemporaryFile() as source:
        source.write(data)
        source.seek(0)
        command = ["/usr/bin/time", "-q", "-f", "%e %M", "-o", measured.name, program] + words
        try:
            process = subprocess.run(command, stdin=source, capture_output=True, timeout=seconds)
        except subprocess.TimeoutExpired:
            return None
        return Ran(process, measured.read())


def crates_below(names):
    """These crates and all of the repository that they stand on, with what each names in crates.txt."""
    needs = {}
    with open(os.path.join(TOP, "crates.txt")) as file:
        for line in file:
            head, _, below = line.partition("#")[0].partition(":")
            if below:
                needs[head.split()[0]] = below.split()
    found, left = {}, list(names)
    while left:
        name = left.pop()
        if name in needs and name not in found:
            found[name] = needs[name]
            left += needs[name]
    return found


def copy_crates(room, names):
    """Puts these crates and those below into a copy as they are here, with what is built of them and without the edits
    of the gate."""
    below, skipped = crates_below(names), shutil.ignore_patterns("must-fail", "incremental")
    for name in below:
        source, target = os.path.join(TOP, "crates", name), os.path.join(room, "crates", name)
        shutil.copytree(source, target, ignore=skipped, dirs_exist_ok=True)
    with open(os.path.join(TOP, "crates.txt")) as lines, open(os.path.join(room, "crates.txt"), "w") as file:
        file.writelines(line for line in lines if line.strip() and line.split()[0].rstrip(":") in below)
    shutil.copy(os.path.join(TOP, "HANDLES"), room)


class Checks:
    """Counts checks, and prints those that fail, or all of them with what they measured."""

    def __init__(self):
        self.passed = self.failed = 0

    def check(self, what, wrong, figures=""):
        """One check: it passed where nothing is wrong."""
        self.passed, self.failed = (self.passed, self.failed + 1) if wrong else (self.passed + 1, self.failed)
        if wrong or figures:
            print("%s: %s" % (what, ", ".join(part for part in [figures, wrong and "WRONG: " + wrong] if part)), flush=True)

    def end(self):
        print("%d passed, %d failed" % (self.passed, self.failed))
        sys.exit(1 if self.failed else 0)
