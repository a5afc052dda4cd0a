#!/usr/bin/env python3
"""Wrong trusses, each of which the laws refuse. A patch of tests/wrong-trusses turns a definition of pr_truss and its
code alike: its line 'does:' says what such a truss does, 'law:' names the law that is false of it, and 'why:' tells of
a run that shows this. In a copy of the crates pr_truss has to be proved with the patch, since its code does what its
definitions say, and pr_truss_laws or pr_report_laws must not be; of a truss with -u the crate of the law that the patch
names first must not be. A line is printed for each truss, with the functions of that crate that are not proved: where a
patch changes what replies do, the proofs of most laws break, also of those that are true of such a truss. It is no part
of the gate: a truss takes some minutes, and one with -u more, since pr_function_laws stands on most crates of laws.

Words name patches, or the fronts of their names; without words all are tried. --in FOLDER keeps the copy, with what was
proved and what rt said, and a later call begins there. --laws leaves the functions of pr_truss out of the copy: then it
is only tried whether the laws refuse the definitions, in some two minutes a truss, and not whether a truss can be so.
The last line is 'N passed, M failed'. It needs rt and patch; what this checkout has built of the crates below is
copied. With --laws a truss with -u keeps its functions, since crates below its laws call them. With --only just the law
that the patch names first is tried of its crate.
"""
import argparse
import os
import re
import shutil
import subprocess
import tempfile

from checks import TOP, Checks, copy_crates

PATCHES = os.path.join(TOP, "tests/wrong-trusses")
TRUSS = "crates/pr_truss"
PARTS = ("src", "specs", "proofs")
LAWS = ["pr_truss_laws", "pr_report_laws"]
FUNCTION_LAWS = ["pr_function_laws", "pr_function_hides"]


def fill(room):
    """Fills the copy, where it has no crates yet."""
    if not os.path.exists(os.path.join(room, "crates")):
        copy_crates(room, LAWS + FUNCTION_LAWS)


def read(path):
    with open(path, "rb") as file:
        return file.read()


def files_of(folder):
    """The source files of a crate, by their paths in it."""
    found = set()
    for part in PARTS:
        for path, _, names in os.walk(os.path.join(folder, part)):
            found |= {os.path.relpath(os.path.join(path, name), folder) for name in names}
    return found


def after_function(lines, at):
    """The place behind the function whose first line is at this one."""
    depth, begun = 0, False
    while True:
        line = lines[at].strip()
        at += 1
        if begun or line in ("{", "{}") or re.search(r"\) (-> .*)?\{$", line):
            begun = True
            depth += line.count("{") - line.count("}")
            if depth == 0:
                return at


def without_functions(text):
    """A file of code without its functions, and without the names of functions that it takes from other files."""
    lines, kept, head, at = text.split("\n"), [], [], 0
    while at < len(lines):
        line = lines[at].strip()
        if line.startswith(("///", "#[")):
            head.append(lines[at])
            at += 1
        elif re.match(r"(pub(\(crate\))? )?fn ", line):
            head, at = [], after_function(lines, at)
        else:
            kept += head + [lines[at]]
            head, at = [], at + 1
    text = re.sub(r"(?m)^impl \w+ \{\s*\}$", "", "\n".join(kept))
    return re.sub(r"(?m)^use (crate::[\w:]+?)::(\{[^}]*\}|\w+);", types_used, text)


def types_used(use):
    """The types of an import."""
    names = [name for name in re.findall(r"\w+", use.group(2)) if name[0].isupper()]
    return "use %s::{%s};" % (use.group(1), ", ".join(names)) if names else ""


def leave_out_functions(crate):
    """Takes the functions and their proofs out of a crate."""
    for path, _, names in os.walk(os.path.join(crate, "src")):
        for name in names:
            with open(os.path.join(path, name)) as file:
                text = without_functions(file.read())
            with open(os.path.join(path, name), "w") as file:
                file.write(text)
    for entry in os.scandir(os.path.join(crate, "proofs")):
        if entry.is_dir():
            shutil.rmtree(entry.path)


def renew(room, patch, laws):
    """Puts pr_truss into the copy, with a patch or without one, and whole or for the laws alone. What stays as it was
    is not touched."""
    work = tempfile.mkdtemp(dir=room)
    for part in PARTS:
        shutil.copytree(os.path.join(TOP, TRUSS, part), os.path.join(work, TRUSS, part))
    if patch:
        subprocess.run(["patch", "-s", "-p1", "-d", work, "-i", patch], check=True)
    if laws:
        leave_out_functions(os.path.join(work, TRUSS))
    new, old = os.path.join(work, TRUSS), os.path.join(room, TRUSS)
    for file in files_of(old) - files_of(new):
        os.remove(os.path.join(old, file))
    for file in files_of(new):
        target = os.path.join(old, file)
        if not os.path.exists(target) or read(target) != read(os.path.join(new, file)):
            os.makedirs(os.path.dirname(target), exist_ok=True)
            shutil.copyfile(os.path.join(new, file), target)
    shutil.rmtree(work)


def prove(room, crate, words, log):
    """Whether a crate is proved by `rt check` or `rt lib`, and what rt said."""
    said = subprocess.run(["rt"] + words, cwd=os.path.join(room, "crates", crate), capture_output=True, text=True)
    with open(os.path.join(room, "%s.%s.log" % (log, crate)), "w") as file:
        file.write(said.stdout + said.stderr)
    return said.returncode == 0, said.stdout + said.stderr


def head_of(patch):
    """The lines before the changes of a patch."""
    with open(patch) as file:
        return dict(re.findall(r"^(does|law|why): (.*)$", file.read(), re.MULTILINE))


def refused_in(said):
    """The functions that a check did not prove."""
    return sorted(set(re.findall(r"^fn \w+::([\w:]+): (?:not proved|no proof)", said, re.MULTILINE)))


def try_truss(room, name, law, laws, only):
    """What is wrong with a patch, and what refused it."""
    named = re.match(r"(\w+)::(\w+)", law)
    crates = LAWS if named.group(1) in LAWS else [named.group(1)]
    renew(room, os.path.join(PATCHES, name + ".patch"), laws and crates == LAWS)
    proved, _ = prove(room, "pr_truss", ["lib"], name)
    if not proved:
        return "pr_truss does not meet its own definitions", ""
    for crate in [named.group(1)] if only else crates:
        proved, said = prove(room, crate, ["check", "--only", named.group(2)] if only else ["check"], name)
        if not proved:
            return "", "%s refuses %s" % (crate, ", ".join(refused_in(said)) or "it: see its log")
    return "no law refuses it", ""


def main():
    words = argparse.ArgumentParser()
    words.add_argument("--in", dest="room")
    words.add_argument("--laws", action="store_true")
    words.add_argument("--only", action="store_true")
    words.add_argument("names", nargs="*")
    asked = words.parse_args()
    room = os.path.abspath(asked.room or tempfile.mkdtemp())
    os.makedirs(room, exist_ok=True)
    fill(room)
    checks = Checks()
    for name in sorted(file[: -len(".patch")] for file in os.listdir(PATCHES)):
        if not asked.names or any(name.startswith(front) for front in asked.names):
            head = head_of(os.path.join(PATCHES, name + ".patch"))
            wrong, refused = try_truss(room, name, head["law"], asked.laws, asked.only)
            checks.check("%s, as %s" % (name, head["does"]), wrong, refused)
    renew(room, None, asked.laws)
    if not asked.room:
        shutil.rmtree(room)
    checks.end()


if __name__ == "__main__":
    main()
