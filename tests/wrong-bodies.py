#!/usr/bin/env python3
"""Wrong bodies that the prover refuses, of crates where it would cost the gate minutes to try them. An edit of
tests/wrong-bodies/CRATE turns one meaning of that crate, in the form of the edits in must-fail/, and is tried as the
gate tries those, by `rt must-fail` in a copy of the crates. A line is printed for each edit, with the first thing that
was not proved.

Words name crates; without words all are tried, which takes some hours of one processor. --in FOLDER keeps the copy
with what was proved, and a later call begins there and tries only what has changed. The last line is 'N passed, M
failed'. It needs rt; what this checkout has built of the crates below is copied.
"""
import argparse
import os
import re
import shutil
import subprocess
import tempfile

from checks import TOP, Checks, copy_crates

EDITS = os.path.join(TOP, "tests/wrong-bodies")


def try_crate(room, crate, checks):
    """Tries the edits of one crate."""
    folder = os.path.join(room, "crates", crate, "must-fail")
    shutil.rmtree(folder, ignore_errors=True)
    shutil.copytree(os.path.join(EDITS, crate), folder)
    ran = subprocess.run(["rt", "must-fail", crate], cwd=room, capture_output=True, text=True)
    said = ran.stdout + ran.stderr
    for name in sorted(os.listdir(folder)):
        told = re.search(r"must-fail %s/%s: (.*)" % (crate, re.escape(name)), said)
        verdict = told.group(1) if told else "it was not tried: %s" % said.strip()[-200:]
        refused = verdict.startswith("refused, as it must be")
        checks.check("%s/%s" % (crate, name[: -len(".edit")]), "" if refused else verdict, verdict if refused else "")


def main():
    words = argparse.ArgumentParser()
    words.add_argument("--in", dest="room")
    words.add_argument("crates", nargs="*")
    asked = words.parse_args()
    room = os.path.abspath(asked.room or tempfile.mkdtemp())
    os.makedirs(room, exist_ok=True)
    crates = sorted(asked.crates or os.listdir(EDITS))
    copy_crates(room, crates)
    checks = Checks()
    for crate in crates:
        try_crate(room, crate, checks)
    if not asked.room:
        shutil.rmtree(room)
    checks.end()


if __name__ == "__main__":
    main()
