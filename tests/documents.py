#!/usr/bin/env python3
"""Runs each command of the pages as it is written, and compares what it writes with what stands there.

A command is an indented line that begins with ./proclab, ./phist or a brace, or one in backquotes at the end of a
paragraph that says `writes`. Where a paragraph after it, or that one, says so, the next indented block is its output;
a line `..` stands for any lines. What stands behind a command on its line, after three blanks, is its output where it
is in hex. Each command has to end with status 0 and to say nothing on standard error.

    tests/documents.py [PROCLAB PHIST]

The programs are those of ./proclab and ./phist, or those given. The last line is 'N passed, M failed'.
"""
import glob
import os
import re
import subprocess
import sys
import tempfile

TOP = os.path.dirname(os.path.dirname(os.path.abspath(__file__)))
PAGES = [os.path.join(TOP, "README.md")] + sorted(glob.glob(os.path.join(TOP, "docs/*.md")))
COMMAND = re.compile(r"    (\./(?:proclab|phist) .*|\{ .*\} \| \./.*)$")
QUOTED = re.compile(r"`(\./(?:proclab|phist) [^`]*)`\s+(?:writes|tells them as)$")
# words that stand for something else
PLACEHOLDER = re.compile(r"\b(PROGRAMS|RUN|FILE|NAME)\b")


def blocks_of(page):
    """The blocks of a page, each a list of lines; blank lines part them."""
    blocks = [[]]
    for line in open(page, encoding="utf-8").read().split("\n"):
        if line.strip():
            blocks[-1].append(line)
        elif blocks[-1]:
            blocks.append([])
    return [block for block in blocks if block]


def is_indented(block):
    return all(line.startswith("    ") for line in block)


def shown_below(blocks, at):
    """The indented block that a paragraph at this place or the next one says to be the output; None: none does."""
    for here in (at, at + 1):
        told = here < len(blocks) and not is_indented(blocks[here])
        if told and re.search(r"\b(writes|tells them as)$", " ".join(blocks[here])):
            if here + 1 < len(blocks) and is_indented(blocks[here + 1]):
                return [line[4:] for line in blocks[here + 1]]
        if told:
            return None
    return None


def commands_of(page):
    """The commands of a page, each with the lines that it is to write, or None."""
    blocks = blocks_of(page)
    for at, block in enumerate(blocks):
        if is_indented(block):
            found = [COMMAND.match(line) for line in block]
            alone = [match for match in found if match]
            for match in alone:
                command, _, behind = match.group(1).partition("   ")
                shown = shown_below(blocks, at) if len(alone) == len(block) == 1 else None
                if re.fullmatch(r"\s*[0-9a-f]{16,}", behind):
                    shown = [behind.strip()]
                yield command, shown
        else:
            match = QUOTED.search(" ".join(block))
            if match:
                yield match.group(1), shown_below(blocks, at)


def is_shown(lines, shown):
    """Whether lines are those that are shown, of which `..` stands for any."""
    pattern = "".join("(?:.*\n)*" if line == ".." else re.escape(line) + "\n" for line in shown)
    return re.fullmatch(pattern, "".join(line + "\n" for line in lines)) is not None


def fault_of(command, shown, folder):
    """What is wrong with a command; None: nothing."""
    ran = subprocess.run(["bash", "-c", command], cwd=folder, capture_output=True, timeout=900)
    written = ran.stdout.decode("utf-8", "replace").rstrip("\n").split("\n")
    if ran.returncode != 0 or ran.stderr:
        return f"status {ran.returncode}: {ran.stderr.decode('utf-8', 'replace')}"
    if shown is not None and not is_shown(written, shown):
        return "it writes\n" + "\n".join(written) + "\nand not\n" + "\n".join(shown)
    return None


def main():
    programs = sys.argv[1:3] if len(sys.argv) == 3 else [os.path.join(TOP, "proclab"), os.path.join(TOP, "phist")]
    passed = failed = 0
    with tempfile.TemporaryDirectory() as folder:
        os.symlink(os.path.join(TOP, "examples"), os.path.join(folder, "examples"))
        for name, program in zip(("proclab", "phist"), programs):
            path = os.path.join(folder, name)
            with open(path, "w", encoding="utf-8") as script:
                script.write(f'#!/bin/sh\nexec "{os.path.abspath(program)}" "$@"\n')
            os.chmod(path, 0o755)
        for page in PAGES:
            for command, shown in commands_of(page):
                if PLACEHOLDER.search(command):
                    continue
                fault = fault_of(command, shown, folder)
                if fault is None:
                    passed += 1
                else:
                    failed += 1
                    print(f"{os.path.relpath(page, TOP)}: {command}\n{fault}")
    print(f"{passed} passed, {failed} failed")
    return failed != 0


if __name__ == "__main__":
    sys.exit(main())
