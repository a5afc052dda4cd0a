#!/usr/bin/env python3
"""Wrong bodies that `rt plant` makes up, tried against the clauses alone. `rt plant` proves the crate first, and after
it each body beside all that it calls; of a large crate that takes hours. Here the crate is copied, and in the copy each
function's own proof is a hole and its body is never reached, so that nothing is proved but the wrong bodies. What calls
the real function sees its clauses, as with `rt plant`. The bodies, the verdicts and the words for them are those of
`rt plant`, whose parts are taken from where rt lies; no body is tried that names the error for memory that ran out.

Words name crates; the crates below them have to be built here. For each crate the bodies that met their contract are
printed: `proves` is one to look at, `same` one that its contract shows to answer the same. --all prints the others too,
with what was not proved. The last line of a crate counts its functions and bodies. A body under a contract that gives
an equation for all that it answers and changes can only be the same, so --loose leaves such functions out. Of those
that --loose takes, --other-forms takes the ones of which an equation tells all that, but in another form: of a field,
say, or of a state with what is answered. Of the others a relation tells it, or an equation on a condition.

--only WORD takes the functions whose file, line and path contain it; --private also those that are not public; methods
of traits are left out. --by-hand tries the bodies of tests/plants/CRATE in place of those of `rt plant`: below a line
`fn: PATH` a line `body: TEXT` for each. --most N tries no more than N bodies of a function that call the real one, of
different kinds. --batch N is how many bodies are tried at once, and --in FOLDER keeps the copy with what was checked,
and in its file `verdicts` all that was judged so far. A batch takes a processor from 20 seconds to some minutes, and 1
to 2 GB; before the first one each crate takes two or three checks of its sources, to see which bodies compile. Several
calls can try several crates at once. It needs rt.
"""
import argparse
import collections
import importlib.machinery
import os
import re
import shutil
import subprocess
import sys
import tempfile
import time
import types

from checks import TOP

BY_HAND = os.path.join(TOP, "tests/plants")
MEMORY = re.compile(r"\b(NoMemory|OutOfMemory|AllocError|AllocFailed)\b")
# An equation in some form, and what a clause is said for all of.
EQUATION = re.compile(r"≡|\b(Gives|Answers|Says)\b")
BOUND = re.compile(r"^(\([\w ]+ : [^()]*(\([^()]*\)[^()]*)*\) )+→ ")
STUB = b"{ unreachable!() }"
# A clause that says what is given, unless memory ran out or there is nothing.
GIVEN = r"IfOk result \(λ (\w+)\. \1(\.items)? ≡ |(Gives|Answers) \(λ (\w+)\. \4\) result|option_copied result ≡ "
HOLE = """use Rattle.{crate}.proofs.{path}.Statement.{{statement}}

pub {name}_spec : {{M : Type 1}} → statement M
{name}_spec = ?
"""


def part_of_rt(name):
    """A part of rt, which lies beside it, as a module."""
    beside = os.path.dirname(os.path.realpath(shutil.which("rt") or sys.exit("plants.py needs rt")))
    module = types.ModuleType(name)
    module.__file__ = os.path.join(beside, name)
    importlib.machinery.SourceFileLoader(name, module.__file__).exec_module(module)
    return module


sys.dont_write_bytecode = True
planting = part_of_rt("rt-plant")
rt, bodies = planting.rt, planting.bodies


class Bodies(bodies.Bodies):
    """The bodies that rt plant makes up, but for those that answer that memory ran out, and of those that call the real
    function no more than so many, of different kinds."""

    most = 1 << 30

    def giving_up(self):
        return [it for it in super().giving_up() if not MEMORY.search(it.text)]

    def over_the_real_one(self, fails):
        found = [it for it in super().over_the_real_one(fails) if not MEMORY.search(it.text)]
        kept = min(len(found), self.most)
        return [found[at * len(found) // kept] for at in range(kept)]


def behind_comment(words, behind=bodies.without_attributes):
    """What stands behind attributes and behind the doc comment of a variant or a field, which rt plant takes for its
    name."""
    return behind([it for it in words if not it.startswith("///")])


bodies.Bodies, bodies.without_attributes = Bodies, behind_comment


def read_crate(name):
    """A crate, and what its sources and those below declare."""
    folder = os.path.join(TOP, "crates", name)
    os.chdir(folder)
    crate = rt.Crate(folder, TOP, {})
    lacking = [it.name for it in crate.below() if not os.path.isdir(it.rlib)]
    if lacking:
        sys.exit("build these first: %s" % " ".join(lacking))
    source = bodies.Source(folder)
    source.read("src/main.rt" if crate.is_program else "src/lib.rt")
    source.read_specs()
    for library, built in planting.libraries(crate).items():
        if library not in (*rt.SEALED, "libc", "os"):
            source.add_library(library, "%s/lang" % built)
    return crate, source


def can_be_a_hole(f):
    return f.has_body and not f.in_trait and not f.in_cycle and f.name != "main"


def path_of(source, f):
    """Where a function's proof lies: that of a method in the module of its type, wherever its `impl` stands."""
    if not f.block:
        return [*f.module, f.name]
    modules = [module for module, word, *_ in source.declared.get(f.owner, []) if word in ("struct", "enum")]
    return [*(modules or [f.module])[0], f.owner, f.name]


def lent(f):
    """What a function is lent to change, by name."""
    return [name for name, ty in f.params if ty[:1] == ["&"] and "mut" in ty] + ["self"] * f.changes_self


def clauses_of(source, f):
    """The clauses that a function ensures, each in one line and without the name of its own."""
    text = source.data[f.file][f.start : f.opens].decode()
    clauses = re.findall(r"ensures\s*\w*\s*\{(.*?)\}\s*(?=\n\s*(?://|ensures|requires)|\Z)", text, re.S)
    return [" ".join(it.split()) for it in clauses]


def to_tell(f):
    """What the clauses of a function have to tell: what it gives, and each thing that it is lent, by name."""
    return {*lent(f), *["result"] * (f.ret not in ([], ["(", ")"]))}


def gives_equations(source, f):
    """Whether there is an equation, by its form, for what a function gives and for each thing that it is lent, unless
    memory ran out."""
    told = set()
    for clause in clauses_of(source, f):
        whole = re.match(r"(result(?:\.now)?|(\w+)\.new(?:\.items|\.entries)?) ≡ ", clause)
        if whole and "→" not in clause:
            told.add(whole[2] or "result")
        changed = re.match(r"OnOk result \((\w+)\.new ≡ ", clause)
        if changed:
            told.update({changed[1]}, ["result"] * (f.ret[:4] == ["Result", "<", "(", ")"]))
        told.update(["result"] * bool(re.match(GIVEN, clause) and "→" not in clause))
    return told >= to_tell(f)


def stands_in_equations(source, f):
    """Whether what a function gives, and each thing that it is lent, stands in a clause that is an equation in some
    form, on no condition but that the function succeeds."""
    told = set()
    for clause in (re.sub(BOUND, "", it) for it in clauses_of(source, f)):
        if "→" not in clause and EQUATION.search(clause) and not clause.startswith("OnErr"):
            gives = not clause.startswith("OnOk") or f.ret[:4] == ["Result", "<", "(", ")"]
            told.update(["result"] * bool(gives and re.search(r"\bresult\b", clause)))
            told.update(it for it in lent(f) if re.search(r"\b%s\.new\b" % it, clause))
    return told >= to_tell(f)


def row_of(plant):
    """A wrong body with its verdict."""
    why = "  (%s)" % plant.why if plant.why else ""
    return "%-10s  %s: { %s }%s" % (plant.kind, plant.f.shown, plant.body, why)


class Copy(planting.Copy):
    """The copy of a crate in which the bodies are tried, over clauses alone."""

    def __init__(self, crate, source, folder):
        self.crate, self.source, self.folder, self.lines = crate, source, folder, {}
        self.end = float("inf")
        os.makedirs("%s/out" % folder, exist_ok=True)
        for part in rt.PARTS:
            shutil.rmtree("%s/%s" % (folder, part), ignore_errors=True)
            if os.path.isdir("%s/%s" % (crate.folder, part)):
                shutil.copytree("%s/%s" % (crate.folder, part), "%s/%s" % (folder, part))
        holes = [f for f in source.functions if can_be_a_hole(f)]
        times = collections.Counter(tuple(path_of(source, f)) for f in holes)
        for f in holes:
            path = path_of(source, f)
            if times[tuple(path)] == 1 and all(re.fullmatch(r"\w+", it) for it in path):
                self.leave_open(f, path)

    def leave_open(self, f, path):
        """Makes a hole of a function's proof, and stops its body. No other byte of its file moves."""
        at = "%s/proofs/%s" % (self.folder, "/".join(path))
        os.makedirs(at, exist_ok=True)
        for file in os.listdir(at):
            if file in ("Invariants.antt", "Answers.antt"):
                os.remove("%s/%s" % (at, file))
        with open("%s/Proof.antt" % at, "w", encoding="utf-8") as proof:
            proof.write(HOLE.format(crate=self.crate.name, path=".".join(path), name=f.name))
        data = self.source.data[f.file]
        is_const = re.search(rb"\bconst\b", data[f.start : f.named[0]])
        if f.end - f.opens >= len(STUB) and not is_const:
            self.source.data[f.file] = data[: f.opens] + STUB.ljust(f.end - f.opens) + data[f.end :]

    def check(self, names):
        """What a check of these functions prints, where one that rests on holes of others alone is proved."""
        words = [it for name in names for it in ("--only", name)]
        words = [*self.crate.words(["--jobs", "1", *words]), *rt.KEPT, "--allow-holes", "--progress"]
        how = {"cwd": self.folder, "stdin": subprocess.DEVNULL, "stdout": subprocess.PIPE, "stderr": subprocess.STDOUT}
        ran = subprocess.run([*rt.guarded(), rt.RATTLE, "check", *words], encoding="utf-8", errors="replace", **how)
        said = re.sub(r"(?m)^(fn \S+: )(no holes|depends on a hole)", r"\1proved, \2", ran.stdout)
        return said if ran.returncode >= 0 else None

    def judge(self, plants):
        for at in range(0, len(plants), planting.BATCH):
            batch, began = plants[at : at + planting.BATCH], time.monotonic()
            self.write(batch)
            super().judge(batch)
            self.note(batch, began)

    def note(self, batch, began):
        """Tells how a batch was judged."""
        kinds = collections.Counter(it.kind for it in batch)
        told = ", ".join("%d %s" % (kinds[it], it) for it in planting.KINDS if kinds[it])
        print("%s: %s, %d s" % (self.crate.name, told, time.monotonic() - began), file=sys.stderr, flush=True)
        with open("%s/verdicts" % self.folder, "a", encoding="utf-8") as verdicts:
            verdicts.writelines("%s\n" % row_of(it) for it in batch)


    def pass_over_guesses(self, plants):
        """Where a function has a proof of its own, the tactics lack that for a body that calls others in its place."""
        for it in plants:
            proof = "%s/proofs/%s" % (self.crate.folder, "/".join(path_of(self.source, it.f)))
            is_called = re.search(r"::%s\b" % it.f.name, it.body)
            is_constant = not re.search(r"\b[a-z]\w*(::<.*>)?\(", it.body)
            if it.kind == "refused" and os.path.isdir(proof) and not is_called and not is_constant:
                it.kind, it.why = "not-judged", "the function has a proof of its own; " + it.why

    def try_out(self, plants):
        """Judges bodies in one check for each batch, or in one more for those that do not compile."""
        for at in range(0, len(plants), planting.BATCH):
            batch, began = plants[at : at + planting.BATCH], time.monotonic()
            left = batch
            while left:
                self.write(left)
                said = self.check([it.name for it in left]) or ""
                if re.search(r"(?m)^(only=|rattle: no verdict)", said):
                    planting.read(left, said)
                    self.pass_over_guesses(left)
                    break
                lines = planting.ERROR.findall(said)
                wrong = {self.lines.get((file, int(line))) for file, line in lines} - {None}
                for it in wrong or left:
                    it.kind = "not-source" if wrong else "not-judged"
                left = [it for it in left if it.kind == "not-run"]
            self.note(batch, began)


def chosen(crate, source, asked):
    """The functions whose wrong bodies are tried."""
    found = []
    for f in source.functions:
        is_wanted = any(word in f.shown for word in asked.only) if asked.only else f.is_pub or asked.private
        gives = f.ret not in ([], ["(", ")"]) or lent(f)
        if is_wanted and can_be_a_hole(f) and f.has_ensures and gives and f.ret != ["!"]:
            found.append(f)
    if asked.loose or asked.other_forms:
        found = [f for f in found if not gives_equations(source, f)]
    return [f for f in found if not asked.other_forms or stands_in_equations(source, f)]


def by_hand(name, source):
    """The bodies of a crate that were written by hand, not judged yet."""
    plants, f = [], None
    with open(os.path.join(BY_HAND, name), encoding="utf-8") as file:
        rows = [line.strip().partition(": ") for line in file if line.strip() and line[0] != "#"]
    for word, _, text in rows:
        if word == "fn":
            (f,) = (it for it in source.functions if it.shown.split(" ", 1)[1] == text)
        else:
            plants.append(planting.Plant(f, bodies.Body(text), len(plants)))
    return plants


def plant_in(name, asked):
    """Tries the wrong bodies of one crate."""
    crate, source = read_crate(name)
    while any(planting.Plant.stem.encode() in it for it in source.data.values()):
        planting.Plant.stem += "_"
    room = os.path.abspath(asked.room or tempfile.mkdtemp())
    copy = Copy(crate, source, os.path.join(room, name))
    if asked.by_hand:
        plants = [it for it in by_hand(name, source) if not asked.only or any(w in it.f.shown for w in asked.only)]
        functions = {it.f for it in plants}
        copy.try_out(plants)
    else:
        functions = chosen(crate, source, asked)
        plants = planting.plant(crate, copy, functions, functions, 1 << 30)
    if not asked.room:
        shutil.rmtree(room)
    shown = planting.KINDS if asked.all else ("proves", "same")
    for it in sorted((it for it in plants if it.kind in shown), key=lambda it: shown.index(it.kind)):
        print(row_of(it))
    kinds = collections.Counter(it.kind for it in plants)
    counted = " ".join("%s=%d" % (it, kinds[it]) for it in planting.KINDS[:-1])
    print("plants crate=%s planted-in=%d %s" % (name, len(functions), counted), flush=True)


def main():
    words = argparse.ArgumentParser()
    words.add_argument("--only", action="append", default=[])
    words.add_argument("--private", action="store_true")
    words.add_argument("--loose", action="store_true")
    words.add_argument("--other-forms", action="store_true")
    words.add_argument("--by-hand", action="store_true")
    words.add_argument("--all", action="store_true")
    words.add_argument("--most", type=int, default=Bodies.most)
    words.add_argument("--batch", type=int, default=24)
    words.add_argument("--in", dest="room")
    words.add_argument("crates", nargs="+")
    asked = words.parse_args()
    asked.room = asked.room and os.path.abspath(asked.room)
    planting.BATCH, Bodies.most = asked.batch, asked.most
    for name in asked.crates:
        plant_in(name, asked)


if __name__ == "__main__":
    main()
