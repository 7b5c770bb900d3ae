#!/usr/bin/env python3
"""Tries the wrong bodies that `rt plant` makes, over the contracts of what they call: tells of each what the prover says.

usage: tools/planted.py [--giving-up] [--after N] CRATE [WORD]
                        with WORD, the functions alone whose file, line and path contain it; with --giving-up the bodies alone that give up, and
                        none that calls the real function; with --after N, an earlier run having ended after N bodies, those that follow

`rt plant` first checks the crate as it stands, and halves what takes long. Here, as in refused.py, each function of the crate is taken by its contract
alone, and of the crates below those are read as source whose libraries ./check has not just left: no crate has to be proved before, and no body is
given up for its time. What is told is said in `rt plant --help`, and so is the last line. A body that `proves` shows what a contract leaves open, unless
it is right. A crate takes some ten checks, each minutes of a processor, and over twenty where it has a hundred bodies of functions with long contracts. It
uses parts of the toolchain's `rt plant`.
"""
import argparse
import collections
import os
import re
import subprocess
import sys
import tempfile

import by_contract
import part
import refused

# How many bodies one check judges at most. More are cheaper each, and tell nothing for longer.
AT_ONCE = 40

# What the planter needs to know of a crate, or of one below it: its sources are in the folder `lang` of its library.
Library = collections.namedtuple("Library", "name rlib of_kit")


sys.dont_write_bytecode = True
PLANTER = part.program("rt-plant")
WITHOUT_ATTRIBUTES = PLANTER.bodies.without_attributes


def without_comments(words):
    """The words of a field or of a variant without the attributes and the docstring above it, which the toolchain takes for its name."""
    words = WITHOUT_ATTRIBUTES(words)
    while words and words[0].startswith("///"):
        words = WITHOUT_ATTRIBUTES(words[1:])
    return words


PLANTER.bodies.without_attributes = without_comments


class Crate:
    """The copy of a crate in which each function is taken by its contract, as the planter wants to know it."""

    def __init__(self, name, room):
        self.name, self.folder = name, by_contract.copy_of(name, room)
        self.is_program = os.path.isfile(os.path.join(self.folder, "src", "main.rt"))
        by_contract.take_by_contract(name, self.folder, ())
        os.mkdir(os.path.join(self.folder, "out"))
        self.checks = refused.words_of_check(name, os.path.join(room, "below"))
        # what is kept of checks in which bodies are tried by hand is not mixed with these
        kept = self.checks.index("--incremental") + 1
        self.checks[kept] = os.path.join(part.CRATES, name, "out", "planted")
        os.makedirs(self.checks[kept], exist_ok=True)
        listed = part.crates_listed()
        of_kit = lambda it: [used for used in listed[it].uses if used not in listed]
        self.of_kit = of_kit(name)
        names = [it for it in part.with_all_below(name, listed, []) if it != name]
        self.libraries = [Library(it, self.library_of(it, room), of_kit(it)) for it in names]

    def library_of(self, name, room):
        """The library of a crate below, or a folder that is laid out as it."""
        if part.is_of_gate(name):
            return os.path.join(part.libraries_of(name), name + ".rlib")
        folder = os.path.join(room, "libraries", name + ".rlib")
        os.makedirs(folder)
        os.symlink(os.path.join(part.CRATES, name), os.path.join(folder, "lang"))
        return folder

    def below(self):
        return self.libraries


def words_of(plant):
    """A body, with its function, and why it has its kind."""
    return "%s: { %s }%s" % (plant.f.shown, plant.body, plant.why and "  (%s)" % plant.why)


class Copy(PLANTER.Copy):
    """Writes wrong bodies into the copy, and judges as many at once as compile together."""

    def __init__(self, crate, source, first):
        self.crate, self.source, self.folder, self.flags = crate, source, crate.folder, []
        self.lines, self.checks, self.end = {}, 0, 0
        # the first body that is judged, and the one that is due, both counted from 0 in the order in which they are made
        self.first, self.due = first, 0

    def is_late(self):
        return False

    def compiled(self, plants):
        """All of them: the check that judges them tells what does not compile."""
        return plants

    def said_of(self, names):
        only = [word for name in names for word in ("--only", name)]
        how = {"stdin": subprocess.DEVNULL, "stdout": subprocess.PIPE, "stderr": subprocess.STDOUT, "text": True, "errors": "replace"}
        said = subprocess.run([*self.crate.checks, *only], cwd=self.folder, check=False, **how).stdout
        self.checks += 1
        said = re.sub(r"(?m)^so far: .*\n", "", said)
        # what is proved but for the contracts of what it calls
        return re.sub(r"(?m)^(fn \S+: )(no holes|depends on a hole)", r"\1proved, \2", said)

    def checked(self, plants):
        """What the check of these says. A method that one of them stands in has no proof in the meantime."""
        self.write(plants)
        proofs = [it for it in {self.proofs_of(it.f.symbols[0]) for it in plants if it.f.in_trait} if os.path.isdir(it)]
        for at, proof in enumerate(proofs):
            os.rename(proof, os.path.join(self.folder, "out", str(at)))
        said = self.said_of(name for it in plants for name in it.f.symbols or [it.name])
        for at, proof in enumerate(proofs):
            os.rename(os.path.join(self.folder, "out", str(at)), proof)
        return said

    def judge(self, plants):
        """Gives each its kind, some at a time, and tells it, so that it stands where a run is broken off."""
        passed_over = min(max(self.first - self.due, 0), len(plants))
        self.due += passed_over
        for at in range(passed_over, len(plants), AT_ONCE):
            now = plants[at:at + AT_ONCE]
            self.judge_at_once(now)
            self.due += len(now)
            print("-- after %d bodies" % self.due, flush=True)

    def judge_at_once(self, plants):
        """Gives each its kind, by one check where all compile."""
        while plants:
            said = self.checked(plants)
            if re.search(r"(?m)^fn ", said):
                PLANTER.read(plants, said)
                # the unchanged call, which has to be proved, is no wrong body
                for it in [it for it in plants if it.body != it.f.call()]:
                    print("so far: %-10s  %s" % (it.kind, words_of(it)))
                print("-- check %d: %d bodies judged" % (self.checks, len(plants)), flush=True)
                return
            wrong = {self.lines.get((file, int(line))) for file, line in PLANTER.ERROR.findall(said)} - {None}
            print("-- check %d: of %d bodies %d do not compile" % (self.checks, len(plants), len(wrong)), flush=True)
            if not wrong and len(plants) > 1:
                self.judge_at_once(plants[:len(plants) // 2])
                self.judge_at_once(plants[len(plants) // 2:])
                return
            for it in wrong or plants:
                it.kind = "not-source"
            plants = [it for it in plants if wrong and it not in wrong]

    def judge_in_place(self, plants):
        """Judges those of methods of traits, of each method one in a round."""
        while plants:
            of_method = {it.f.symbols[0]: it for it in reversed(plants)}
            self.judge(list(of_method.values()))
            plants = [it for it in plants if it not in of_method.values()]


def source_of(crate, folder):
    source = PLANTER.bodies.Source(folder)
    source.read("src/main.rt" if crate.is_program else "src/lib.rt")
    source.read_specs()
    return source


def source_with_bodies(crate):
    """The source of the copy, whose functions know their real bodies, and the methods of traits what the check calls them."""
    place = lambda f: (f.file, f.name, str(f.block and [f.block.trait, f.block.ty]))
    source, real = source_of(crate, crate.folder), source_of(crate, os.path.join(part.CRATES, crate.name))
    of_real, (standing, _) = {place(f): f for f in real.functions}, by_contract.functions_of(crate.folder)
    for f in source.functions:
        f.symbol = "%s::%s" % (crate.name, standing.get((f.file, f.line - 1)))
        f.body, f.shown = of_real[place(f)].body, of_real[place(f)].shown
    for name, rlib in PLANTER.libraries(crate).items():
        if name not in (*PLANTER.rt.SEALED, "libc", "os"):
            source.add_library(name, os.path.join(rlib, "lang"))
    return source


def main():
    options = argparse.ArgumentParser(usage=__doc__[__doc__.index("tools/"):])
    options.add_argument("--giving-up", action="store_true")
    options.add_argument("--after", metavar="N", type=int, default=0)
    options.add_argument("crate")
    options.add_argument("word", nargs="?", default="")
    given = options.parse_args()
    with tempfile.TemporaryDirectory() as room:
        crate = Crate(given.crate, room)
        source = source_with_bodies(crate)
        functions, bare = PLANTER.chosen(crate, source, {}, given.word)
        for f in functions:
            f.symbols, f.is_found = ([f.symbol], True) if f.in_trait else ([], False)
        # those of which the unchanged call is tried, and where it is proved what changes it
        called = [] if given.giving_up else functions
        plants = PLANTER.plant(crate, Copy(crate, source, given.after), functions, called, sys.maxsize)
    tested = {it.f for it in plants if it.kind in PLANTER.KINDS[:4] and it.form in PLANTER.GIVES_UP}
    rows = [("no-ensures", f.shown) for f in bare] + [("untested", f.shown) for f in functions if f not in tested]
    rows += sorted((it.kind, words_of(it)) for it in plants)
    for row in rows:
        print("%-10s  %s" % row)
    counts = collections.Counter(it.kind for it in plants)
    print("plants crate=%s planted-in=%d untested=%d no-ensures=%d %s" % (crate.name, len(functions), len(functions) - len(tested), len(bare),
                                                                        " ".join("%s=%d" % (it, counts[it]) for it in PLANTER.KINDS)))
    return 0


if __name__ == "__main__":
    sys.exit(main())
