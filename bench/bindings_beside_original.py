#!/usr/bin/env python3
"""Times the library for C, called from Rust, beside the original crate in one program, and prints the table of docs/MEASURED.md on that.

usage: bench/bindings_beside_original.py LIBRARY [--original FOLDER] [--registry FOLDER] [--work FOLDER]
                                         [--turns N] [--processor N]

  LIBRARY               the folder in which tools/bindings.py made the library
  --original, --registry, --work    as of tools/beside_original.py: what the original is built from
  --turns N             how often each way answers each text; else 25
  --processor N         the processor that the program is bound to; else the last

The program (bench/bindings_beside_original) is given a text, and answers it by the library through bindings/rust, by the crate from the
text to its types, and by the crate from a `serde_json::Value` of it. The ways take turns, each second turn the other way round. The
program stops where their answers are not of one tree. Each time is that of the processor for a call, from the text to the answer, the
least of all turns; beside it stands the middle one of the ratios of the two times of a turn. Needs cargo and a C compiler.
"""
import argparse
import json
import os
import statistics
import subprocess
import sys
import tempfile

ROOT = os.path.dirname(os.path.dirname(os.path.abspath(__file__)))
SOURCES = os.path.join(ROOT, "bench", "bindings_beside_original")
# The script of tools/ has the name of one of this folder, and has to be found first.
sys.path[:0] = [os.path.join(ROOT, "tools")]

import beside_original as comparison
from services import write_inputs
from merging import service_document

COLUMNS = ["Input", "MB", "library (ms)", "crate, direct (ms)", "time to it", "by the turns", "crate, by a tree (ms)", "time to it", "by the turns"]


def write_tree(path, tree):
    with open(path, "w", encoding="utf-8") as out:
        json.dump(tree, out, separators=(",", ":"))


def inputs(folder):
    """The name of each input, the command, and the path of its text."""
    paths = [os.path.join(folder, it) for it in ("documents.json", "large.json", "small.json")]
    write_tree(paths[0], [service_document(number, 400_000 // 13) for number in range(13)])
    write_inputs(paths[1], paths[1] + ".case", 1)
    write_tree(paths[2], service_document(0, 10_000))
    return zip(("merge of 13 documents", "document", "document"), ("merge", "document", "document"), paths)


def times(program, command, path, turns):
    """The milliseconds of the library and of the crate each way, each a list by the turns."""
    with open(path, "rb") as text:
        said = subprocess.run([program, command, str(turns)], stdin=text, stdout=subprocess.PIPE, text=True, check=False)
    if said.returncode:
        sys.exit("bindings_beside_original: %s of %s is not timed" % (command, os.path.basename(path)))
    return list(zip(*([int(it) / 1e6 for it in line.split()] for line in said.stdout.splitlines())))


def row(name, path, library, ways):
    cells = [name, "%.3g" % (os.path.getsize(path) / 1e6), "%.3g" % min(library)]
    for way in ways:
        by_turns = statistics.median(one / other for one, other in zip(library, way))
        cells += ["%.3g" % min(way), "%.2f" % (min(library) / min(way)), "%.2f" % by_turns]
    return "| %s |" % " | ".join(cells)


def asked():
    words = argparse.ArgumentParser(usage="\n".join(__doc__.split("\n")[2:4])[7:])
    words.format_help = lambda: __doc__
    words.add_argument("library")
    for name in ("--original", "--registry", "--work"):
        words.add_argument(name)
    words.add_argument("--turns", type=int, default=25)
    words.add_argument("--processor", type=int, default=max(os.sched_getaffinity(0)))
    return words.parse_args()


def main():
    call = asked()
    lib = os.path.join(os.path.abspath(call.library), "lib")
    if not os.path.isfile(os.path.join(lib, "libutoipa.a")):
        sys.exit("bindings_beside_original: there is no lib/libutoipa.a in %s, where tools/bindings.py makes it" % call.library)
    with tempfile.TemporaryDirectory(prefix="bindings-beside-original-") as folder:
        wrapper = [("utoipa_proved", os.path.join(ROOT, "bindings", "rust"))]
        program = comparison.built_driver(call, call.work or folder, SOURCES, wrapper, [("UTOIPA_LIBRARY", lib)])
        os.sched_setaffinity(0, {call.processor})
        print("| %s |\n|%s" % (" | ".join(COLUMNS), "---|" * len(COLUMNS)))
        for name, command, path in inputs(folder):
            library, *ways = times(program, command, path, call.turns)
            print(row(name, path, library, ways), flush=True)


if __name__ == "__main__":
    main()
