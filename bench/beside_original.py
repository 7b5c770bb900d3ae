#!/usr/bin/env python3
"""Times the command `utoipa_doc` beside the original crate, on the same texts, and prints the table of docs/MEASURED.md on that.

usage: bench/beside_original.py [--original FOLDER] [--registry FOLDER] [--work FOLDER] [--program FILE]
                                [--runs N] [--processor N] [--up-to MEGABYTES]

  --original, --registry, --work, --program    as of tools/beside_original.py: what the original is built from, and the port's program
  --runs N              how often each text is answered by each; else 5
  --processor N         the processor that all runs are bound to; else the last
  --up-to MEGABYTES     the largest texts of documents and of schemas; else 30

The original answers a text the direct way, from the text to its types and from these to a text; a list that is merged also by a
`serde_json::Value`. The runs of all take turns. Each time is that of the processor for a whole run, the least of all runs; the memory is
the greatest that a run held. Each run has to give an answer; whether it is the same one is told by tools/beside_original.py. The last
rows are the contents of a response under names of one hash, and under others of the same length. Needs cargo, and ./build before.
"""
import argparse
import itertools
import json
import os
import random
import sys
import tempfile

ROOT = os.path.dirname(os.path.dirname(os.path.abspath(__file__)))
# The script of tools/ has the name of this one, and has to be found first.
sys.path[:0] = [os.path.join(ROOT, "tools")]

import beside_original as comparison
from services import write_inputs
from hostile import names_of_one_hash
from merging import service_document
from reading import ORDINARY, TRIED, write_schema
from runs import RUNS, by_turns, in_another_process, stop_if_lacking

TITLE = '{"openapi":"3.1.0","info":{"title":"t","version":"1"},"paths":{"/a":{"get":{"responses":{"200":{"content":{%s}}}}}}}'


def write_list(path, count, size):
    with open(path, "w") as out:
        json.dump([service_document(number, size) for number in range(count)], out, separators=(",", ":"))


def other_names():
    """Names by chance, as long as those of one hash, always the same."""
    chance = random.Random(1)
    while True:
        yield "%032d" % chance.randrange(10**32)


def write_contents(path, of_one_hash, megabytes):
    """A document whose one response has contents under such names."""
    names = names_of_one_hash("") if of_one_hash else other_names()
    length = len(next(names)) + len('"":{},')
    with open(path, "w") as out:
        out.write(TITLE % ",".join('"%s":{}' % it for it in itertools.islice(names, megabytes * 1_000_000 // length)))


def write_document(path, megabytes):
    write_inputs(path, path + ".case", megabytes)


def inputs(most):
    """The name of each input, the command, and how its text is written."""
    for megabytes in (it for it in (1, 10, 30) if it <= most):
        yield "document, %d MB" % megabytes, "document", write_document, (megabytes,)
    for name, properties in (("ordinary", ORDINARY), ("tried", TRIED)):
        for megabytes in (it for it in (1, 10) if it <= most):
            yield "schema, %s, %d MB" % (name, megabytes), "schema", write_schema, (megabytes, properties, 0)
    for count, size in ((13, 400_000 // 13), (200, 10_000), (2_000, 10_000)):
        yield "merge of %d documents" % count, "merge", write_list, (count, size)
    for of_one_hash in (True, False):
        yield "contents under names %s, 3 MB" % ("of one hash" if of_one_hash else "by chance"), "document", write_contents, (of_one_hash, 3)


def row(name, ways, path, runs):
    """The cells of one input: of the port, and of the original each way."""
    measured = by_turns([(words, path, 0) for words in ways], runs)
    (seconds, memory), *others = [(min(it[0] for it in runs), max(it[1] for it in runs)) for runs in measured]
    cells = [name, "%.1f" % (os.path.getsize(path) / 1e6), "%.3f" % seconds, "%.0f" % memory]
    for other_seconds, other_memory in others:
        cells += ["%.3f" % other_seconds, "%.0f" % other_memory, "%.2f" % (seconds / other_seconds), "%.2f" % (memory / other_memory)]
    return "| %s |" % " | ".join(cells + ["" for _ in range(4 * (3 - len(ways)))])


def asked():
    words = argparse.ArgumentParser(usage="\n".join(__doc__.split("\n")[2:4])[7:])
    words.format_help = lambda: __doc__
    for name in ("--original", "--registry", "--work"):
        words.add_argument(name)
    words.add_argument("--program", default=os.path.join(ROOT, "crates", "utoipa_doc", "out", "utoipa_doc"))
    words.add_argument("--runs", type=int, default=RUNS + 2)
    words.add_argument("--processor", type=int, default=max(os.sched_getaffinity(0)))
    words.add_argument("--up-to", type=int, default=30)
    return words.parse_args()


def main():
    call = asked()
    stop_if_lacking([call.program])
    with tempfile.TemporaryDirectory(prefix="beside-original-") as folder:
        driver = comparison.built_driver(call, call.work or folder)
        os.sched_setaffinity(0, {call.processor})
        of_way = ["original, %s (s)", "memory (MB)", "utoipa_doc to it", "memory to it"]
        columns = ["Input", "MB", "utoipa_doc (s)", "memory (MB)", *(it % "direct" if "%" in it else it for it in of_way),
                   *(it % "by a tree" if "%" in it else it for it in of_way)]
        print("| %s |\n|%s" % (" | ".join(columns), "---|" * len(columns)))
        for name, command, write, words in inputs(call.up_to):
            path = os.path.join(folder, "text.json")
            in_another_process(write, path, *words)
            ways = [[call.program, command], [driver, "text", command]]
            if command == "merge":
                ways.append([driver, "tree", command])
            print(row(name, ways, path, call.runs), flush=True)


if __name__ == "__main__":
    main()
