#!/usr/bin/env python3
"""Times what looks through a tree, on documents with a fault at the end, and prints the table of docs/MEASURED.md on that.

usage: bench/misfits.py [MEGABYTES..]      1 10 where none is given; after ./check, which builds the programs that it runs

The document is that of bench/services.py, with one more tag at its end, whose name is no text. `misfits`, `doubts` and `references` are calls of
utoipa_check_cases, which parses the text, looks through the tree and prints the list; beside them the command `utoipa_doc document`
reads and prints the document without that tag, and refuses it with it. The second table is of a schema in the `contentSchema` of schemas,
as many levels deep, 400 times in a run. Each time is that of the processor for a whole run, the least of three, by turns.
"""
import os
import sys
import tempfile

from services import write_inputs
from runs import best, in_another_process, program, stop_if_lacking

COMMAND, CASES = program("utoipa_doc"), program("utoipa_check_cases")
CALLS = ("misfits", "doubts", "references")


def write_texts(folder, megabytes):
    """The document, the same with a fault at its end, and each call's line of that."""
    path = os.path.join(folder, "document.json")
    write_inputs(path, path + ".case", megabytes)
    with open(path) as text:
        document = text.read().rstrip("\n")
    # The list of tags comes last.
    broken = document[:-2] + ',{"name":5}]}'
    for name, line in [("broken.json", broken), *(("%s.case" % it, "%s OpenApi\t%s\n" % (it, broken)) for it in CALLS)]:
        with open(os.path.join(folder, name), "w") as out:
            out.write(line)


def write_deep(path, levels):
    schema = '{"type":"array","items":{"type":"string"},"contentSchema":' * levels + '{"type":5}' + "}" * levels
    with open(path, "w") as out:
        out.write(("misfits Schema\t%s\n" % schema) * 400)


def main():
    stop_if_lacking((COMMAND, CASES))
    with tempfile.TemporaryDirectory() as folder:
        at = lambda name: os.path.join(folder, name)
        print("| MB | read and printed (s) | refused (s) | misfits (s) | doubts (s) | references (s) |\n|" + "---|" * 6)
        for megabytes in [int(it) for it in sys.argv[1:]] or [1, 10]:
            in_another_process(write_texts, folder, megabytes)
            calls = [([COMMAND, "document"], at("document.json"), 0), ([COMMAND, "document"], at("broken.json"), 1)]
            seconds = [it[0] for it in best(calls + [([CASES], at("%s.case" % it), 0) for it in CALLS])]
            print("| %d | %s |" % (megabytes, " | ".join("%.3f" % it for it in seconds)), flush=True)
        print("\n| Levels | 400 times (s) |\n|---|---|")
        for levels in (15, 30, 60, 120):
            write_deep(at("deep.case"), levels)
            print("| %d | %.3f |" % (levels, best([([CASES], at("deep.case"), 0)])[0][0]), flush=True)


if __name__ == "__main__":
    main()
