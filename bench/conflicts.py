#!/usr/bin/env python3
"""Times what tells conflicts, beside merging, and prints the table of docs/MEASURED.md on that.

usage: bench/conflicts.py [DIVISOR]      after ./check, which builds the programs; with a number, as 10, the script is tried with so many times
                                         fewer documents

The documents are those of bench/merging.py: those of services, with what all of them have. `conflicts` is a call of utoipa_check_cases, which
parses the list, tells what is dropped and prints it: of each document but the first its info. Beside it `utoipa_doc merge` reads the same list,
merges it and prints the merged document, and `utoipa_check_cases` parses the list alone, where `between` compares it with a tree of another
kind. Each time is that of the processor for a whole run, the least of three, by turns.
"""
import os
import sys
import tempfile

from merging import service_document, write_list
from runs import best, in_another_process, program, stop_if_lacking

COMMAND, CASES = program("utoipa_doc"), program("utoipa_check_cases")


def write_texts(folder, count, size):
    """A list of documents, the line that asks for its conflicts, and the line that has it parsed alone."""
    path = os.path.join(folder, "list.json")
    write_list(path, service_document, count, size)
    with open(path) as text:
        documents = text.read().rstrip("\n")
    for name, line in (("conflicts.case", "conflicts\t%s\n" % documents), ("parsed.case", "between\t%s\t0\n" % documents)):
        with open(os.path.join(folder, name), "w") as out:
            out.write(line)


def main():
    stop_if_lacking((COMMAND, CASES))
    divisor = int(sys.argv[1]) if sys.argv[1:] else 1
    with tempfile.TemporaryDirectory() as folder:
        at = lambda name: os.path.join(folder, name)
        print("| Documents | MB | parsed (ms) | parsed, and its conflicts (ms) | read, merged and printed (ms) |\n|" + "---|" * 5)
        for count, size in ((13, 400_000 // 13), *((it // divisor, 10_000) for it in (200, 2_000))):
            in_another_process(write_texts, folder, count, size)
            calls = [([CASES], at("parsed.case"), 0), ([CASES], at("conflicts.case"), 0), ([COMMAND, "merge"], at("list.json"), 0)]
            milliseconds = [1000 * it[0] for it in best(calls)]
            megabytes = os.path.getsize(at("list.json")) / 1e6
            print("| %d | %.1f | %s |" % (count, megabytes, " | ".join("%.1f" % it for it in milliseconds)), flush=True)


if __name__ == "__main__":
    main()
