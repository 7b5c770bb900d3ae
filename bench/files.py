#!/usr/bin/env python3
"""Times the command `openapi` on files, and prints the tables of docs/MEASURED.md on that.

usage: bench/files.py [DIVISOR]      after ./build; with a number, as 10, the script is tried with so many times fewer documents, and smaller ones

The documents that are merged are those of bench/merging.py, each in a file of its own; beside `openapi merge`, which tells what is dropped too,
`utoipa_doc merge` reads a list of the same. The one document of the second table is that of bench/services.py, in a file. Each time is that
of the processor for a whole run, the least of three, by turns; the memory is the greatest that a run held.
"""
import json
import os
import sys
import tempfile

from services import write_inputs
from merging import service_document
from runs import best, in_another_process, program, stop_if_lacking

COMMAND, PEOPLE = program("utoipa_doc"), program("openapi")


def write_documents(folder, count, size):
    """The documents, each in a file, and a list of them all."""
    documents = [json.dumps(service_document(number, size), separators=(",", ":")) for number in range(count)]
    for number, document in enumerate(documents):
        with open(os.path.join(folder, "%d.json" % number), "w") as out:
            out.write(document)
    with open(os.path.join(folder, "list.json"), "w") as out:
        out.write("[%s]\n" % ",".join(documents))


def cells_of(runs):
    return " | ".join("%.3f | %.0f" % it for it in runs)


def merge_row(count, size):
    with tempfile.TemporaryDirectory() as folder:
        in_another_process(write_documents, folder, count, size)
        at = lambda name: os.path.join(folder, name)
        files = [at("%d.json" % number) for number in range(count)]
        calls = [([PEOPLE, "merge", "--compact", *files], os.devnull, 0), ([COMMAND, "merge"], at("list.json"), 0)]
        return "| %d | %.1f | %s |" % (count, os.path.getsize(at("list.json")) / 1e6, cells_of(best(calls)))


def document_row(megabytes):
    with tempfile.TemporaryDirectory() as folder:
        path = os.path.join(folder, "document.json")
        in_another_process(write_inputs, path, path + ".case", megabytes)
        words = (["check"], ["format", "--compact"], ["operations"], ["stats"])
        calls = [([PEOPLE, *it, path], os.devnull, 0) for it in words] + [([COMMAND, "document"], path, 0)]
        return "| %.1f | %s |" % (os.path.getsize(path) / 1e6, cells_of(best(calls)))


def main():
    stop_if_lacking((COMMAND, PEOPLE))
    divisor = int(sys.argv[1]) if sys.argv[1:] else 1
    print("| Documents | MB | `openapi merge` (s) | memory (MB) | `utoipa_doc merge` (s) | memory (MB) |\n|" + "---|" * 6)
    for count, size in ((13, 400_000 // 13), (2_000 // divisor, 10_000)):
        print(merge_row(count, size), flush=True)
    heads = ["`openapi %s` (s) | memory (MB)" % it for it in ("check", "format", "operations", "stats")]
    print("\n| MB | %s | `utoipa_doc document` (s) | memory (MB) |\n|%s" % (" | ".join(heads), "---|" * 11))
    for megabytes in (1, 10):
        print(document_row(max(1, megabytes // divisor)), flush=True)


if __name__ == "__main__":
    main()
