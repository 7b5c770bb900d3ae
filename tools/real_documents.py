#!/usr/bin/env python3
"""Tries `openapi` on the documents of a folder, as people have them: which are read, and whether one that was valid stays valid.

usage: tools/real_documents.py [--program PROGRAM] FOLDER     the program that ./build makes, where none is named

Each file of the folder whose name ends in .json, with a text at `openapi` that begins with 3., is upgraded by `openapi upgrade`, which also adapts
it. Tells of each file whether it is read, and the first line of why not; and of those that are read how many lines tell of a loss. Where Python's
openapi_spec_validator is installed, also whether the file is valid, and what was written of it. The last lines are the sums. Ends with status 1 where
a valid file becomes an invalid one.
"""
import argparse
import collections
import json
import os
import subprocess
import sys

ROOT = os.path.dirname(os.path.dirname(os.path.abspath(__file__)))
PROGRAM = os.path.join(ROOT, "crates", "openapi", "out", "openapi")

try:
    import openapi_spec_validator
except ImportError:
    openapi_spec_validator = None


def validity(text):
    """Whether a text is a valid document, as a word: `valid`, `invalid`, or `unknown` where no validator is installed."""
    if openapi_spec_validator is None:
        return "unknown"
    try:
        openapi_spec_validator.validate(json.loads(text))
        return "valid"
    # the validator raises what its own parts raise, for a document that it can't take
    except Exception:
        return "invalid"


def documents(folder):
    """The documents of a folder, by their paths, with their texts."""
    for at, _, names in sorted(os.walk(folder)):
        for name in sorted(names):
            path = os.path.join(at, name)
            if not name.endswith(".json"):
                continue
            with open(path, encoding="utf-8", errors="replace") as file:
                text = file.read()
            try:
                tree = json.loads(text)
            except ValueError:
                continue
            if isinstance(tree, dict) and str(tree.get("openapi", "")).startswith("3."):
                yield path, text


def main():
    options = argparse.ArgumentParser()
    options.add_argument("--program", default=PROGRAM)
    options.add_argument("folder")
    given = options.parse_args()
    sums, worse = collections.Counter(), 0
    for path, text in documents(given.folder):
        ran = subprocess.run([given.program, "upgrade", path], capture_output=True, text=True, errors="replace", check=False)
        before, lines = validity(text), ran.stderr.splitlines()
        sums["files, " + before] += 1
        if ran.returncode:
            print("%s: %s: not read: %s" % (path, before, lines[0] if lines else ran.returncode))
            continue
        after = validity(ran.stdout)
        print("%s: %s: read, and then %s; %d lines of losses" % (path, before, after, len(lines)))
        sums["read, " + before] += 1
        worse += before == "valid" and after == "invalid"
    for what in sorted(sums):
        print("%s: %d" % (what, sums[what]))
    print("valid files that became invalid: %d" % worse)
    return 1 if worse else 0


if __name__ == "__main__":
    sys.exit(main())
