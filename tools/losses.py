#!/usr/bin/env python3
"""Looks for values of files that `openapi format`, `merge` and `nest` lose and do not tell, on documents that are made by chance.

usage: tools/losses.py [--seed N] [--calls N] [PROGRAM]     the program that ./build makes, where none is named

The documents come from the tables of docs/FORMAT.md, and some are damaged: a member is changed, or a name stands twice in an object. Each call runs
with `--as-is`, for what is adapted stands in another form, and with `--strict`. Where that writes a text, nothing may be told, each name of a file may
stand once in its object, and each value has to stand in the text: at its place, behind the base if it is at a nested path, or, of servers, security
requirements and tags, as one of the items. Where it does not, the same call without `--strict` has to tell the same lines, and of `format` these have
to name each value that the text lacks, and no other. Files and texts are read by Python's parser, not by the port's. Ends with status 1 at the first
call that is not so, and prints it.
"""
import argparse
import json
import os
import random
import re
import subprocess
import sys
import tempfile
from concurrent.futures import ThreadPoolExecutor

ROOT = os.path.dirname(os.path.dirname(os.path.abspath(__file__)))
sys.path[:0] = [os.path.join(ROOT, "tools"), os.path.join(ROOT, "tools", "beside_original")]

from cases import Format
from texts import INFO, Text, bytes_of, changed_text, maker_of, repeated_text, small_document

JOINED = ("servers", "security", "tags")

# A line that tells of a value that the written document lacks or has otherwise, or of another thing. A pointer has no space but those of its names,
# so the words that follow it are looked for from the end.
LACKING = re.compile(r"^f0\.json: (/.*): (?:this is dropped|this is empty, and left out|this is written as another value)$")


class NotSo(Exception):
    """A call that did not do what it has to."""


class Twice(Exception):
    """A name that stands twice in an object."""


def once(pairs):
    tree = dict(pairs)
    if len(tree) < len(pairs):
        raise Twice
    return tree


# ---- what stands where


def same(value, written):
    """Whether two values that are neither objects nor lists are one: a flag is no number."""
    return type(value) is type(written) and value == written


def lacking(value, written, at):
    """The pointers of the outermost values that the written tree lacks or has otherwise."""
    if isinstance(value, dict) and isinstance(written, dict):
        inner = [(name, it, name in written and (written[name],)) for name, it in value.items()]
    elif isinstance(value, list) and isinstance(written, list):
        inner = [(str(i), it, i < len(written) and (written[i],)) for i, it in enumerate(value)]
    else:
        return [] if same(value, written) else [at]
    found = []
    for name, it, there in inner:
        place = at + "/" + name.replace("~", "~0").replace("/", "~1")
        found += lacking(it, there[0], place) if there else [place]
    return found


def stands(value, written):
    return not lacking(value, written, "")


def document_lacks(tree, answer, base):
    """The members of a file's tree that do not stand in the answer whole, by their names."""
    found = []
    for name, value in tree.items():
        written = answer.get(name)
        if name in JOINED and isinstance(value, list):
            is_there = isinstance(written, list) and all(any(stands(it, other) for other in written) for it in value)
        elif name == "paths" and isinstance(value, dict) and base is not None:
            is_there = isinstance(written, dict) and all(stands(it, written.get(path if path.startswith("x-") else base + path)) for path, it in value.items())
        else:
            is_there = name in answer and stands(value, written)
        found += [] if is_there else [name]
    return found


# ---- calls


def made_file(chance, form, number):
    """The bytes of a file, whose document is one of several that can be merged without a loss now and then."""
    tree = small_document(chance, maker_of(chance, form))
    if isinstance(tree, dict) and chance.random() < 0.9:
        tree["info"], tree["openapi"] = INFO, "3.1.0"
        if number and chance.random() < 0.8:
            for name in [it for it in tree if it not in ("info", "openapi", "paths", *JOINED)]:
                del tree[name]
            if isinstance(tree.get("paths"), dict):
                tree["paths"] = {(name if name.startswith("x-") else "/%d%s" % (number, name)): it for name, it in tree["paths"].items()}
    text = Text("made", "document", "", bytes_of(tree))
    if chance.random() < 0.25:
        text = chance.choice([changed_text, repeated_text])(chance, form, text)
    return text.bytes


def made_call(chance, form):
    """The words of a call, and its files."""
    command = chance.choice(["format", "format", "merge", "merge", "nest"])
    count = {"format": 1, "nest": 2}.get(command) or chance.choice([1, 2, 2, 3])
    words = [command] + ([chance.choice(["", "/a", "/v1", "/1/"])] if command == "nest" else [])
    return words, [made_file(chance, form, number) for number in range(count)]


def run(program, words, folder):
    return subprocess.run([program, *words], cwd=folder, stdout=subprocess.PIPE, stderr=subprocess.PIPE, timeout=60, check=False)


def check_kept(words, files, ran):
    """Holds a text that was written by a strict call to what it has to have."""
    if ran.stderr:
        raise NotSo("lines are told and yet a text is written")
    answer = json.loads(ran.stdout)
    base = words[1].rstrip("/") if words[0] == "nest" else None
    for number, file in enumerate(files):
        try:
            tree = json.loads(file, object_pairs_hook=once)
        except Twice as error:
            raise NotSo("a name stands twice in file %d" % number) from error
        found = document_lacks(tree, answer, base if number == 1 else None)
        if found:
            raise NotSo("of file %d there is lost what stands at %s" % (number, ", ".join(found)))


def check_told(words, files, strict, ran):
    """Holds a call that is not strict to its lines. Returns whether it was answered."""
    if ran.returncode:
        return False
    if ran.stderr != strict.stderr or not ran.stderr:
        raise NotSo("other lines are told without --strict")
    if words[0] == "format":
        told = [found[1] for found in map(LACKING.match, ran.stderr.decode().split("\n")) if found]
        due = lacking(json.loads(files[0]), json.loads(ran.stdout), "")
        if sorted(told) != sorted(due):
            raise NotSo("told %s, and lacking are %s" % (told, due))
    return True


def check_call(program, words, files):
    """Makes a call, and returns what became of it: `kept`, `told` or `refused`."""
    with tempfile.TemporaryDirectory() as folder:
        names = ["f%d.json" % number for number in range(len(files))]
        for name, file in zip(names, files):
            with open(os.path.join(folder, name), "wb") as it:
                it.write(file)
        strict = run(program, words + ["--as-is", "--strict", "--compact", *names], folder)
        if strict.returncode == 0:
            check_kept(words, files, strict)
            return "kept"
        if strict.returncode != 1 or strict.stdout:
            raise NotSo("a strict call ends with status %d" % strict.returncode)
        return "told" if check_told(words, files, strict, run(program, words + ["--as-is", "--compact", *names], folder)) else "refused"


def main():
    words = argparse.ArgumentParser(description=__doc__, formatter_class=argparse.RawDescriptionHelpFormatter)
    words.add_argument("--seed", type=int, default=1)
    words.add_argument("--calls", type=int, default=20000)
    words.add_argument("program", nargs="?", default=os.path.join(ROOT, "crates", "openapi", "out", "openapi"))
    given = words.parse_args()
    with open(os.path.join(ROOT, "docs", "FORMAT.md"), encoding="utf-8") as page:
        chance, form = random.Random(given.seed), Format(page.read())
    calls = [made_call(chance, form) for _ in range(given.calls)]
    counts = {}
    with ThreadPoolExecutor(os.cpu_count()) as pool:
        runs = [(call, pool.submit(check_call, os.path.abspath(given.program), *call)) for call in calls]
        for (call, files), ran in runs:
            try:
                became = call[0], ran.result()
            except (NotSo, ValueError, subprocess.TimeoutExpired) as wrong:
                pool.shutdown(cancel_futures=True)
                sys.exit("%s\nopenapi %s, of\n%s" % (wrong, " ".join(map(repr, call)), "\n".join(map(repr, files))))
            counts[became] = counts.get(became, 0) + 1
    for (command, became), count in sorted(counts.items()):
        print("%-6s %-7s %d" % (command, became, count))
    if not all(counts.get((command, "kept")) for command in ("format", "merge", "nest")):
        sys.exit("no call of some command kept all: nothing was tried")


if __name__ == "__main__":
    main()
