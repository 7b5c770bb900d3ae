#!/usr/bin/env python3
"""Tells which lists and maps of the format take more than time by the size of the text, whatever their entries are called.

usage: bench/hostile.py [--command WORD] [--least KIB] [PROGRAM]      PROGRAM is the built utoipa_doc, of this repository where none is given

Each list and each map that docs/FORMAT.md has grows in a document of its own, where all else is the least that fits, and so do the
extensions of each object and the members that no table names. The entries of a map have numbers as names, and names of one hash by
the toolchain's `FoldHasher`, whose beginning is fixed. A text of 400 KiB, or of as many as are asked for, and one four times as large
are read and printed (`document`), or a list of the document and itself is merged (`--command merge`). A line tells each place whose time
grows by more than 8, and the status is 1 where there is one. Each time is that of the processor, the least of three runs.
"""
import argparse
import itertools
import json
import os
import struct
import sys
import tempfile

from runs import best, program, stop_if_lacking

ROOT = os.path.dirname(os.path.dirname(os.path.abspath(__file__)))
sys.path.insert(0, os.path.join(ROOT, "tools"))
from cases import WITHOUT_EXTENSIONS, Format  # the tables of docs/FORMAT.md

TIMES_LARGER, TIMES_LONGER = 4, 8

# Where the entries go.
HERE = "entries stand here"

# The objects whose members are entries, and what each entry is.
ENTRIES = {
    "Paths": "PathItem",
    "Responses": "ref or Response",
    "Callback": "ref or PathItem",
    "SecurityRequirement": "list of text",
    "flows": "Flow",
}

# What a choice may be, and the members by which it is that.
CHOICES = {
    "Schema": [("Object", {"type": "object"}), ("Array", {}), ("OneOf", {}), ("AllOf", {}), ("AnyOf", {})],
    "ArrayItems": [("Schema", {})],
    "AdditionalProperties": [("Schema", {})],
    "SecurityScheme": [
        ("OAuth2", {"type": "oauth2"}),
        ("ApiKeyValue", {"type": "apiKey", "in": "query"}),
        ("Http", {"type": "http"}),
        ("OpenIdConnect", {"type": "openIdConnect"}),
        ("MutualTls", {"type": "mutualTLS"}),
    ],
    # The other flows have tables like this one.
    "Flow": [("ClientCredentials", {})],
    "any": [("list of any", {}), ("map of any", {})],
    "SchemaType": [("list of TypeWord", {})],
}


def with_members(way, members):
    """The way to an object that has these members too, if any."""
    return (lambda value: way({**members, **value})) if members else way


def as_member(way, members, name):
    """The way to a member of an object with these members."""
    return lambda value: way({**members, name: value})


def inside(name, kind, way, around):
    """What is to be visited in the entries of a list or a map: nothing, where they may be anything."""
    return [] if kind == "any" else [("an entry of " + name, kind, lambda value: way(around(value)))]


def entry_value(form, kind):
    """A value for an entry of a kind."""
    kind = kind.removeprefix("ref or ")
    if kind == "Flow":
        return form.smallest("ClientCredentials")
    return 7 if kind == "any" else form.fitting(kind)


def places(form):
    """Each list and map: its name, what its entries' names begin with (None of a list), the value of an entry, and the document."""
    seen, waiting = set(), [("document", "OpenApi", lambda value: value)]
    for name, kind, way in waiting:
        if kind.startswith("list of "):
            yield name, None, entry_value(form, kind[8:]), way([HERE])
            waiting += inside(name, kind[8:], way, lambda value: [value])
        elif kind in ENTRIES or "map of " in kind:
            inner = ENTRIES.get(kind) or kind.partition("map of ")[2]
            yield name, "", entry_value(form, inner), way({HERE: None})
            waiting += inside(name, inner, way, lambda value: {"k": value})
        elif kind.startswith("ref or "):
            waiting += [(name, "Ref", way), (name, kind[7:], way)]
        elif kind in CHOICES:
            waiting += [(name, it, with_members(way, members)) for it, members in CHOICES[kind]]
        elif kind in form.tables and kind not in seen:
            seen.add(kind)
            least = form.smallest(kind)
            if kind not in WITHOUT_EXTENSIONS:
                yield kind + ", extensions", "x-", 7, way({**least, HERE: None})
            yield kind + ", members that no table names", "", 7, way({**least, HERE: None})
            waiting += [("%s, `%s`" % (kind, it), of, as_member(way, least, it)) for it, _, of in form.tables[kind]]


# ---- names


def fold(a, b):
    product = a * b
    return (product & (1 << 64) - 1) ^ (product >> 64)


def names_of_one_hash(beginning):
    """Names that `FoldHasher` gives one hash: after a block of 16 bytes come the 8 that equal its state, and then its product is 0,
    whatever the last 8 are."""
    state = 0x243f6a8885a308d3 + 32
    for number in itertools.count():
        block = beginning + "%0*d" % (16 - len(beginning), number)
        first, second = struct.unpack("<QQ", block.encode())
        last = struct.pack("<Q", fold(first ^ state, second ^ 0x9e3779b97f4a7c15))
        if all(32 <= it < 127 and it not in b'"\\' for it in last):
            return ("%s%s%08d" % (block, last.decode(), at) for at in itertools.count())


def names_by_number(beginning):
    return ("%s%08d" % (beginning, it) for it in itertools.count())


def entries(names, value, size):
    """Entries of a list or a map, of so many bytes together."""
    text, length = [], 0
    while length < size:
        text.append(value if names is None else '"%s":%s' % (next(names), value))
        length += len(text[-1]) + 1
    return ",".join(text)


def write_input(path, place, names, size, command):
    """A text of that size, whose entries have these names."""
    _, beginning, value, document = place
    filled = entries(names and names(beginning), json.dumps(value, separators=(",", ":")), size)
    text = json.dumps(document, separators=(",", ":")).replace('"%s":null' % HERE, filled).replace('"%s"' % HERE, filled)
    with open(path, "w") as out:
        out.write("[%s,%s]" % (text, text) if command == "merge" else text)


def asked():
    words = argparse.ArgumentParser(usage="bench/hostile.py [--command WORD] [--least KIB] [PROGRAM]")
    words.add_argument("--command", choices=("document", "merge"), default="document")
    words.add_argument("--least", type=int, default=400)
    words.add_argument("program", nargs="?", default=program("utoipa_doc"))
    return words.parse_args()


def main():
    call, slow, tried = asked(), 0, 0
    stop_if_lacking([call.program])
    with open(os.path.join(ROOT, "docs", "FORMAT.md")) as page:
        form = Format(page.read())
    sizes = [call.least * 1024, call.least * 1024 * TIMES_LARGER]
    with tempfile.TemporaryDirectory() as folder:
        paths = [os.path.join(folder, it) for it in ("small", "large")]
        for place in places(form):
            for names in (names_by_number, names_of_one_hash) if place[1] is not None else (None,):
                for path, size in zip(paths, sizes):
                    write_input(path, place, names, size, call.command)
                (small, _), (large, _) = best([([call.program, call.command], path, 0) for path in paths])
                tried += 1
                if large > TIMES_LONGER * small:
                    slow += 1
                    called = " under names of one hash" if names is names_of_one_hash else ""
                    print("%s%s: %.2f s and %.2f s" % (place[0], called, small, large), flush=True)
    print("%d lists and maps, of which %d take more than %d times the time for %d times the text" % (tried, slow, TIMES_LONGER, TIMES_LARGER))
    return 1 if slow else 0


if __name__ == "__main__":
    sys.exit(main())
