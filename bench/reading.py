#!/usr/bin/env python3
"""Times the command `utoipa_doc` on schemas of growing size, and prints a table of that.

usage: bench/reading.py [--beside PROGRAM] [--runs N] [MEGABYTES..]      1 10 30 where none is given;
                                                                      after ./build

Each input is one schema with many properties, made here; in the nested ones these are objects of ten properties, three
levels deep. `schema` parses the text, looks for fractions, reads the tree and prints it. `server` does the first two steps
alone, for no input here is a server, and so it is refused. Each time is that of the processor, the least of three runs or
of N; the memory is the greatest that a run held. With --beside, the same of another build of the program, by turns, and how
many percent longer this one takes: by the least of the runs; and by the middle one of all pairs of runs that took turns,
with the interval in which it lies at 95 percent or more, from 8 runs on. The speed of a machine may change while it runs,
for both of a pair alike; bound to one processor, as by `taskset -c 2 bench/reading.py`, the pairs differ far less.
"""
import argparse
import itertools
import math
import os
import statistics
import tempfile

from runs import RUNS, by_turns, program, stop_if_lacking

COMMAND = program("utoipa_doc")

# Properties as services write them.
ORDINARY = (
    '{"type":"integer","format":"int64","minimum":0,"description":"the number of an order"}',
    '{"type":["string","null"],"maxLength":64,"pattern":"^[a-z]+$","examples":["a","b"]}',
    '{"type":"array","items":{"$ref":"#/components/schemas/Pet"},"uniqueItems":true}',
    '{"oneOf":[{"$ref":"#/components/schemas/Cat"},{"type":"object","required":["name"],"properties":{"name":{"type":"string"}}}]}',
    '{"type":"object","additionalProperties":{"type":"string"},"x-order":7}',
)

# Properties of which each is tried as several alternatives, with schemas inside each of them.
TRIED = (
    '{"type":"array","items":{"type":"array","items":{"type":"array","items":{},"uniqueItems":1},"uniqueItems":1},"uniqueItems":1}',
    '{"oneOf":[{},{}],"allOf":[{},{}],"anyOf":[{},{}],"discriminator":5,"type":"array","items":{},"maxItems":3}',
    '{"type":"array","items":false,"minItems":-1,"contentSchema":{"type":"string","contentSchema":{"type":"string"}}}',
)

# The inputs: a name, what the properties are, and how many levels of objects are around each.
INPUTS = (
    ("ordinary", ORDINARY, 0),
    ("tried", TRIED, 0),
    ("ordinary, nested", ORDINARY, 3),
    ("tried, nested", TRIED, 3),
)


def object_of(properties, numbers, levels):
    """One of the properties, in turn, or so many levels of objects of ten properties, and these innermost."""
    if not levels:
        return properties[next(numbers) % len(properties)]
    inner = ('"q%d":%s' % (at, object_of(properties, numbers, levels - 1)) for at in range(10))
    return '{"type":"object","properties":{%s}}' % ",".join(inner)


def write_schema(path, megabytes, properties, levels):
    """A schema with as many properties as its size allows."""
    size, numbers = megabytes * 1_000_000, itertools.count()
    with open(path, "w") as out:
        length = out.write('{"type":"object","properties":{')
        number = 0
        while length < size:
            comma = "," if number else ""
            length += out.write('%s"p%07d":%s' % (comma, number, object_of(properties, numbers, levels)))
            number += 1
        out.write("}}")


def asked():
    """What the words of the call ask for."""
    words = argparse.ArgumentParser(usage="bench/reading.py [--beside PROGRAM] [--runs N] [MEGABYTES..]")
    words.add_argument("--beside", action="append", default=[])
    words.add_argument("--runs", type=int, default=RUNS)
    words.add_argument("megabytes", type=int, nargs="*", default=[1, 10, 30])
    return words.parse_args()


def percent(ratio):
    return "%+.1f" % (100 * (ratio - 1))


def longer(seconds, others):
    """By how many percent: told by the least of the runs, and by the middle one of the pairs, with its interval."""
    pairs = sorted(own / other for own, other in zip(seconds, others))
    # Of so many pairs, the middle of all that there could be lies between these ranks from either end.
    rank = max(1, math.floor(len(pairs) / 2 - 0.98 * math.sqrt(len(pairs))))
    low, high = pairs[rank - 1], pairs[-rank]
    middle = "%s (%s to %s)" % tuple(percent(it) for it in (statistics.median(pairs), low, high))
    return [percent(min(seconds) / min(others)), middle]


def row(programs, path, megabytes, runs):
    """The cells of one input."""
    parsed = min(seconds for seconds, _ in by_turns([([COMMAND, "server"], path, 1)], runs)[0])
    measured = by_turns([([it, "schema"], path, 0) for it in programs], runs)
    (whole, memory), *others = [list(zip(*it)) for it in measured]
    cells = ["%.2f" % parsed, "%.3f" % min(whole), "%.1f" % (megabytes / min(whole)), "%.0f" % max(memory)]
    for seconds, held in others:
        cells += ["%.3f" % min(seconds), "%.0f" % max(held), *longer(whole, seconds)]
    return cells


def main():
    call = asked()
    programs = [COMMAND, *call.beside]
    stop_if_lacking(programs)
    columns = ["parsed (s)", "parsed, read and printed (s)", "MB per second", "greatest memory (MB)"]
    for _ in call.beside:
        columns += ["beside it (s)", "its memory (MB)", "longer than it (percent), by the least", "by the pairs"]
    print("| Input | MB | %s |" % " | ".join(columns))
    print("|" + "---|" * (2 + len(columns)))
    with tempfile.TemporaryDirectory() as folder:
        for name, properties, levels in INPUTS:
            for megabytes in call.megabytes:
                path = os.path.join(folder, "%s-%d.json" % (name, megabytes))
                write_schema(path, megabytes, properties, levels)
                cells = row(programs, path, megabytes, call.runs)
                print("| %s | %d | %s |" % (name, megabytes, " | ".join(cells)), flush=True)


if __name__ == "__main__":
    main()
