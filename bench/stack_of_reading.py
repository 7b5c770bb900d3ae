#!/usr/bin/env python3
"""Finds how much stack reading a schema takes by itself, at three depths in each of the nine members that hold schemas.

usage: bench/stack_of_reading.py      after ./build; needs Linux and gdb

The command `utoipa_doc schema` is stopped where it begins to read the tree of its input, and all stack below is filled with a
pattern. Where reading returns, what is no longer the pattern is what it took. Each figure is in bytes.
"""
import os
import subprocess
import sys
import tempfile

try:
    import gdb
except ImportError:
    # Only gdb has it, which runs this file too.
    gdb = None

READING = "utoipa_schema::trees::SchemaPlace::read_ref_or"
PATTERN = b"\xa5\x5a\x3c\xc3\x96\x69\x0f\xf0"


def lowest(pid):
    """Where the stack of a process begins, with the room that it has not used yet."""
    with open("/proc/%d/maps" % pid) as maps:
        stack = next(line for line in maps if "[stack]" in line)
    return int(stack.split("-")[0], 16)


def stopped_at(place):
    """Runs on to this place of the program, and returns the pointer of the stack there."""
    gdb.Breakpoint(place, temporary=True)
    gdb.execute("continue", to_string=True)
    return int(gdb.parse_and_eval("(unsigned long)$rsp"))


def taken_by_reading():
    """The stack that the program, which gdb has loaded, takes to read the tree of the input."""
    gdb.execute("starti schema < '%s'" % os.environ["INPUT"], to_string=True)
    begin = stopped_at("'%s'" % READING)
    program = gdb.selected_inferior()
    below = begin - lowest(program.pid)
    pattern = (PATTERN * (below // len(PATTERN) + 1))[-below:]
    program.write_memory(begin - below, pattern)
    stopped_at("*%d" % int(gdb.parse_and_eval("*(unsigned long *)$rsp")))
    low = lowest(program.pid)
    held = bytes(program.read_memory(low, begin - low))
    # Where the stack has grown, it held zeros.
    before = bytes(len(held) - below) + pattern
    return len(held) - next((at for at in range(len(held)) if held[at] != before[at]), len(held))


def measured(program, text):
    """The same by a gdb of its own, over this text."""
    with tempfile.NamedTemporaryFile("w") as file:
        file.write(text)
        file.flush()
        words = ["gdb", "-q", "-nx", "-batch", "-x", os.path.abspath(__file__), program]
        ran = subprocess.run(words, env={**os.environ, "INPUT": file.name}, capture_output=True, text=True)
    told = [line.split()[1] for line in ran.stdout.splitlines() if line.startswith("taken: ")]
    return int(told[0]) if told else sys.exit("gdb could not tell: " + ran.stderr)


def main():
    # Not known to gdb.
    from runs import program, stop_if_lacking
    from stack import MEMBERS

    command = program("utoipa_doc")
    stop_if_lacking([command])
    print("| Member | Levels | At a quarter of them (bytes) | At a half | At all |")
    print("|---|---|---|---|---|")
    for name, begin, end, levels in MEMBERS:
        depths = (levels // 4, levels // 2, levels)
        taken = [measured(command, begin * it + "{}" + end * it + "\n") for it in depths]
        print("| `%s` | %d | %d | %d | %d |" % (name, levels, *taken), flush=True)


if gdb:
    print("taken: %d" % taken_by_reading())
elif __name__ == "__main__":
    main()
