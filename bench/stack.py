#!/usr/bin/env python3
"""Finds the least stack in which schemas, encodings, headers and callbacks as deep as a text can be are read, copied, written and dropped.

usage: bench/stack.py      after ./check

A text nests 127 objects and lists. Each input nests schemas so deep in one of the nine members that hold schemas, encodings in one of
the three that hold encodings, headers in encodings in contents of headers, or operations in callbacks of operations. The command
`utoipa_doc schema` reads, writes and drops a schema; the cases `read TYPE` copy too. The case `callbacks` builds operations in more
callbacks than a text can nest. Each figure is in KiB, to the next 4; the default stack has 8192.
"""
import os
import resource
import subprocess
import sys

HERE = os.path.dirname(os.path.abspath(__file__))
COMMAND = os.path.join(HERE, "..", "utoipa_doc")


def program_of_cases(name):
    return os.path.join(HERE, "..", "crates", name, "out", name)


CASES = program_of_cases("utoipa_cases")
# The program that knows operations.
DOCUMENT_CASES = program_of_cases("utoipa_document_cases")

# A member, what opens a level of it, what closes it, and how many levels there are.
MEMBERS = (
    ("items", '{"items":', ',"type":"array"}', 126),
    ("prefixItems", '{"items":false,"prefixItems":[', '],"type":"array"}', 63),
    ("properties", '{"properties":{"p":', "}}", 63),
    ("additionalProperties", '{"additionalProperties":', "}", 126),
    ("propertyNames", '{"propertyNames":', "}", 126),
    ("contentSchema", '{"contentSchema":', "}", 126),
    ("oneOf", '{"oneOf":[', "]}", 63),
    ("allOf", '{"allOf":[', "]}", 63),
    ("anyOf", '{"anyOf":[', "]}", 63),
)

# The same of values that the command does not read, each with its program, its type, and what is innermost.
HELD = (
    (CASES, "Encoding", "itemEncoding", '{"itemEncoding":', "}", 126, "{}"),
    (CASES, "Encoding", "encoding", '{"encoding":{"a":', "}}", 63, "{}"),
    (CASES, "Encoding", "prefixEncoding", '{"prefixEncoding":[', "]}", 63, "{}"),
    (CASES, "Header", "content", '{"content":{"a":{"encoding":{"b":{"headers":{"c":', "}}}}}}", 21, "{}"),
    (DOCUMENT_CASES, "Operation", "callbacks", '{"callbacks":{"c":{"e":{"get":', '}}},"responses":{}}', 31, '{"responses":{}}'),
)

# How many callbacks, one in the other, are built.
BUILT = (31, 127)


def limited(kib):
    """What a run does first, to have a stack of so many KiB."""
    resource.setrlimit(resource.RLIMIT_STACK, (kib * 1024, kib * 1024))
    resource.setrlimit(resource.RLIMIT_CORE, (0, 0))


def answers(words, given, answer, kib):
    """Whether a program answers so in a stack of so many KiB."""
    try:
        ran = subprocess.run(words, input=given, stdout=subprocess.PIPE, preexec_fn=lambda: limited(kib))
    except OSError:
        return False
    return ran.returncode == 0 and ran.stdout == answer


def least_stack(is_enough):
    """The least stack that is enough, by halving."""
    low, high = 0, 8192
    if not is_enough(high):
        sys.exit("8 MiB are not enough")
    while high - low > 4:
        middle = (low + high) // 8 * 4
        low, high = (low, middle) if is_enough(middle) else (middle, high)
    return high


def case_stack(program, type, text):
    """The least stack in which a program of cases reads, copies, writes and drops a value of the type."""
    asked = b"read " + type.encode() + b"\t" + text
    return least_stack(lambda kib: answers([program], asked, text, kib))


def main():
    for program in (CASES, DOCUMENT_CASES):
        if not os.path.isfile(program):
            sys.exit("no program of cases: ./check builds %s" % os.path.basename(program))
    print("| Member | Levels | Read, written and dropped (KiB) | Copied too |")
    print("|---|---|---|---|")
    for name, begin, end, levels in MEMBERS:
        text = (begin * levels + "{}" + end * levels + "\n").encode()
        command = least_stack(lambda kib: answers([COMMAND, "schema"], text, text, kib))
        print("| `%s` | %d | %d | %d |" % (name, levels, command, case_stack(CASES, "Schema", text)), flush=True)
    for program, type, name, begin, end, levels, innermost in HELD:
        text = (begin * levels + innermost + end * levels + "\n").encode()
        print("| %s, `%s` | %d | | %d |" % (type, name, levels, case_stack(program, type, text)), flush=True)
    for levels in BUILT:
        asked = b"callbacks\t%d\n" % levels
        stack = least_stack(lambda kib: answers([DOCUMENT_CASES], asked, b"true\n", kib))
        print("| Operation, `callbacks`, built | %d | | %d |" % (levels, stack), flush=True)


if __name__ == "__main__":
    main()
