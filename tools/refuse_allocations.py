#!/usr/bin/env python3
"""Runs programs with each of their requests for memory refused in turn, and ends with status 1 at the first run that told it wrongly.

usage: tools/refuse_allocations.py [WORD..]     tries the calls that hold every WORD, as `schema` or `read Server`; with none, all

A call is a program, its words and its input. It is run once as it is; then with its first request for memory refused, with its
second, and so on, until a run has none left to refuse. Each of these has to tell what the program tells of a refusal, as the tables
below say, or to end as the first run does. That end is compared with the stored one, where there is one.

The programs are the proved ones that the gate builds, crates/NAME/out/NAME. Requests are refused by a small library that is loaded
before C's, so this needs Linux and a C compiler, $CC or else cc. A run takes some milliseconds, and as many run at a time as there are
processors.
"""
import collections
import os
import subprocess
import sys
import tempfile
from concurrent.futures import ThreadPoolExecutor

ROOT = os.path.dirname(os.path.dirname(os.path.abspath(__file__)))

# What a run ends with: the exit status, standard output and standard error.
Outcome = collections.namedtuple("Outcome", "status output errors")


def answered(text):
    """How a run ends that printed the text and nothing else."""
    return Outcome(0, text, "")


# A call by its name: the program, its words, its input, the outcome that is stored if there is one, and those that tell a refusal.
Call = collections.namedtuple("Call", "name program words given stored told")

# ---- The calls of the command: its words, the file of its input, and the file of its answer, if one is stored.

COMMANDS = [
    (["server"], "crates/utoipa_doc/stdin", "crates/utoipa_doc/stdout"),
    (["server"], "examples/server.json", None),
    (["schema"], "examples/schema.json", None),
    (["document"], "examples/shop.json", None),
    (["document"], "examples/shop-3.2.json", None),
]

# A document of these components, paths and servers: two of them, and what the second is merged and nested into the first as.
DOCUMENT = '{"components":%s,"info":{"title":"t","version":"1"},"openapi":"3.1.0","paths":%s,"servers":%s}'
FIRST = DOCUMENT % (
    '{"examples":{"E":{"value":1}}}',
    '{"/a":{"get":{"operationId":"g1","responses":{}}}}',
    '[{"url":"A"}]',
)
SECOND = DOCUMENT % (
    '{"examples":{"E":{"value":2},"F":{}},"schemas":{"S":{"type":"string"}}}',
    '{"/a":{"get":{"operationId":"g2","responses":{}},"post":{"operationId":"p2","responses":{}}},"/b":{}}',
    '[{"url":"A"},{"url":"B"},{"url":"B"}]',
)
MERGED = DOCUMENT % (
    '{"examples":{"E":{"value":1},"F":{}},"schemas":{"S":{"type":"string"}}}',
    '{"/a":{"get":{"operationId":"g1","responses":{}},"post":{"operationId":"p2","responses":{}}},"/b":{}}',
    '[{"url":"A"},{"url":"B"},{"url":"B"}]',
)
NESTED = DOCUMENT % (
    '{"examples":{"E":{"value":1},"F":{}},"schemas":{"S":{"type":"string"}}}',
    '{"/a":{"get":{"operationId":"g1","responses":{}}},'
    '"/v1/a":{"get":{"operationId":"g2","responses":{}},"post":{"operationId":"p2","responses":{}}},"/v1/b":{}}',
    '[{"url":"A"},{"url":"B"},{"url":"B"}]',
)
# The same at the empty base: the second's item stands in place of the first's.
NESTED_AT_NOTHING = DOCUMENT % (
    '{"examples":{"E":{"value":1},"F":{}},"schemas":{"S":{"type":"string"}}}',
    '{"/a":{"get":{"operationId":"g2","responses":{}},"post":{"operationId":"p2","responses":{}}},"/b":{}}',
    '[{"url":"A"},{"url":"B"},{"url":"B"}]',
)

# A schema with every member that holds schemas, and with every alternative, as it is printed.
SCHEMA = (
    '{"additionalProperties":{"type":"string"},"contentSchema":{"type":"integer"},"properties":{"a":{"items":{"oneOf":[{"$ref":"#/r"},'
    '{"type":"null"}]},"prefixItems":[{"type":"boolean"}],"type":"array"},"b":{"allOf":[{"type":"number"}]},"c":{"anyOf":[{"$ref":"#/s"}]}},'
    '"propertyNames":{"pattern":"^a"},"type":"object"}'
)

# The command's refusal of a tree that holds a fraction.
FRACTION = Outcome(1, "", "refused: fraction\n")

# The same of an input that is in no file: the words, the input, and the outcome.
COMMANDS_ON_TEXTS = [
    (
        ["document"],
        '{"openapi":"3.1.x.0","info":{"title":"t","version":"1"},"paths":{"x-team":"a","/a":{}}}',
        answered('{"info":{"title":"t","version":"1"},"openapi":"3.1.0","paths":{"/a":{},"x-team":"a"}}\n'),
    ),
    (["schema"], SCHEMA, answered(SCHEMA + "\n")),
    (["schema"], '{"type":"integer","minimum":1.0}', FRACTION),
    (["schema"], '{"example":[{"a":0.5}]}', FRACTION),
    (
        ["merge"],
        '[{"openapi":"3.1.0","info":{"title":"a","version":"1"},"paths":{},"servers":[{"url":"A"}]},'
        '{"openapi":"3.1.0","info":{"title":"b","version":"1"},"paths":{},"servers":[{"url":"A"},{"url":"B"},{"url":"B"}]}]',
        answered(
            '{"info":{"title":"a","version":"1"},"openapi":"3.1.0","paths":{},"servers":[{"url":"A"},{"url":"B"},{"url":"B"}]}\n'
        ),
    ),
    (["merge"], "[%s,%s]" % (FIRST, SECOND), answered(MERGED + "\n")),
    (["nest", "/v1"], "[%s,%s]" % (FIRST, SECOND), answered(NESTED + "\n")),
    (["nest", ""], "[%s,%s]" % (FIRST, SECOND), answered(NESTED_AT_NOTHING + "\n")),
]

# The command says that memory was refused, and nothing else.
COMMAND_TELLS = [Outcome(1, "", "refused: memory\n")]

# ---- The calls of the programs of cases: lines of crates/PROGRAM/stdin, by how they begin. Those of the command's runs are not tried:
# the command itself is, above.

CASE_PROGRAMS = ("utoipa_cases", "utoipa_document_cases", "utoipa_check_cases")

# Longer lines are not tried: those that merge 200 documents make thousands of requests, and each request takes a run of its own.
LONGEST = 10000

# How a line begins; how many lines of each call are tried, those with the longest inputs; and what the program may print in place of
# the answer. A text that was not read for want of memory is no tree to it.
CASES = [
    # Reads the tree as a type, copies the value, writes and prints it.
    ("read ", 1, ["refused: memory", "no tree"]),
    # Composes a type over the schemas of a list.
    ("compose ", 2, ["refused: out of memory", "no list of schemas"]),
    # Reads the tree as a type, and asks whether the value comes back.
    ("comes-back ", 1, ["refused: memory", "no tree"]),
    # Puts schemas at the end of a list, and prints the second line where the list is then what it was.
    ("schemas ", 1, ["refused: memory", "refused: memory, and nothing has changed"]),
    # Change a value, and print the second line where the value's tree is what it was; where it is not, they print another one.
    ("merge PathItem\t", 100, ["refused: memory", "refused: memory, and nothing has changed", "no tree"]),
    ("merge Paths\t", 100, ["refused: memory", "refused: memory, and nothing has changed", "no tree"]),
    ("merge OpenApi\t", 6, ["refused: memory", "refused: memory, and nothing has changed", "no tree"]),
    ("add ", 100, ["refused: memory", "refused: memory, and nothing has changed", "no tree"]),
    # Change a value; where that is refused and the value's tree is what it was, they do it once more, and print another line where it is
    # not.
    ("put-scheme ", 100, ["refused: memory", "no tree"]),
    ("put-schemes\t", 100, ["refused: memory", "no tree"]),
    ("put-extension ", 100, ["refused: memory", "no tree"]),
    ("take-extensions\t", 100, ["refused: memory", "no tree"]),
    # Take the documents of a list.
    ("merge-all\t", 6, ["refused: memory"]),
    ("merge-pairs ", 6, ["refused: memory"]),
    # Nests a document. The composer of paths takes memory too, and where that is refused it refuses the path.
    ("composed ", 6, ["refused: memory", "refused: composer", "no tree"]),
    # Put what a type makes.
    ("path-from ", 3, ["refused: memory"]),
    ("parameters-in ", 1, []),
    ("operation-of ", 1, []),
    ("openapi-of ", 1, []),
    ("responses-from ", 1, ["refused: memory"]),
    ("component-from ", 1, ["refused: memory", "refused: out of memory"]),
    ("schemas-from ", 1, ["refused: memory", "refused: out of memory"]),
    ("own-schema\t", 4, []),
    # Look through a tree.
    ("misfits ", 2, ["no JSON"]),
    ("doubts ", 2, ["no JSON"]),
    ("references ", 2, ["no JSON"]),
    ("conflicts\t", 10, ["no list"]),
    ("nested_conflicts\t", 3, ["no JSON"]),
    ("changed_meanings\t", 3, ["no JSON"]),
    ("adaptations ", 1, ["no JSON"]),
    ("adapted ", 1, ["no JSON"]),
    ("upgrades ", 1, ["no JSON"]),
    ("upgraded ", 1, ["no JSON"]),
    ("between\t", 6, ["no tree"]),
    ("dropped ", 3, ["refused: memory", "no tree"]),
    # Read a text, and tell where it is refused, what is found in it, and what it loses.
    ("located ", 3, ["out of memory"]),
    ("found ", 2, []),
    ("lost ", 2, []),
]

# What a program of cases says on standard error, with status 1, where its own reading or writing of lines was refused memory.
CASES_END_WITH = "Error: Kind(OutOfMemory)\n"

# Refuses the request of the number REFUSED, and tells it by a byte on the file of the number TELL.
REFUSING = r"""
#define _GNU_SOURCE
#include <dlfcn.h>
#include <errno.h>
#include <stdlib.h>
#include <unistd.h>

static long requests_left = -1;

static int is_refused(void) {
    if (requests_left < 0) {
        const char *refused = getenv("REFUSED");
        requests_left = refused ? atol(refused) : 0;
    }
    if (requests_left == 0 || --requests_left > 0) return 0;
    if (write(atoi(getenv("TELL")), "!", 1) != 1) abort();
    errno = ENOMEM;
    return 1;
}

#define REFUSING(type, name, parameters, arguments) \
    type name parameters { \
        static type (*next) parameters; \
        if (!next) next = (type (*) parameters)dlsym(RTLD_NEXT, #name); \
        return is_refused() ? NULL : next arguments; \
    }

REFUSING(void *, malloc, (size_t size), (size))
REFUSING(void *, realloc, (void *kept, size_t size), (kept, size))
REFUSING(void *, aligned_alloc, (size_t alignment, size_t size), (alignment, size))
"""


def text_of(path):
    with open(os.path.join(ROOT, path), encoding="utf-8", newline="") as file:
        return file.read()


def calls_of_command():
    """Each line of COMMANDS and of COMMANDS_ON_TEXTS as a call."""
    for words, given, stored in COMMANDS:
        name = "utoipa_doc %s < %s" % (" ".join(words), given)
        yield Call(name, "utoipa_doc", words, text_of(given), stored and answered(text_of(stored)), COMMAND_TELLS)
    for words, given, stored in COMMANDS_ON_TEXTS:
        yield Call("utoipa_doc %s: %s" % (" ".join(words), given), "utoipa_doc", words, given, stored, COMMAND_TELLS)


def calls_of_cases(program):
    """The lines of a program's cases that CASES picks, each as a call whose input it is."""
    lines = list(zip(*(text_of("crates/%s/%s" % (program, it)).split("\n") for it in ("stdin", "stdout"))))
    for beginning, most, told in CASES:
        by_call = {}
        for line, answer in lines:
            if line.startswith(beginning) and len(line) <= LONGEST:
                by_call.setdefault(line.partition("\t")[0], []).append((line, answer))
        for of_call in by_call.values():
            of_call.sort(key=lambda it: -len(it[0]))
            for line, answer in of_call[:most]:
                yield call_of_line(program, line, answer, told)


def call_of_line(program, line, answer, told):
    """A line of a program's cases and its stored answer as a call."""
    # The program may have answered already where the reading of the next line is refused.
    outcomes = [Outcome(1, printed, CASES_END_WITH) for printed in ("", answer + "\n")]
    told = {*told, "refused: memory"}
    outcomes += [answered(it + "\n") for it in told]
    # A text is read by its tree and by its tokens, and one of the two may have been refused.
    outcomes += [answered("%s, and by tokens %s\n" % it) for refused in told for it in ((refused, answer), (answer, refused))]
    return Call("%s: %s" % (program, line.replace("\t", " ")), program, [], line + "\n", answered(answer + "\n"), outcomes)


def library_in(folder):
    """Builds the library that refuses requests, and returns its path."""
    library = os.path.join(folder, "refusing.so")
    words = [os.environ.get("CC", "cc"), "-shared", "-fPIC", "-O1", "-x", "c", "-", "-o", library]
    subprocess.run(words, input=REFUSING, text=True, check=True)
    return library


def run(call, library, refused):
    """The outcome of a call, and whether a request was refused. The first one has the number 1; with 0 none is."""
    told, tell = os.pipe()
    environment = {"LD_PRELOAD": library, "REFUSED": str(refused), "TELL": str(tell)}
    program = os.path.join(ROOT, "crates", call.program, "out", call.program)
    how = {"input": call.given.encode(), "stdout": subprocess.PIPE, "stderr": subprocess.PIPE, "timeout": 60}
    try:
        ended = subprocess.run([program, *call.words], env=environment, pass_fds=[tell], **how)
        outcome = Outcome(ended.returncode, ended.stdout.decode(errors="replace"), ended.stderr.decode(errors="replace"))
    except subprocess.TimeoutExpired:
        outcome = Outcome("none after a minute", "", "")
    os.close(tell)
    with os.fdopen(told, "rb") as pipe:
        return outcome, pipe.read() != b""


class ToldWrongly(Exception):
    """A run that told a refusal otherwise than it has to."""


def refuse_each(call, library):
    """Refuses each request of a call in turn. Returns how many were told and how many did no harm."""
    own, _ = run(call, library, 0)
    if call.stored is not None and own != call.stored:
        raise ToldWrongly("%s: with no request refused, not the stored outcome: %r" % (call.name, own))
    told, harmless, number = 0, 0, 1
    while True:
        outcome, was_refused = run(call, library, number)
        if outcome != own and not (was_refused and outcome in call.told):
            raise ToldWrongly("%s: request %d was refused, and told wrongly: %r" % (call.name, number, outcome))
        if not was_refused:
            return told, harmless
        told, harmless = (told, harmless + 1) if outcome == own else (told + 1, harmless)
        number += 1


def main():
    cases = [it for program in CASE_PROGRAMS for it in calls_of_cases(program)]
    calls = [it for it in [*calls_of_command(), *cases] if all(word in it.name for word in sys.argv[1:])]
    if not calls:
        sys.exit("no call holds these words")
    lacking = sorted({it.program for it in calls if not os.path.exists(os.path.join(ROOT, "crates", it.program, "out", it.program))})
    if lacking:
        sys.exit("to be built first, by ./check: " + ", ".join(lacking))
    total = 0
    with tempfile.TemporaryDirectory() as folder, ThreadPoolExecutor(os.cpu_count()) as pool:
        library = library_in(folder)
        runs = [(call, pool.submit(refuse_each, call, library)) for call in calls]
        try:
            for call, ran in runs:
                told, harmless = ran.result()
                total += told + harmless
                print("%d told, %d without harm: %.150s" % (told, harmless, call.name), flush=True)
        except ToldWrongly as wrong:
            pool.shutdown(cancel_futures=True)
            sys.exit(str(wrong))
    print("%d calls, %d requests refused, none told wrongly" % (len(calls), total))


if __name__ == "__main__":
    main()
