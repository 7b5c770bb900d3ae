#!/usr/bin/env python3
"""Times merging of generated documents, and prints tables of merging.

usage: bench/merging.py [DIVISOR]      after ./build; with a number, as 10, the script is tried with so many times fewer documents

Each document is made here, always the same: that of a service, with paths and schemas of its own and a tag, and with a server, a tag, a
path, a schema and a security scheme that all have. The description of its Info takes what is left of its size. The documents of the
last table have five tags and nothing else; in one of its halves every other tag is one of an earlier document.

Each time is that of the processor for a whole run of `utoipa_doc merge`, the least of three, by turns; the memory is the greatest that a run
held. What each step of a run takes is told by a profiler, as `valgrind --tool=callgrind`, over one of the lists.
"""
import itertools
import json
import os
import subprocess
import sys
import tempfile

from runs import best, in_another_process, program, stop_if_lacking
from services import Service

COMMAND = program("utoipa_doc")

# What all documents of services have.
SERVER = {"url": "https://{region}.example.com/v1", "variables": {"region": {"default": "north", "enum": ["north", "south"]}}}
TAG = {"name": "status", "description": "Whether a service answers."}
ITEM = {"get": {"operationId": "status", "responses": {"200": {"description": "The service answers."}}}}
SCHEMA = {"type": "object", "required": ["message"], "properties": {"message": {"type": "string"}}}
SCHEME = {"type": "http", "scheme": "bearer", "bearerFormat": "JWT"}


def text_of(tree):
    return json.dumps(tree, separators=(",", ":"))


def members_of(service):
    """Path items and schemas of a service by turns, without end, each with its name."""
    for at in itertools.count():
        name = "resource%d" % at
        yield "paths", "/service%d/%s/{id}" % (service.number, name), service.path_item(name)
        yield "schemas", "Service%dType%d" % (service.number, at), service.object(3)


def service_document(number, size):
    """A service's document of so many bytes."""
    service = Service(number)
    info = {"title": "Service %d" % number, "version": "1.0.0", "description": ""}
    maps = {"paths": {"/status": ITEM}, "schemas": {"Problem": SCHEMA}}
    document = {
        "openapi": "3.2.0",
        "info": info,
        "servers": [SERVER],
        "paths": maps["paths"],
        "components": {"schemas": maps["schemas"], "securitySchemes": {"token": SCHEME}},
        "security": [{"token": []}],
        "tags": [{"name": "service%d" % number, "description": service.text(4, 12)}, TAG],
    }
    left = size - len(text_of(document))
    for kind, name, value in members_of(service):
        # A comma stands in place of the braces.
        needed = len(text_of({name: value})) - 1
        if needed > left:
            break
        maps[kind][name] = value
        left -= needed
    info["description"] = service.text(left, left)[:left]
    return document


def tag(number):
    docs = {"url": "https://example.com/tags/%d" % number}
    return {"name": "tag%d" % number, "description": Service(number).text(6, 12), "externalDocs": docs, "x-number": number}


def tags_document(number, repeats):
    """A document with five tags. Where there are repeats, one with an odd number is the tag of about half its number."""
    numbers = [at // 4 * 2 if repeats and number and at % 2 else at for at in range(number * 5, number * 5 + 5)]
    info = {"title": "Tags %d" % number, "version": "1.0.0"}
    return {"openapi": "3.2.0", "info": info, "paths": {}, "tags": [tag(it) for it in numbers]}


def write_list(path, make, count, *words):
    """A list of documents on a line; stops where the command doesn't merge them into all that has to be there."""
    documents = [make(number, *words) for number in range(count)]
    with open(path, "w") as out:
        out.write(text_of(documents) + "\n")
    with open(path) as text:
        merged = json.loads(subprocess.run([COMMAND, "merge"], stdin=text, stdout=subprocess.PIPE, check=True).stdout)
    tags = [it["name"] for it in merged["tags"]]
    are_there = set(merged["paths"]) == {path for it in documents for path in it["paths"]}
    if not are_there or sorted(tags) != sorted({tag["name"] for it in documents for tag in it["tags"]}):
        sys.exit("%s is not merged" % path)


def made_list(folder, *words):
    path = os.path.join(folder, "list.json")
    in_another_process(write_list, path, *words)
    return path


def merged(path):
    """The milliseconds and the megabytes of a run that merges a list."""
    ((seconds, memory),) = best([([COMMAND, "merge"], path, 0)])
    return 1000 * seconds, memory


def service_row(path, count):
    megabytes, (milliseconds, memory) = os.path.getsize(path) / 1e6, merged(path)
    return "| %d | %.1f | %.1f | %.1f | %.0f |" % (count, megabytes, milliseconds, 1000 * megabytes / milliseconds, memory)


def main():
    stop_if_lacking((COMMAND,))
    divisor = int(sys.argv[1]) if sys.argv[1:] else 1
    with tempfile.TemporaryDirectory() as folder:
        print("| Documents | MB | in all (ms) | MB per second | memory (MB) |\n|" + "---|" * 5)
        for count, size in ((13, 400_000 // 13), *((it // divisor, 10_000) for it in (200, 250, 500, 1_000, 2_000))):
            print(service_row(made_list(folder, service_document, count, size), count), flush=True)
        print("\n| Documents | tags | in all (ms) | half of them equal |\n|" + "---|" * 4)
        for count in (1_000 // divisor, 2_000 // divisor, 4_000 // divisor):
            apart, equal = (merged(made_list(folder, tags_document, count, repeats))[0] for repeats in (False, True))
            print("| %d | %d | %.1f | %.1f |" % (count, 5 * count, apart, equal), flush=True)


if __name__ == "__main__":
    main()
