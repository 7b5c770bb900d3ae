#!/usr/bin/env python3
"""Tells what the functions of a check cost: seconds of the processor by crate and by function, and for what.

usage: tools/slow_functions.py watch FOLDER LOG &       notes each file that a check of a crate below FOLDER writes, until it is ended (root only: it
                                                        uses fanotify)
       rt check                                         in the crate's folder, from nothing or after an edit: what is checked anew is noted
       tools/slow_functions.py tell LOG [CRATE] [N]     the N dearest functions (40), of one crate or of all, and a line for each crate

A function's parts: Lts, the walk through its code; Tie, the tie of that to the contract; Kinds and Layout, its types; Proof and Answers, search and
answers. A file is charged with what its process spent since it closed the one before. What a process spent before its first file, loading the
libraries, is told as `load`, and what is no function's (statements, contracts) as `rest`. `rt ci` keeps no such files, so it can't be watched.
"""
import collections
import ctypes
import os
import re
import struct
import sys
import time

STAGES = ("Lts", "Kinds", "Reads", "Given", "Code", "Symbol", "Statement", "Tie", "Goals", "Answers", "Named", "Layout", "Proof", "Met",
          "TheLink", "View", "Mir", "Key", "decls", "Invariants")


def watch(tree, log):
    libc = ctypes.CDLL("libc.so.6", use_errno=True)
    fd = libc.fanotify_init(1, os.O_RDONLY)
    if fd < 0 or libc.fanotify_mark(fd, 0x11, ctypes.c_uint64(8), -100, tree.encode()) < 0:
        sys.exit("fanotify: " + os.strerror(ctypes.get_errno()))
    ticks, tree = os.sysconf("SC_CLK_TCK"), os.path.realpath(tree)
    with open(log, "a", buffering=1) as out:
        while True:
            data, at, now = os.read(fd, 65536), 0, time.time()
            while at < len(data):
                length, _, _, _, _, event, pid = struct.unpack_from("=IBBHQii", data, at)
                at += length
                if event < 0:
                    continue
                try:
                    path = os.readlink(f"/proc/self/fd/{event}")
                    with open(f"/proc/{pid}/stat") as it:
                        words = it.read().rpartition(")")[2].split()
                    spent = (int(words[11]) + int(words[12])) / ticks
                except OSError:
                    path = ""
                os.close(event)
                if path.startswith(tree + "/") and "/out/" in path:
                    out.write("%.2f %d %.2f %s\n" % (now, pid, spent, path))


def function_of(name):
    found = re.match(r"Rattle-(\w+?)([-.])(proofs|specs)\.(.*)\.oantt$", name)
    if not found:
        return None, name
    words, tail = found[4].split("."), []
    while words and (words[-1] in STAGES or re.match(r"(Kinds|Lts|Code|Tie|Reads)-", words[-1])):
        tail.append(words.pop())
    return ".".join(words), (tail[-1] if tail else "lemma").split("-")[0]


def tell(log, only="", most=40):
    seen, functions, others = {}, collections.defaultdict(lambda: collections.defaultdict(float)), collections.defaultdict(lambda: collections.defaultdict(float))
    with open(log) as it:
        for line in it:
            _, pid, spent, path = line.rstrip("\n").split(" ", 3)
            crate = re.search(r"/crates/(\w+)/out/", path)
            if not crate:
                continue
            key, name = (crate[1], pid), re.sub(r"\.tmp\..*$", "", path.rsplit("/", 1)[1])
            cost, first = float(spent) - seen.get(key, 0), key not in seen
            seen[key] = float(spent)
            function, part = function_of(name)
            if first or name == "rattle-last-used":
                others[crate[1]]["load"] += cost
            elif function is None or function.startswith(("contracts", "Destruct++none")):
                others[crate[1]]["rest"] += cost
            else:
                functions[crate[1], function][part] += cost
    rows = sorted(((sum(parts.values()), *key, parts) for key, parts in functions.items() if only in ("", "-", key[0])), key=lambda it: -it[0])
    for cost, crate, function, parts in rows[:most]:
        print("%7.1f %s %s  %s" % (cost, crate, function, " ".join("%s=%.0f" % it for it in sorted(parts.items(), key=lambda it: -it[1])[:4])))
    for crate in others:
        own = [it for it in rows if it[1] == crate]
        print("%s: functions %.1f min (%d; those above 8 s: %d, %.1f min), load %.1f, rest %.1f" % (
            crate, sum(it[0] for it in own) / 60, len(own), sum(it[0] > 8 for it in own), sum(it[0] for it in own if it[0] > 8) / 60,
            others[crate]["load"] / 60, others[crate]["rest"] / 60))


if __name__ == "__main__":
    if len(sys.argv) == 4 and sys.argv[1] == "watch":
        watch(sys.argv[2], sys.argv[3])
    elif len(sys.argv) > 2 and sys.argv[1] == "tell":
        tell(sys.argv[2], *(sys.argv[3:4] or [""]), *map(int, sys.argv[4:5]))
    else:
        sys.exit(__doc__)
