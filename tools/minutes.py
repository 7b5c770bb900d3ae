#!/usr/bin/env python3
"""Runs the gate, `rt ci`, and tells where its time went, in a table: for each crate the minutes of wall and of
the processor that its proof, its tests and its must-fail edits took.

usage: tools/minutes.py [COMMAND..]      `rt ci` where none is given, run in the current folder, which is to be a clean clone

It looks at the provers that run, once a second, so what takes less than a second is not seen. The machine should have
nothing else to do. The output of the command goes to standard error, and its exit status is this one's.
"""
import os
import subprocess
import sys
import threading
import time

TICKS = os.sysconf("SC_CLK_TCK")
KINDS = ("proof", "tests", "edits")


def read(path):
    try:
        with open(path, "rb") as file:
            return file.read().decode(errors="replace")
    except OSError:
        return ""


def processes():
    """Each process: its parent, and its seconds of the processor with those of its children that have ended."""
    found = {}
    for pid in filter(str.isdigit, os.listdir("/proc")):
        numbers = read("/proc/%s/stat" % pid).rpartition(")")[2].split()
        if len(numbers) > 14:
            found[pid] = numbers[1], sum(map(int, numbers[11:15])) / TICKS
    return found


def work_of(pid):
    """The crate that a prover works on, and what it does there, or None of another process."""
    words = read("/proc/%s/cmdline" % pid).split("\0")
    if not words[0].endswith("/rattle") or "--crate-name" not in words:
        return None
    try:
        folder = os.readlink("/proc/%s/cwd" % pid)
    except OSError:
        return None
    kind = "edits" if "rt-edit" in folder else "tests" if "--test" in words else "proof"
    return words[words.index("--crate-name") + 1], kind


def watch(spans, seconds, is_over):
    """Notes when each work was seen first and last, and the most seconds of each prover, its copies of itself included."""
    while not is_over.wait(1):
        now, found = time.time(), processes()
        works = {pid: work for pid in found for work in [work_of(pid)] if work}
        used = {}
        for pid, work in works.items():
            first, _ = spans.get(work, (now, now))
            spans[work] = (first, now)
            top = pid
            while found[top][0] in works:
                top = found[top][0]
            used[work, top] = used.get((work, top), 0) + found[pid][1]
        for key, most in used.items():
            seconds[key] = max(most, seconds.get(key, 0))


def main():
    spans, seconds, is_over = {}, {}, threading.Event()
    watcher = threading.Thread(target=watch, args=(spans, seconds, is_over))
    begun = time.time()
    watcher.start()
    status = subprocess.run(sys.argv[1:] or ["rt", "ci"], stdout=sys.stderr).returncode
    ended = time.time()
    is_over.set()
    watcher.join()
    used = {}
    for (work, _), most in seconds.items():
        used[work] = used.get(work, 0) + most
    print("| Crate | Proof: wall, processor | Tests | Edits |")
    print("|---|---|---|---|")
    for crate in sorted({it for it, _ in spans}, key=lambda it: min(spans[work][0] for work in spans if work[0] == it)):
        cells = []
        for kind in KINDS:
            span = spans.get((crate, kind))
            cells.append("%.1f, %.1f" % ((span[1] - span[0]) / 60, used[crate, kind] / 60) if span else "")
        print("| %s | %s |" % (crate, " | ".join(cells)))
    sums = ["%.1f" % (sum(it for work, it in used.items() if work[1] == kind) / 60) for kind in KINDS]
    print("| minutes of the processor | %s |" % " | ".join(sums))
    print("\n%.1f minutes of wall, %.1f of the processor." % ((ended - begun) / 60, sum(used.values()) / 60))
    return status


if __name__ == "__main__":
    sys.exit(main())
