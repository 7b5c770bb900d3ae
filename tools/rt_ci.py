#!/usr/bin/env python3
"""Runs `rt ci`, the toolchain's gate, with a schedule of its own.

usage: tools/rt_ci.py

What is proved, tried, run and told is as `rt ci` has it: the toolchain's own program runs, and one function of it is replaced, the one that shares the
processors out. That one looks at what is ready when a crate's turn comes, also at the tests and edits of crates that have none, so a crate of the longest
chain, on which all others wait, gets one processor or two, whatever is idle later. Here such a crate gets all that are idle, and each beside it one.
Where the toolchain's function has another form, or RT_JOBS is set, `rt ci` runs as it is. docs/MEASURED.md says what each takes.
"""
import inspect
import os
import sys
from concurrent.futures import FIRST_COMPLETED, ThreadPoolExecutor, wait

sys.dont_write_bytecode = True

import part

# What each job of a check takes of memory beside the first, as rt plans.
MORE_MEMORY = 0.6
# How much of the memory that rt plans a check is reckoned to take: five crates were seen to take 0.30 to 0.43 of it, by one job.
MEMORY_SEEN = 0.6
# How much of what is free at the start is shared out.
MEMORY_SHARED = 0.85
# How many jobs run beyond the number of processors: those of a check wait for one another at times.
MORE_JOBS = 2
# How long a chain has to be, by the longest, for its crate to get more than one processor.
NEARLY = 0.9


def behind_each(tasks):
    """The lines of work in the longest chain of tasks that each begins, itself among them."""
    behind = {it: 0 for it in tasks}
    # a task stands after those that it waits for
    for key in reversed([*tasks]):
        waits, lines, *_ = tasks[key]
        behind[key] += lines
        for it in waits:
            behind[it] = max(behind[it], behind[key])
    return behind


def schedule(rt, own):
    """What runs the tasks of `rt ci` side by side and returns what each gave: each once those that it waits for have ended, and first those with the
    longest chain behind them. A task is what it waits for, its lines, its memory, and a call that takes what was given and how many jobs it may use.
    Where one is not, the toolchain's own function runs them."""

    def in_lanes(tasks):
        if not all(map(is_known, tasks.values())):
            return own(tasks)
        processors, memory, behind = rt.processors(), MEMORY_SHARED * rt.free(), behind_each(tasks)
        lanes = processors + MORE_JOBS
        left, running, given = sorted(tasks, key=lambda it: -behind[it]), {}, {}
        with ThreadPoolExecutor(lanes) as pool:
            while left or running:
                for key in [it for it in left if all(below in given for below in tasks[it][0])]:
                    _, _, needs, call = tasks[key]
                    room = memory - sum(taken for _, taken, _ in running.values())
                    idle = lanes - sum(jobs for _, _, jobs in running.values())
                    if idle <= 0 or running and needs * MEMORY_SEEN > room:
                        continue
                    longest = max(behind[it] for it in [*left, *(it for it, _, _ in running.values())])
                    is_on_chain = behind[key] >= NEARLY * longest and key[1] != "edits"
                    jobs = min(idle, processors) if is_on_chain else 1
                    left.remove(key)
                    taken = needs * MEMORY_SEEN * (1 + MORE_MEMORY * (jobs - 1))
                    running[pool.submit(call, given, jobs)] = key, taken, jobs
                for it in wait(running, return_when=FIRST_COMPLETED).done:
                    given[running.pop(it)[0]] = it.result()
        return given

    return in_lanes


def is_known(task):
    """Whether a task has the form that is scheduled here."""
    return len(task) == 4 and callable(task[3]) and [*inspect.signature(task[3]).parameters][:2] == ["given", "jobs"]


def main():
    if sys.argv[1:]:
        sys.exit(__doc__)
    rt = part.program("rt")
    found = getattr(rt, "in_lanes", None)
    if found and [*inspect.signature(found).parameters] == ["tasks"] and "RT_JOBS" not in os.environ:
        rt.in_lanes = schedule(rt, found)
    return rt.main(["ci"])


if __name__ == "__main__":
    sys.exit(main())
