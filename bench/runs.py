"""Runs programs for the benchmarks, and tells the time and the memory that they took."""
import multiprocessing
import os
import subprocess
import sys

CRATES = os.path.join(os.path.dirname(os.path.abspath(__file__)), "..", "crates")
RUNS = 3


def program(name):
    """Where the program of a crate stands once it is built."""
    return os.path.join(CRATES, name, "out", name)


def stop_if_lacking(programs):
    lacking = [os.path.basename(it) for it in programs if not os.path.isfile(it)]
    if lacking:
        sys.exit("to be built first, by ./build or ./check: " + ", ".join(lacking))


def in_another_process(make, *words):
    """Calls what makes an input, for the most that this process ever held counts as memory of each run that it starts later."""
    making = multiprocessing.Process(target=make, args=words)
    making.start()
    making.join()
    if making.exitcode:
        sys.exit(making.exitcode)


def measured(words, path, status):
    """The seconds of the processor and the memory of a run, which has to end with this status."""
    with open(path) as text:
        ran = subprocess.Popen(words, stdin=text, stdout=subprocess.DEVNULL, stderr=subprocess.DEVNULL)
        ended, used = os.wait4(ran.pid, 0)[1:]
    if os.waitstatus_to_exitcode(ended) != status:
        sys.exit("%s ended with status %d, not %d" % (" ".join(words), os.waitstatus_to_exitcode(ended), status))
    return used.ru_utime + used.ru_stime, used.ru_maxrss / 1024


def by_turns(calls, times=RUNS):
    """The seconds and the memory of each run of each call, which take turns, each second turn the other way round."""
    turns = []
    for turn in range(times):
        ran = [measured(*call) for call in (calls[::-1] if turn % 2 else calls)]
        turns.append(ran[::-1] if turn % 2 else ran)
    return list(zip(*turns))


def best(calls):
    """For each call the least time and the greatest memory of some runs, which take turns."""
    return [(min(it[0] for it in runs), max(it[1] for it in runs)) for runs in by_turns(calls)]
