"""A repository of a crate and those that it stands on alone, and its proof: what ./build and tools/bindings.py build from.

Where the toolchain keeps on the machine what it proved, that of the same files is taken over, so that after ./check a part is proved in seconds. The
libraries are those of the files as they are. Of the ones in the crates' folders that can be said just after ./check alone, which removes those of an
earlier gate before: `rt ci` puts back what it found.
"""
import collections
import importlib.machinery
import os
import re
import shutil
import subprocess
import sys
import time
import types

ROOT = os.path.dirname(os.path.dirname(os.path.abspath(__file__)))
CRATES = os.path.join(ROOT, "crates")

# What proves the repository that it is run in.
GATE = os.path.join(ROOT, "tools", "rt_ci.py")

# A crate of crates.txt: what kind of crate its line says that it is, if it says so, and what it stands on.
Listed = collections.namedtuple("Listed", "kind uses")


def crates_listed():
    """The crates of crates.txt by their names."""
    listed = {}
    with open(os.path.join(ROOT, "crates.txt"), encoding="utf-8") as lines:
        for line in lines:
            head, colon, uses = line.partition("#")[0].partition(":")
            if colon:
                name, *kind = head.split()
                listed[name] = Listed(kind, uses.split())
    return listed


def with_all_below(name, listed, found):
    """Adds the crate to those that were found, after each of the repository that it stands on."""
    for below in listed[name].uses:
        if below in listed and below not in found:
            with_all_below(below, listed, found)
    found.append(name)
    return found


def libraries_of(name):
    """Where the library of a crate is, in the crate's folder."""
    return os.path.join(CRATES, name, "out", "rlib")


def is_marked(name):
    """Whether the library in the crate's folder is one that `rt check` made: `rt ci` does not mark its own."""
    return os.path.exists(os.path.join(libraries_of(name), "stamp"))


def is_of_gate(name):
    """Whether the library in the crate's folder is one that `rt ci` made."""
    return os.path.isdir(os.path.join(libraries_of(name), name + ".rlib")) and not is_marked(name)


def remove_libraries_of_gate():
    """Removes what an earlier gate left, so that it can't be taken for what the next one makes."""
    for name in crates_listed():
        if not is_marked(name):
            shutil.rmtree(libraries_of(name), ignore_errors=True)


def write_part(folder, names, listed):
    """Writes a repository of these crates alone, without the edits that the gate tries: they say nothing of what is built."""
    os.makedirs(folder, exist_ok=True)
    shutil.copy(os.path.join(ROOT, "HANDLES"), folder)
    with open(os.path.join(folder, "crates.txt"), "w", encoding="utf-8") as out:
        out.writelines("%s: %s\n" % (" ".join([name, *listed[name].kind]), " ".join(listed[name].uses)) for name in names)
    for name in names:
        shutil.copytree(os.path.join(CRATES, name), os.path.join(folder, "crates", name),
                        ignore=shutil.ignore_patterns("out", "must-fail", "wrong-bodies"))


def toolchain():
    """The folder of the toolchain that `rt` is of."""
    return os.path.dirname(subprocess.check_output(["rt", "doc"], text=True).strip())


def program(name):
    """A program of the toolchain that is written in Python, as a module."""
    module = types.ModuleType(name.replace("-", "_"))
    module.__file__ = os.path.join(toolchain(), "bin", name)
    importlib.machinery.SourceFileLoader(module.__name__, module.__file__).exec_module(module)
    return module


def words_over_libraries(verb, name, listed, names, crates=CRATES, sources=()):
    """The command of the toolchain's compiler for a crate, in its folder, over the libraries that `rt ci` has made in a folder of crates. `names` are
    the crate and all that it stands on, and `sources` has the root file of each of them that is read as source. `rt` would prove the libraries once more."""
    kit = toolchain()
    of_part = {it: os.path.join(crates, it, "out", "rlib", it + ".rlib") for it in names if it not in sources}
    words = [os.path.join(kit, "bin", "rattle"), verb, "--crate-name", name]
    for it in dict.fromkeys(["std", *[used for one in [name, *sources] for used in listed[one].uses]]):
        words += [] if it in sources else ["--extern", "%s=%s" % (it, of_part.get(it, os.path.join(kit, "rlibs", it + ".rlib")))]
    for it in sources:
        words += ["--lib", "%s:%s=%s" % (it, ",".join(["std", *listed[it].uses]), sources[it])]
    for folder in [os.path.join(kit, "rlibs"), *(os.path.dirname(of_part[it]) for it in of_part if it != name)]:
        words += ["-L", "dependency=" + folder]
    return [*words, "--antt-project", os.path.join(kit, "rattle", "logic", "antt-project.json"), "--logic-built", os.path.join(kit, "logic_built")]


def minutes(seconds):
    whole = round(seconds / 60)
    return "less than a minute" if not whole else "a minute" if whole == 1 else "%d minutes" % whole


def tell(names, listed, said, log):
    """Tells each crate as it ends, with the minutes since all that it stands on had ended."""
    began, ended = time.time(), {}
    for line in said:
        log.write(line)
        found = re.match(r"(?:rt: )?(\w+) (is kept|proved|NOT PROVED)\b", line)
        if not found or found[1] not in names or found[1] in ended:
            continue
        ended[found[1]] = time.time()
        ready = max([ended.get(it, began) for it in listed[found[1]].uses if it in listed], default=began)
        took = "by an earlier run" if found[2] == "is kept" else minutes(ended[found[1]] - ready)
        print("[%d of %d] %s: %s, %s" % (len(ended), len(names), found[1], found[2].replace("is kept", "proved"), took), flush=True)


def prove(folder, names, listed, log):
    """Proves the repository that was written, tells each crate as it ends, and returns whether all are proved."""
    ran = subprocess.Popen([GATE], cwd=folder, stdin=subprocess.DEVNULL, stdout=subprocess.PIPE, stderr=subprocess.STDOUT, text=True, errors="replace")
    try:
        tell(names, listed, ran.stdout, log)
        return not ran.wait()
    except KeyboardInterrupt:
        ran.terminate()
        ran.wait()
        sys.exit("broken off; the next run goes on after the crates that are proved")
