#!/usr/bin/env python3
"""Tries wrong bodies, many at a time: tells of each whether the prover refuses it.

usage: tools/refused.py CRATE [EDIT..]     each EDIT a file of crates/CRATE/wrong-bodies or of crates/CRATE/must-fail;
                                           with none, each file of crates/CRATE/wrong-bodies
       tools/refused.py --right CRATE      tries the functions that the edits change as they stand, each of which has to be proved
       tools/refused.py --apply            tries nothing: tells of each edit of each crate whether its lines stand in the source

An edit is written as those that `rt ci` tries. It is one wrong body, refused where the prover refuses a function that it
changes, or, where it changes the text of a type or a definition, any function or any theorem of specs/. One called each_..
changes many functions, each line of it wherever it stands, and is a wrong body of each function.

A round checks a copy of the crate with as many bodies as go together: no two of a function. Each function that none of
them changes is taken by its contract alone (by_contract.py), so no crate has to be proved before. A body is refused where a goal of its function is not
proved; where all are, and the function calls one that is refused, it waits for the next round. Ends with status 1 where a body is not refused or can't
be tried. A body takes three to twenty seconds of a processor, and each round one to eight minutes before the first, the more crates stand below: those
whose libraries ./check has just left are not read as source. What is checked of the source as it stands is kept for the next round, in the crate's
folder, out/tried, which can be removed.
"""
import collections
import glob
import os
import re
import resource
import shutil
import subprocess
import sys
import tempfile

import by_contract
import part
from by_contract import lines_of

ROOT = part.ROOT
CRATES = part.CRATES

# How a goal is told that is not proved. The first says most of the contract; the last two say little, and such a body may deserve to be written anew.
REFUSED, NOT_FOUND = "its answer is refused", "the search found no proof"
BROKEN_OFF, GONE = "the search broke off at its limit", "its answer cites what is gone"
KINDS = REFUSED, NOT_FOUND, BROKEN_OFF, GONE

# Of an answer that is refused for a name, before its goal was looked at.
NAMES_NOTHING = re.compile("has no field|out of reach|not in scope|no such|unknown|undefined|is not declared")

# The edit (and the function, of one called each_..), the new text of each changed line by file and index, and the functions.
Body = collections.namedtuple("Body", "name lines functions")


def bodies_of(crate, edit, standing):
    """Returns the wrong bodies of an edit, or why it can't be applied."""
    before, after, file, old = {}, {}, None, None
    name = os.path.basename(edit)[:-len(".edit")]
    is_of_each = name.startswith("each_")
    for line in lines_of(edit):
        if line.startswith("file: "):
            file = line[len("file: "):]
            before.setdefault(file, lines_of(os.path.join(CRATES, crate, file)))
            after.setdefault(file, list(before[file]))
        elif line.startswith("old: "):
            old = line[len("old: "):]
        elif line.startswith("new:"):
            new = line[len("new:"):].removeprefix(" ")
            if is_of_each:
                # each line by itself, as it stands in the source
                found = [at for at, it in enumerate(before[file]) if old in it]
                for at in found:
                    after[file][at] = before[file][at].replace(old, new)
            else:
                # one text after the other
                text = "\n".join(after[file])
                found = range(text.count(old))
                after[file] = text.replace(old, new).split("\n")
            if len(found) != 1 and not (found and is_of_each):
                return "%r stands %d times in %s" % (old, len(found), file)
    lines = {(file, at): new for file in after for at, new in enumerate(after[file]) if new != before[file][at]}
    functions = sorted({standing[it] for it in lines if it in standing})
    if not is_of_each:
        return [Body(name, lines, functions)]
    apart = [(it, {at: new for at, new in lines.items() if standing.get(at, it) == it}) for it in functions]
    return [Body("%s %s" % (name, it), of_it, [it]) for it, of_it in apart]


def that_go_together(bodies):
    """Returns the first body, and each other that changes no function or shared line of those before it."""
    if not bodies[0].functions:
        return bodies[:1]
    chosen, taken, lines = [], set(), {}
    for body in bodies:
        takes = {*body.functions}
        if takes and not takes & taken and all(lines.get(at, new) == new for at, new in body.lines.items()):
            chosen.append(body)
            taken |= takes
            lines.update(body.lines)
    return chosen


def as_they_stand(bodies, cycles):
    """For each function and cycle that the bodies change, a body that changes no line."""
    changed = collections.defaultdict(set)
    for body in bodies:
        for it in body.functions:
            changed[cycles.get(it, it)].add(it)
    return [Body(it, {}, sorted(changed[it])) for it in sorted(changed)]


def put_into(folder, bodies):
    """Writes the bodies into the copy of a crate."""
    for changed in {file for body in bodies for file, _ in body.lines}:
        text = lines_of(os.path.join(folder, changed))
        for (file, at), new in [it for body in bodies for it in body.lines.items()]:
            if file == changed:
                text[at] = new
        with open(os.path.join(folder, changed), "w", encoding="utf-8") as source:
            source.write("\n".join(text))


def words_of_check(crate, room):
    """The command that checks a crate in its folder, over libraries, and over the source in a room of the crates below that have none, which it
    writes."""
    listed = part.crates_listed()
    names = part.with_all_below(crate, listed, [])
    sources = {}
    for name in names:
        if name != crate and not part.is_of_gate(name):
            folder = by_contract.copy_of(name, room)
            by_contract.take_by_contract(name, folder, ())
            sources[name] = os.path.join(folder, "src/lib.rt")
    is_program = os.path.isfile(os.path.join(CRATES, crate, "src", "main.rt"))
    kind = ["--crate-type", "staticlib"] if "staticlib" in listed[crate].kind else []
    kept = os.path.join(CRATES, crate, "out", "tried")
    os.makedirs(kept, exist_ok=True)
    words = part.words_over_libraries("check", crate, listed, names, sources=sources)
    return [*words, *kind, "src/main.rt" if is_program else "src/lib.rt", "--allow-holes", "--incremental", kept]


def check_with(crate, words, bodies, changed):
    """Checks a copy of a crate with the bodies in it, which change these functions and cycles. Returns what is said, and the functions of the copy."""
    with tempfile.TemporaryDirectory() as room:
        folder = by_contract.copy_of(crate, room)
        put_into(folder, bodies)
        by_contract.take_by_contract(crate, folder, changed)
        standing, _ = by_contract.functions_of(folder)
        only = [word for body in bodies for it in body.functions for word in ("--only", "%s::%s" % (crate, it))]
        narrowed = only if all(body.functions for body in bodies) else []
        how = {"stdout": subprocess.PIPE, "stderr": subprocess.STDOUT, "text": True, "errors": "replace"}
        said = subprocess.run([*words, *narrowed], cwd=folder, check=False, **how).stdout
    return said, standing


def goals_not_proved(crate, cycles, said):
    """The functions of a crate of which a goal is not proved, and the cycles by their names after a +: each with these goals, and of each goal how that
    is told, see KINDS."""
    found, of_next = collections.defaultdict(dict), {}
    # what a check tells on its way it tells once more at its end
    for line in [it for it in said.split("\n") if not it.startswith("so far: ")]:
        error = re.match(r"(?:\./)?proofs/(\S+)/(?:Answers|Invariants)\.antt:\d+:\d+: error: (?:`(\S+)`)?(.*)", line)
        note = re.search(r"it is not proved that .* \(`(\S+)`\)(.*)", line)
        told = re.match(r"fn (\w+)::(\S+): (.*)", line)
        if error:
            *above, last = error[1].split("/")
            # a + stands before the name of a cycle, and before that of a function that calls itself
            is_cycle = last.startswith("+") and last[1:] in cycles.values()
            name = last if is_cycle else "::".join([*above, last.removeprefix("+")])
            found[name][error[2] or "an answer"] = GONE if NAMES_NOTHING.search(error[3]) else REFUSED
        elif note:
            # what the tactics did not find stands above the function's line, or in it
            of_next[note[1]] = BROKEN_OFF if "gave up" in note[2] else NOT_FOUND
        elif told:
            missed = re.search(r"`search` did not prove ((?:`\S+`(?:, | and )?)+)", told[3])
            of_next = {**dict.fromkeys(re.findall(r"`(\S+?)`", missed[1]) if missed else [], NOT_FOUND), **of_next}
            if of_next and told[1] == crate:
                found[told[2]].update(of_next)
            of_next = {}
    return found


def theorems_refused(said):
    """The theorems of the crate's specs/ that are refused, each with how that is told."""
    return dict.fromkeys(re.findall(r"^(?:\./)?specs/\S+\.antt:\d+:\d+: error: `(\S+)`", said, re.M), REFUSED)


def goals_of(function, chosen, cycles, not_proved):
    """The goals of a function that are not proved. Where a round has several bodies of its cycle, those alone that are named after it: the goals of two
    functions of one name can't be told apart, and are those of neither."""
    cycle, name = cycles.get(function), function.rpartition("::")[2]
    goals = {**not_proved.get(function, {}), **not_proved.get("+%s" % cycle, {})}
    of_cycle = [body for body in chosen if cycle and any(cycles.get(it) == cycle for it in body.functions)]
    if len(of_cycle) < 2:
        return goals
    is_alone = sum(it.rpartition("::")[2] == name for it in cycles if cycles[it] == cycle) == 1
    return {goal: how for goal, how in goals.items() if is_alone and goal.partition("-")[0] == name}


def that_do_not_compile(said, bodies, standing):
    """The bodies in whose functions the front end tells an error, each with what it tells."""
    errors = re.findall(r"^(?:\./)?(src/\S+\.rt):(\d+):\d+: (error.*)", said, re.M)
    told = {standing.get((file, int(line) - 1)): error for file, line, error in errors}
    return [(body, told[it]) for body in bodies for it in body.functions if it in told]


def all_apply():
    """Tells each edit whose lines don't stand in the source, and returns the exit status."""
    edits, faults = 0, 0
    for folder in sorted(glob.glob(os.path.join(CRATES, "*"))):
        crate = os.path.basename(folder)
        standing, _ = by_contract.functions_of(folder)
        for edit in sorted(glob.glob(os.path.join(folder, "wrong-bodies/*.edit")) + glob.glob(os.path.join(folder, "must-fail/*.edit"))):
            bodies, edits = bodies_of(crate, edit, standing), edits + 1
            if isinstance(bodies, str):
                print("%s: %s" % (os.path.relpath(edit, ROOT), bodies))
                faults += 1
    print("%d wrong bodies, %d of them of other text" % (edits, faults))
    return 1 if faults else 0


def judged_of(crate, chosen, cycles, said, standing, is_right):
    """The bodies of a round that are judged, each with what is told of it, why, and whether that is a fault. One of a function that calls a refused one,
    and of which each goal is proved, is not judged, for the check does not say that it is proved."""
    found = dict(re.findall(r"^fn %s::(\S+): (.*)" % crate, said, re.M))
    if not found:
        told = [(body, "DOES NOT COMPILE", error, True) for body, error in that_do_not_compile(said, chosen, standing)]
        return told or [(body, "NOT JUDGED", said[-2000:], True) for body in chosen if len(chosen) == 1]
    judged, not_proved = [], goals_not_proved(crate, cycles, said)
    for body in chosen:
        of_body = {it: found.get(it, "no verdict") for it in body.functions or found}
        goals = {goal: how for it in of_body for goal, how in goals_of(it, chosen, cycles, not_proved).items()}
        goals.update({} if body.functions else theorems_refused(said))
        if goals:
            how = min(goals.values(), key=KINDS.index)
            judged.append((body, "refused", "(%s: %s)" % (", ".join(it for it in goals if goals[it] == how), how), is_right))
        elif all(re.match("no holes|depends on a hole", words) for words in of_body.values()):
            judged.append((body, "proved" if is_right else "NOT REFUSED", "", not is_right))
        elif len(chosen) == 1:
            judged.append((body, "NOT JUDGED", "; ".join(sorted({*of_body.values()})), True))
    return judged


def tried(crate, edits, is_right):
    """Tries the edits, or all of a crate, tells of each body whether it is refused, and returns the exit status."""
    standing, cycles = by_contract.functions_of(os.path.join(CRATES, crate))
    left, counts, faults = [], collections.Counter(), 0
    for edit in edits or sorted(glob.glob(os.path.join(CRATES, crate, "wrong-bodies/*.edit"))):
        bodies = bodies_of(crate, edit, standing)
        if isinstance(bodies, str):
            print("NOT TRIED %s: %s" % (edit, bodies))
            faults += 1
        else:
            left += bodies
    left = as_they_stand(left, cycles) if is_right else left
    at_once = len(left)
    with tempfile.TemporaryDirectory() as room:
        words = words_of_check(crate, room)
        while left:
            chosen = that_go_together(left)[:at_once]
            changed = {cycles.get(it, it) for body in chosen for it in body.functions or standing.values()}
            said, of_copy = check_with(crate, words, chosen, changed)
            judged = judged_of(crate, chosen, cycles, said, of_copy, is_right)
            for body, told, why, is_fault in judged:
                print(" ".join([told, body.name, why]).rstrip())
                counts.update([told] + [it for it in KINDS if told == "refused" and it in why])
                faults += is_fault
            # where none was judged, one of them keeps the copy from compiling
            at_once = len(left) if judged else max(1, len(chosen) // 2)
            left = [it for it in chosen if it not in [body for body, *_ in judged]] + [it for it in left if it not in chosen]
            print("-- %d tried together, %d left" % (len(chosen), len(left)), flush=True)
    used = resource.getrusage(resource.RUSAGE_CHILDREN)
    print("".join("%d: %s\n" % (counts[it], it) for it in KINDS if counts[it]), end="")
    print("%d refused, %d faults, %d seconds of a processor" % (counts["refused"], faults, used.ru_utime + used.ru_stime))
    return 1 if faults else 0


def main():
    words = sys.argv[1:]
    if words == ["--apply"]:
        return all_apply()
    is_right = words[:1] == ["--right"]
    words = words[1:] if is_right else words
    if not words or words[0].startswith("-"):
        sys.exit(__doc__)
    return tried(words[0], words[1:], is_right)


if __name__ == "__main__":
    sys.exit(main())
