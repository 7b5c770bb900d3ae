"""The functions of a crate as they stand in its source, and copies of crates in which functions are taken by their contracts alone.

A function that is taken so has a loop that never ends for a body, and for a proof one hole. What calls it is checked as ever: a check cites of a callee
its contract. It then says of a function that it depends on a hole, where it would be proved, and never that it is.
"""
import glob
import os
import re
import shutil

import part

# The proof of a function, by its crate, its path and its name.
HOLE = """use Rattle.%s.proofs.%s.Statement.{statement}

pub %s_spec : {M : Type 1} → statement M
%s_spec = ?
"""

# What may stand before an item.
PUBLIC = r"(?:pub(?:\(\w+\))? )?"


def lines_of(path):
    with open(path, encoding="utf-8") as text:
        return text.read().split("\n")


def type_named(line):
    """Returns what the checker calls an impl or a trait: `impl<T: Tree> Tree for Vec<T>` is VecTree, one for a pair Tuple2.."""
    # a path, as `fmt::Display`, has its last name, but one into a crate of the kit all its names, and a lifetime none
    line = re.sub(r"\b(?!serde_json\b)\w+::|'\w+", "", line)
    kind, taken, named = re.match(PUBLIC + r"(impl|trait)(?:<(.*?)>)? (.*?)(?:(?<!:):(?!:)|\{)", line).groups()
    variables = re.findall(r"(?:^|, )'?(\w+)", taken or "") if kind == "impl" else []
    of_trait, _, of_type = named.replace("&", "Ref ").replace("[", "Slice ").rpartition(" for ")
    # of a trait that takes types a pair is named, and `()` is not
    of_trait = re.sub(r"\(([^()]*)\)", lambda it: it[1] and " Tuple%d %s " % (it[1].count(",") + 1, it[1]), of_trait)
    if of_type.startswith("("):
        # The commas between the items, not those inside of one.
        outer = re.sub(r"<.*?>", "", of_type)
        of_type = "Tuple%d %s" % (outer.count(",") + 1, of_type) if "," in outer else "Unit"
    words = [it for it in re.findall(r"\w+", of_type) + re.findall(r"\w+", of_trait) if it not in variables]
    return "".join(it[0].upper() + it[1:] for it in words)


def functions_of(folder):
    """Returns the function that each line of a crate stands in, by file and index, and the cycle of each that is in one."""
    standing, cycles = {}, {}
    files = {os.path.relpath(it, folder): lines_of(it) for it in glob.glob(folder + "/src/**/*.rt", recursive=True)}
    modules = {it: [part for part in it[len("src/"):-len(".rt")].split("/") if part not in ("lib", "main")] for it in files}
    types = {}
    for file, lines in files.items():
        types.update((it[1], modules[file]) for it in map(re.compile(PUBLIC + r"(?:struct|enum) (\w+)").match, lines) if it)
    for file, lines in files.items():
        above, cycle, function, start = None, None, None, 0
        for at, line in enumerate(lines):
            if re.match(PUBLIC + r"(impl|trait)\b", line):
                # its head may go over several lines
                end = next(it for it in range(at, len(lines)) if "{" in lines[it])
                head = " ".join(it.strip() for it in lines[at:end + 1])
                name = type_named(head)
                # a type's own functions are named by the module that the type stands in
                above = [*(modules[file] if " for " in head else types.get(name, modules[file])), name]
            cycle = (re.match(r"\s*#\[cycle\((\w+)\)\]", line) or [None, cycle])[1]
            found = re.match(" *" + PUBLIC + r"(?:const |final )?fn (\w+)", line)
            if found:
                function = "::".join([*(above or modules[file]), found[1]])
                cycles.update({function: cycle} if cycle else {})
                cycle = None
                # what stands above a function in its impl belongs to it
                standing.update({(file, it): function for it in range(start, at)})
            if function:
                standing[file, at] = function
                start = at + 1
            if line.startswith("}"):
                above, function, start = None, None, at + 1
    return standing, cycles


def declared_by_traits(folder, standing):
    """The functions that stand in traits. They stay as they are: one that is only declared there has no proof."""
    declared = set()
    for file in {file for file, _ in standing}:
        in_trait = False
        for at, line in enumerate(lines_of(os.path.join(folder, file))):
            in_trait = in_trait and not line.startswith("}") or bool(re.match(PUBLIC + r"trait\b", line))
            declared |= {standing[file, at]} if in_trait and (file, at) in standing else set()
    return declared


def leave_holes(crate, folder, functions):
    """Gives each of these functions a proof that is a hole."""
    for function in functions:
        names = function.split("::")
        proof = os.path.join(folder, "proofs", *names)
        shutil.rmtree(proof, ignore_errors=True)
        os.makedirs(proof)
        with open(os.path.join(proof, "Proof.antt"), "w", encoding="utf-8") as out:
            out.write(HOLE % (crate, ".".join(names), names[-1], names[-1]))


def body_of(lines, at):
    """The lines between which the body of the function stands whose first line this is, or None where it has none, or one line."""
    indentation = re.match(" *", lines[at])[0]
    for start in range(at, len(lines)):
        if not lines[start]:
            return None
        if lines[start].endswith("{") and re.match(" *", lines[start])[0] == indentation:
            return start, lines.index(indentation + "}", start)
    return None


def leave_out_bodies(folder, standing, functions):
    """Gives each of these functions a body that never ends, and takes the mark of a cycle off it. One that is `const` keeps its own, for the compiler may
    run it."""
    for file in {file for file, _ in standing}:
        lines, kept, at = lines_of(os.path.join(folder, file)), [], 0
        while at < len(lines):
            is_left_out = standing.get((file, at)) in functions
            body = body_of(lines, at) if is_left_out and re.match(" *" + PUBLIC + "(final )?fn ", lines[at]) else None
            if body:
                indentation = lines[body[1]][:-1]
                kept += [*lines[at:body[0] + 1], indentation + "    loop {}", lines[body[1]]]
                at = body[1] + 1
            else:
                kept += [] if is_left_out and "#[cycle(" in lines[at] else [lines[at]]
                at += 1
        with open(os.path.join(folder, file), "w", encoding="utf-8") as out:
            out.write("\n".join(kept))


def take_by_contract(crate, folder, but):
    """In the copy of a crate, takes each function by its contract, but for these functions and cycles."""
    standing, cycles = functions_of(folder)
    declared = declared_by_traits(folder, standing)
    functions = {it for it in standing.values() if it not in declared and cycles.get(it, it) not in but}
    for proof in glob.glob(folder + "/proofs/**/+*", recursive=True):
        # that of a cycle, by its name, or of a function that calls itself, by its path
        *above, last = os.path.relpath(proof, folder + "/proofs").replace("+", "").split("/")
        if last not in but and "::".join([*above, last]) not in but:
            shutil.rmtree(proof)
    leave_holes(crate, folder, functions)
    leave_out_bodies(folder, standing, functions)


def copy_of(crate, room):
    """Copies a crate, without what was made of it, and returns the copy's folder."""
    folder = os.path.join(room, "crates", crate)
    shutil.copytree(os.path.join(part.CRATES, crate), folder, ignore=shutil.ignore_patterns("out", "wrong-bodies", "must-fail"))
    return folder
