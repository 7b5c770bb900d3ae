#!/usr/bin/env python3
"""Runs the calls of `openapi` that tools/transcripts.txt tells, as a user would in a folder of one's own, and compares what each says.

usage: tools/transcripts.py [PROGRAM]            compares with the program, crates/openapi/out/openapi where none is named
       tools/transcripts.py --write [PROGRAM]    writes what the program says into the file

A line that begins with `$ ` is given to a shell, in a new folder with a copy of examples/; below it stand the lines that it writes, on
standard output and then, each after `! `, on standard error, and then `= STATUS`, if the status is not 0. All other lines are comments.
Where the program is not built, nothing is compared, and that is said.
"""
import os
import shutil
import subprocess
import sys
import tempfile

ROOT = os.path.dirname(os.path.dirname(os.path.abspath(__file__)))
FILE = os.path.join(ROOT, "tools", "transcripts.txt")
PROGRAM = os.path.join(ROOT, "crates", "openapi", "out", "openapi")
NOBODY = 65534


def parts(text):
    """The comments of a text, each a list of lines, and between them the calls, each with the lines that are due."""
    found = []
    for line in text.splitlines():
        if line.startswith("$ "):
            found.append((line[2:], []))
        elif found and isinstance(found[-1], tuple) and line and not line.startswith("#"):
            found[-1][1].append(line)
        elif found and isinstance(found[-1], list):
            found[-1].append(line)
        else:
            found.append([line])
    return found


def given(folder, program):
    """Lays out the folder of a user, and gives what a call there is run with: as nobody, for whom a folder may be read-only. What a file may be used
    for is set here, and not left to the umask or to how the program came where it is."""
    own, programs = os.path.join(folder, "own"), os.path.join(folder, "bin")
    shutil.copytree(os.path.join(ROOT, "examples"), os.path.join(own, "examples"))
    os.mkdir(programs)
    shutil.copyfile(program, os.path.join(programs, "openapi"))
    how = {"cwd": own, "env": {"PATH": programs + ":/usr/bin:/bin", "LANG": "C.UTF-8", "HOME": own}, "umask": 0o022}
    is_root = os.geteuid() == 0
    for at, _, files in os.walk(folder):
        for name in [".", *files]:
            path = os.path.join(at, name)
            os.chmod(path, 0o755 if name == "." or at == programs else 0o644)
            if is_root and at.startswith(own):
                os.chown(path, NOBODY, NOBODY)
    if is_root:
        how.update(user=NOBODY, group=NOBODY, extra_groups=[])
    return how


def said(call, how):
    """What a call says: its lines."""
    ran = subprocess.run(["/bin/sh", "-c", call], stdin=subprocess.DEVNULL, capture_output=True, check=False, timeout=120, **how)
    lines = ran.stdout.decode(errors="replace").splitlines()
    lines += ["! " + line if line else "!" for line in ran.stderr.decode(errors="replace").splitlines()]
    # No line of a text is empty, since an empty one ends what a call says.
    return [line or "." for line in lines] + ["= %d" % ran.returncode] * bool(ran.returncode)


def main():
    words = [word for word in sys.argv[1:] if word != "--write"]
    if len(words) > 1:
        sys.exit(__doc__)
    program = os.path.abspath(words[0]) if words else PROGRAM
    if not os.path.isfile(program):
        print("passed over: %s is not built" % program)
        return 0
    with open(FILE, encoding="utf-8") as file:
        found = parts(file.read())
    out, wrong = [], 0
    with tempfile.TemporaryDirectory(prefix="transcripts-") as folder:
        how = given(folder, program)
        for it in found:
            if isinstance(it, list):
                out += it
                continue
            call, due = it
            lines = said(call, how)
            out += ["$ " + call] + lines
            if lines != due:
                wrong += 1
                print("$ %s\nsays:\n%s\nand is to say:\n%s\n" % (call, "\n".join(lines), "\n".join(due)))
    calls = sum(isinstance(it, tuple) for it in found)
    if "--write" in sys.argv[1:]:
        with open(FILE, "w", encoding="utf-8") as file:
            file.write("\n".join(out) + "\n")
        print("written: %d calls" % calls)
        return 0
    print("%d calls, %d of which do not say what they are to say" % (calls, wrong))
    return 1 if wrong else 0


if __name__ == "__main__":
    sys.exit(main())
