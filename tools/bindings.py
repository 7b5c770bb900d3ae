#!/usr/bin/env python3
"""Builds the library for C of crates/utoipa_c, and runs what calls it from C, C++, Rust, Python and Node.

usage: tools/bindings.py [--gate | --archive FILE] [FOLDER]

FOLDER takes the library, lib/libutoipa.a, lib/libutoipa.so, lib/pkgconfig/utoipa.pc and include/utoipa.h, and what is built to try it;
where none is given, a temporary one does. The archive that the library is made of is built of the crate and those below it as they are,
proved; what ./check has proved of them is taken over. With --gate the libraries that ./check has just left are taken. Or FILE is such an archive.

Ends with status 1 at the first thing that is not so. A language with no compiler here is passed over, and told. Needs a C compiler, $CC or
else cc, and ar, nm and size.
"""
import json
import os
import re
import shlex
import shutil
import subprocess
import sys
import tempfile
import time

import part

ROOT = os.path.dirname(os.path.dirname(os.path.abspath(__file__)))
BINDINGS = os.path.join(ROOT, "bindings")
NAME = "utoipa_c"
CRATE = os.path.join(part.CRATES, NAME)

CC = os.environ.get("CC", "cc")
CXX = os.environ.get("CXX", "c++")

# What the archive asks of the program that it is linked into, and what the shared library offers.
ASKS = "memcpy memmove memset rattle_alloc rattle_dealloc rattle_realloc".split()
OFFERS = "utoipa_check utoipa_conflicts utoipa_document utoipa_merge utoipa_nest utoipa_schema utoipa_server".split()

# Where the archive is built, in the crate's folder.
ARCHIVE = "out/libutoipa_c.a"

SANITIZERS = ["-fsanitize=address,undefined", "-fno-sanitize-recover=all"]


class NotSo(Exception):
    """Something that is not as it has to be."""


class Wanting(Exception):
    """Something that is not on this machine."""


def run(words, **how):
    """What a command writes. Its complaints go into NotSo where it fails."""
    ran = subprocess.run(words, stdin=subprocess.DEVNULL, stdout=subprocess.PIPE, stderr=subprocess.PIPE, text=True, errors="replace", **how)
    if ran.returncode:
        raise NotSo("%s ended with status %d:\n%s" % (" ".join(words), ran.returncode, (ran.stdout + ran.stderr)[-3000:]))
    return ran.stdout


def text_of(path):
    with open(path, encoding="utf-8") as file:
        return file.read()


# ---- The library.


def build_archive(room, is_gate):
    """Builds the archive of the crate over proved libraries, and returns its path: over those that the gate has just left in the crates' folders, or
    over those of a folder of their own, which are proved there as far as no earlier run has."""
    if not shutil.which("rt"):
        sys.exit("bindings: the Rattle toolchain's command 'rt' has to be on the path")
    listed = part.crates_listed()
    names = part.with_all_below(NAME, listed, [])
    if is_gate and all(part.is_of_gate(it) for it in names if it != NAME):
        crate = CRATE
    else:
        prove_in(room, names, listed)
        crate = os.path.join(room, "crates", NAME)
    began = time.time()
    os.makedirs(os.path.join(crate, "out"), exist_ok=True)
    run(words_of_build(listed, names, crate), cwd=crate)
    print("the archive: built in %s" % part.minutes(time.time() - began), flush=True)
    return os.path.join(crate, ARCHIVE)


def prove_in(room, names, listed):
    """Proves the crates in a folder."""
    log = os.path.join(room, "log")
    part.write_part(room, names, listed)
    with open(log, "w", encoding="utf-8") as said:
        is_proved = part.prove(room, names, listed, said)
    if not is_proved:
        raise NotSo("the crates are proved:\n" + text_of(log)[-3000:])


def words_of_build(listed, names, crate):
    """The command that builds the archive over the libraries which `rt ci` has made. `rt lib` would prove each of them again."""
    words = part.words_over_libraries("build", NAME, listed, names, os.path.dirname(crate))
    return [*words, "src/lib.rt", "--crate-type", "staticlib", "--backend", "llvm", "--toolchain", toolchain(), "-o", ARCHIVE]


def toolchain():
    """The folder of the toolchain's linker and C library."""
    return os.path.join(os.path.dirname(run(["rt", "doc"]).strip()), "toolchain")


def put_together(archive, folder):
    """Makes the library in the folder: the archive with the memory of C in it, the same as a shared library, the header, the flags."""
    lib = os.path.join(folder, "lib")
    static, shared, heap = (os.path.join(lib, it) for it in ("libutoipa.a", "libutoipa.so", "heap.o"))
    os.makedirs(os.path.join(lib, "pkgconfig"), exist_ok=True)
    os.makedirs(os.path.join(folder, "include"), exist_ok=True)
    shutil.copy(archive, static)
    run([CC, "-std=c99", "-O2", "-fPIC", "-c", "-o", heap, os.path.join(BINDINGS, "c", "heap.c")])
    run(["ar", "rcs", static, heap])
    os.remove(heap)
    exported = "-Wl,--version-script=" + os.path.join(BINDINGS, "c", "export.map")
    run([CC, "-shared", "-s", "-o", shared, "-Wl,--whole-archive", static, "-Wl,--no-whole-archive", "-Wl,--gc-sections", "-Wl,-z,defs",
         "-Wl,-soname,libutoipa.so", exported])
    shutil.copy(os.path.join(BINDINGS, "c", "utoipa.h"), os.path.join(folder, "include"))
    with open(os.path.join(lib, "pkgconfig", "utoipa.pc"), "w", encoding="utf-8") as flags:
        flags.write(text_of(os.path.join(BINDINGS, "c", "utoipa.pc.in")).replace("@PREFIX@", folder))
    for path in (static, shared):
        print("%s: %d KiB" % (os.path.basename(path), round(os.path.getsize(path) / 1024)), flush=True)


def symbols(kind, path):
    """The names that nm lists, in their order."""
    listed = run(["nm", "--format=posix", *kind, path]).splitlines()
    return sorted({it.split()[0] for it in listed if len(it.split()) > 1})


def written_sections(path):
    """The sections of data that a program could write. What stands in .data.rel.ro is written by the loader alone."""
    listed = [it.split() for it in run(["size", "-A", path]).splitlines()]
    return sorted({it[0] for it in listed if len(it) > 1 and it[1] != "0" and re.match(r"\.(data|bss|tdata|tbss)(?!\.rel\.ro)", it[0])})


def has(what, found, wanted):
    if found != wanted:
        raise NotSo("%s %s, and not %s" % (what, " ".join(found) or "none", " ".join(wanted) or "none"))


def asks_and_offers(archive, folder):
    """The archive asks for what it may ask for alone, and has no data that it could write; it and the shared library offer the header's
    functions alone."""
    has("the archive asks for", symbols(["--undefined-only"], archive), ASKS)
    has("the archive could write its", written_sections(archive), [])
    has("the archive offers", symbols(["--defined-only", "--extern-only"], archive), OFFERS)
    has("the shared library offers", symbols(["--dynamic", "--defined-only"], os.path.join(folder, "lib", "libutoipa.so")), OFFERS)
    declared = re.findall(r"^uint8_t (\w+)\(", text_of(os.path.join(BINDINGS, "c", "utoipa.h")), re.M)
    has("the header declares", sorted(declared), OFFERS)


def codes_agree():
    """The codes of the header are those of the crate, but for the two that come from no call."""
    of_crate = dict(re.findall(r"^const (\w+): u8 = (\d+);", text_of(os.path.join(CRATE, "src", "lib.rt")), re.M))
    of_crate.update({name.upper(): code for name, code in re.findall(r"^code_of (\w+) = (\d+)$", text_of(os.path.join(CRATE, "specs", "Codes.antt")), re.M)})
    del of_crate["READ"], of_crate["WRITE"]
    of_header = dict(re.findall(r"^ +UTOIPA_(\w+) = (\d+)", text_of(os.path.join(BINDINGS, "c", "utoipa.h")), re.M))
    has("the header's codes are", *(sorted("%s=%s" % it for it in codes.items()) for codes in (of_header, of_crate)))


def stacks_agree():
    """The header, the crate of Rust and the module of Python name one stack."""
    stacks = [r"#define UTOIPA_STACK \(\(size_t\)(.*)\)", r"pub const STACK: usize = (.*);", r"STACK = (.*)"]
    files = [("c", "utoipa.h"), ("rust", "src", "lib.rs"), ("python", "utoipa.py")]
    named = [re.findall("^%s$" % stack, text_of(os.path.join(BINDINGS, *file)), re.M) for stack, file in zip(stacks, files)]
    has("the stacks that the languages name are", sorted({it for found in named for it in found}), named[0])


# ---- What calls it.


def flags_of(folder):
    """The flags by which C finds the header: those of pkg-config, where it is there."""
    if not shutil.which("pkg-config"):
        return ["-I" + os.path.join(folder, "include")]
    return shlex.split(run(["pkg-config", "--cflags", "utoipa"], env={**os.environ, "PKG_CONFIG_PATH": os.path.join(folder, "lib", "pkgconfig")}))


def write_answers(folder):
    """Writes what each example is answered with: its own tree, since no member of it is dropped."""
    answers = os.path.join(folder, "answers")
    os.makedirs(answers, exist_ok=True)
    for name in os.listdir(os.path.join(ROOT, "examples")):
        tree = json.loads(text_of(os.path.join(ROOT, "examples", name)))
        with open(os.path.join(answers, name), "w", encoding="utf-8") as file:
            file.write(json.dumps(tree, separators=(",", ":"), ensure_ascii=False, sort_keys=True) + "\n")
    return answers


def calls_of_c(folder, name, compiler, flags):
    """Builds and runs the calls of C, with a heap that refuses requests in the place of the library's own."""
    heap, program = (os.path.join(folder, name + ending) for ending in (".heap.o", ""))
    warnings = ["-Wall", "-Wextra", "-Wpedantic", "-Werror", "-O1", "-g"]
    sanitizers = [it for it in flags if it in SANITIZERS]
    run([CC, "-std=c99", *warnings, *sanitizers, "-c", "-o", heap, os.path.join(BINDINGS, "c", "refusing_heap.c")])
    run([compiler, *flags, *warnings, *flags_of(folder), os.path.join(BINDINGS, "c", "calls.c"), "-x", "none", heap,
         os.path.join(folder, "lib", "libutoipa.a"), "-o", program])
    return run([program, os.path.join(ROOT, "examples"), write_answers(folder)])


def has_sanitizers(folder):
    """Whether the compiler builds programs that run under the sanitizers."""
    source, program = os.path.join(folder, "empty.c"), os.path.join(folder, "empty")
    with open(source, "w", encoding="utf-8") as file:
        file.write("int main(void) { return 0; }\n")
    try:
        run([CC, *SANITIZERS, source, "-o", program])
        run([program])
    except NotSo:
        return False
    return True


def from_c(folder):
    flags = SANITIZERS if has_sanitizers(folder) else []
    passed_over = "" if flags else "passed over: the sanitizers, which %s does not have\n" % CC
    return passed_over + calls_of_c(folder, "calls", CC, ["-std=c99", *flags])


def from_cxx(folder):
    return calls_of_c(folder, "calls_cxx", CXX, ["-std=c++11", "-x", "c++"])


def from_rust(folder):
    environment = {**os.environ, "UTOIPA_LIBRARY": os.path.join(folder, "lib"), "CARGO_TARGET_DIR": os.path.join(folder, "target")}
    said = run(["cargo", "test", "--offline", "--locked", "--manifest-path", os.path.join(BINDINGS, "rust", "Cargo.toml")], env=environment)
    return "".join(it + "\n" for it in said.splitlines() if it.startswith("stack: "))


def from_python(folder):
    run([sys.executable, "-B", os.path.join(BINDINGS, "python", "calls.py")], env={**os.environ, "UTOIPA_LIBRARY": os.path.join(folder, "lib")})
    return ""


def from_node(folder):
    headers = run(["node", "-p", "require('path').resolve(process.execPath, '../../include/node')"]).strip()
    if not os.path.isfile(os.path.join(headers, "node_api.h")):
        raise Wanting("header of Node-API")
    addon = os.path.join(folder, "utoipa.node")
    run([CC, "-std=c11", "-shared", "-fPIC", "-O2", "-Wall", "-Wextra", "-Werror", *flags_of(folder), "-isystem", headers,
         os.path.join(BINDINGS, "node", "addon.c"), os.path.join(folder, "lib", "libutoipa.a"), "-Wl,--exclude-libs,ALL", "-o", addon])
    return run(["node", os.path.join(BINDINGS, "node", "calls.cjs"), addon])


# Each language, the command that it takes, and what runs its calls and returns what there is to tell.
CALLERS = [
    ("C", CC, from_c),
    ("C++", CXX, from_cxx),
    ("Rust", "cargo", from_rust),
    ("Python", sys.executable, from_python),
    ("Node", "node", from_node),
]


def try_all(archive, folder):
    put_together(archive, folder)
    asks_and_offers(archive, folder)
    codes_agree()
    stacks_agree()
    called = []
    for language, command, calls in CALLERS:
        try:
            if not shutil.which(command):
                raise Wanting(command)
            print(calls(folder), end="")
            print("so: the library answers from %s as it has to" % language, flush=True)
            called.append(language)
        except Wanting as wanting:
            print("passed over: %s, for which there is no %s" % (language, wanting), flush=True)
    print("called from %s" % ", ".join(called))


def main():
    words, archive = sys.argv[1:], None
    is_gate = words[:1] == ["--gate"]
    words = words[1:] if is_gate else words
    if len(words) > 1 and words[0] == "--archive":
        archive, words = words[1], words[2:]
    if len(words) > 1 or any(it.startswith("-") for it in words):
        sys.exit(__doc__)
    lacking = [it for it in (CC, "ar", "nm", "size") if not shutil.which(it)]
    if lacking:
        sys.exit("bindings: there is no " + ", no ".join(lacking))
    try:
        with tempfile.TemporaryDirectory(prefix="utoipa-bindings-") as room:
            archive = archive or build_archive(os.path.join(room, "part"), is_gate)
            try_all(archive, os.path.abspath(words[0]) if words else room)
    except NotSo as fault:
        sys.exit("NOT SO: %s" % fault)


if __name__ == "__main__":
    main()
