#!/usr/bin/env python3
"""Compares the program utoipa_doc with the original crate, over many texts, and lays each difference to a row of docs/DIFFERENCES.md.

usage: tools/beside_original.py [--original FOLDER] [--registry FOLDER] [--work FOLDER] [--program FILE | --interpreted]
                                [--seed N] [--texts N]

  --original FOLDER   the sources of the crate utoipa 6.0.0: its folder, or one that has its src/ alone, also with each file's path
                      for its name, as src--openapi--tag.rs.txt. What is missing there stands in from tools/beside_original/stand_ins:
                      a manifest, the macros, and the file of `Example`, of which the comparison then says nothing. Without this the
                      crate comes from crates.io
  --registry FOLDER   a folder of crates that stands in the place of crates.io, as Debian's packages librust-..-dev lay one down:
                      serde, with its derive, serde_json and indexmap are needed
  --work FOLDER       where the crate is put together and the driver is built, and stays for the next run; else that is done anew
  --program FILE      the port's program; else the one that ./build makes
  --interpreted       the port, where it is not built: unproved, by the toolchain's interpreter, which answers in some five minutes
                      as many of the texts, picked by chance, as it has room for
  --seed N            of what is made by chance; else 1
  --texts N           how many texts are made by chance, beside those of the cases, of examples/ and of the tables; else 40000

Both are given each text: the original by the driver, a program of Rust that answers all of them in one run, the port in a run each
(interpreted, all in a run of the program of cases).
Two answers are alike where they are the same bytes, or where both refuse. A difference is laid to the fewest rows by which the
one answer becomes the other, byte for byte (tools/beside_original/rules.py). Ends with status 1 where a difference is left that no
row explains, or where the port refuses a text by a word that docs/FORMAT.md does not give it. Needs cargo.
"""
import argparse
import collections
import filecmp
import glob
import os
import random
import shutil
import subprocess
import sys
import tempfile
import time

ROOT = os.path.dirname(os.path.dirname(os.path.abspath(__file__)))
DRIVER = os.path.join(ROOT, "tools", "beside_original")
STAND_INS = os.path.join(DRIVER, "stand_ins")
sys.path[:0] = [os.path.join(ROOT, "tools"), DRIVER]

from cases import Format
import rules
import texts

# An answer is a text, or None where the program refuses, and the word or the line by which it does.
Answer = collections.namedtuple("Answer", "text refusal")


# ---- the original


def put_together(given, folder):
    """Puts the crate together in the folder, from the sources that were given and what stands in for the rest."""
    if os.path.isfile(os.path.join(given, "Cargo.toml")):
        return given
    for name, place in (("crate.toml", "Cargo.toml"), ("macros.toml", "macros/Cargo.toml"), ("macros.rs", "macros/macros.rs")):
        copy_to(os.path.join(STAND_INS, name), os.path.join(folder, place))
    for file in glob.glob(os.path.join(given, "**", "*.rs*"), recursive=True):
        path = os.path.relpath(file, given).replace("--", "/").removesuffix(".txt")
        if "src/" in path:
            copy_to(file, os.path.join(folder, "src", path.rpartition("src/")[2]))
    example = os.path.join(folder, "src", "openapi", "example.rs")
    if not os.path.exists(example):
        copy_to(os.path.join(STAND_INS, "example.rs"), example)
    generated = os.path.join(folder, "src", "gen.rs")
    if not os.path.exists(generated):
        open(generated, "x").close()
    return folder


def copy_to(file, place):
    """Copies a file, where it isn't there already: cargo builds anew what is newer."""
    os.makedirs(os.path.dirname(place), exist_ok=True)
    if not os.path.exists(place) or not filecmp.cmp(file, place, shallow=False):
        shutil.copyfile(file, place)


def built_driver(options, work, sources=DRIVER, crates=(), variables=()):
    """Builds a driver over the original, of the sources in a folder, and gives the path of its program, which has the folder's name.

    Further crates that it uses are given as pairs of a name and a folder, and what their builds read of the environment so too."""
    name = os.path.basename(sources)
    folder = os.path.join(work, name)
    for file in ("Cargo.toml", "src/main.rs"):
        copy_to(os.path.join(sources, file), os.path.join(folder, file))
    settings = []
    if options.registry:
        settings += ['source.crates-io.replace-with="folder"', 'source.folder.directory="%s"' % os.path.abspath(options.registry)]
    if options.original:
        crates = [*crates, ("utoipa", put_together(options.original, os.path.join(work, "utoipa")))]
    settings += ['patch.crates-io.%s.path="%s"' % (crate, os.path.abspath(place)) for crate, place in crates]
    command = ["cargo", "build", "--release", "--quiet"] + [word for it in settings for word in ("--config", it)]
    environment = {**os.environ, **dict(variables), "RUSTFLAGS": "--cap-lints allow"}
    if subprocess.run(command, cwd=folder, env=environment).returncode:
        sys.exit("%s: the driver is not built" % name)
    return os.path.join(folder, "target", "release", name)


def answers_of_original(driver, way, asked):
    """The original's answer to each text, read in this way: `text` or `tree`."""
    requests = [("%s %s %d %s\n" % (way, it.command, len(it.bytes), it.base)).encode() + it.bytes for it in asked]
    said = subprocess.run([driver], input=b"".join(requests), stdout=subprocess.PIPE, check=True).stdout
    answers, start = [], 0
    while start < len(said):
        line = said.index(b"\n", start)
        word, length = said[start:line].split()
        start = line + 1 + int(length)
        text = said[line + 1:start].decode()
        answers.append(Answer(text, None) if word == b"ok" else Answer(None, text))
    assert len(answers) == len(asked)
    return answers


# ---- the port


def answer_of_port(program, text):
    words = [text.command, text.base] if text.command == "nest" else [text.command]
    try:
        ran = subprocess.run([program] + words, input=text.bytes, capture_output=True, timeout=60)
    except subprocess.TimeoutExpired:
        return Answer(None, "no answer in a minute")
    out, fault = ran.stdout.decode(errors="replace"), ran.stderr.decode(errors="replace")
    if ran.returncode == 0 and not fault and out.endswith("\n"):
        return Answer(out[:-1], None)
    if ran.returncode == 1 and not out and fault.startswith("refused: "):
        return Answer(None, fault[9:-1])
    return Answer(None, "status %d, %r" % (ran.returncode, fault))


def with_room(asked, seed):
    """Texts picked by chance, as many as the interpreter has room to answer: it writes a mebibyte at most."""
    picked, room = [], 900000
    for text in random.Random(seed).sample(asked, len(asked)):
        room -= len(text.bytes) + 40
        if room < 0:
            break
        picked.append(text)
    return picked


def answers_of_interpreter(asked):
    """The port's answers, by the program of cases, unproved: its call `run-hex` runs the command on a text."""
    lines = ["run-hex %s\t%s\n" % (it.command + ("|" + it.base) * (it.command == "nest"), it.bytes.hex()) for it in asked]
    folder = os.path.join(ROOT, "crates", "utoipa_document_cases")
    ran = subprocess.run(["rt", "try", "--seconds", "1800"], cwd=folder, input="".join(lines).encode(), capture_output=True)
    said = ran.stdout.decode().split("\n")[:len(asked)]
    if len(said) < len(asked) or ran.returncode:
        sys.exit("beside_original: the interpreter broke off:\n" + ran.stderr.decode(errors="replace")[-2000:])
    return [Answer(it[2:], None) if it.startswith("0 ") else Answer(None, it.removeprefix("1 refused: ")) for it in said]


# ---- comparing

SAME, REFUSED, UNEXPLAINED = "same", "refused", "unexplained"


class Comparison:
    """Compares the answers to each text: tells that they are alike, or the rows by which they differ, or that no row does it."""

    def __init__(self, form):
        self.form = form

    def compare(self, text, port, by_text, by_tree):
        """The rows, or one of the words above alone."""
        try:
            tree, is_tree = rules.tree_of(text.bytes), True
        except rules.Refused:
            tree, is_tree = None, False
        if not self.is_told_rightly(text, port, is_tree, tree):
            return {UNEXPLAINED}
        if port.text is None and by_text.text is None:
            return {REFUSED}
        if port.text == by_text.text:
            return {SAME}
        ordered, of_tree = in_order(by_text.text), in_order(by_tree.text)
        if port.text == ordered:
            return {rules.ORDER}
        rows = set()
        if ordered != of_tree:
            rows = {rules.BY_TREE} if is_tree and rules.has_repeated(text.bytes) else {UNEXPLAINED}
        return rows if port.text == of_tree else rows | self.rows_of_tree(text, port, of_tree, is_tree, tree)

    def is_told_rightly(self, text, port, is_tree, tree):
        """A text without a tree, and one with a fraction, are refused by their words, and nothing else is."""
        if not is_tree or rules.has_fraction(tree):
            return port.refusal == ("fraction" if is_tree else "text")
        number = {"merge": ["empty"], "nest": ["count"]}.get(text.command, [])
        return port.refusal in [None, "missing", "kind", "word", "alternative", *number]

    def rows_of_tree(self, text, port, of_tree, is_tree, tree):
        """The rows that make the one answer of the other, where all of them tell the port's, and none of them the original's."""
        kept = rules.rounded if rules.has_fraction(tree) else lambda line: line
        if not is_tree or kept(rules.answer(self.form, text, tree, set())) != kept(of_tree):
            return {UNEXPLAINED}
        if rules.answer(self.form, text, tree, set(rules.ROWS)) != port.text:
            return {UNEXPLAINED}
        return rules.fewest_rows(self.form, text, tree)


def in_order(text):
    """An answer with its members in the order of their names, as the port writes it."""
    return None if text is None else rules.line_of(rules.tree_of_answer(text))


# ---- telling


class Tally:
    """How many texts of which kind differ by which rows, and the shortest of each row."""

    def __init__(self):
        self.sorts = collections.defaultdict(collections.Counter)
        self.rows, self.alone, self.shortest, self.unexplained = collections.Counter(), collections.Counter(), {}, []

    def add(self, text, rows, answers):
        kind = next((it for it in (UNEXPLAINED, SAME, REFUSED, rules.ORDER) if it in rows), "rows")
        self.sorts[text.sort][kind] += 1
        if UNEXPLAINED in rows:
            self.unexplained.append((text, answers))
            return
        for row in rows - {SAME, REFUSED}:
            self.rows[row] += 1
            self.alone[row] += len(rows) == 1
            if row not in self.shortest or len(text.bytes) < len(self.shortest[row].bytes):
                self.shortest[row] = text

    def tell(self):
        kinds = {SAME: "same bytes", REFUSED: "both refuse", rules.ORDER: "order alone", "rows": "other rows", UNEXPLAINED: "no row"}
        print("%-10s" % "texts" + "".join("%14s" % it for it in ["all", *kinds.values()]))
        for sort, counts in [*self.sorts.items(), ("all", sum(self.sorts.values(), collections.Counter()))]:
            print("%-10s%14d" % (sort, sum(counts.values())) + "".join("%14d" % counts[it] for it in kinds))
        for row, words in {**rules.TOLD, **rules.ROWS}.items():
            print("\n%6d  by %s" % (self.rows[row], words), "(%d by this row alone)" % self.alone[row] if self.rows[row] else "")
            if row in self.shortest:
                print("        as " + told(self.shortest[row]))

    def tell_unexplained(self):
        for text, answers in sorted(self.unexplained, key=lambda it: len(it[0].bytes))[:20]:
            print("\nno row: " + told(text, 2000))
            for name, answer in zip(("port", "original", "original, by the tree"), answers):
                print("  %s: %s" % (name, answer.text if answer.text is not None else "refused: " + answer.refusal))


def tell_times(driver, options):
    """The row that only time shows."""
    print("\n        by " + rules.TIMED)
    for levels in (12, 16, 20):
        deep = b'{"type":"string","contentSchema":' * levels + b'{"type":"string"}' + b"}" * levels
        text = texts.Text("deep", "schema", "", deep)
        taken = ["the original %.3f seconds" % seconds_of(lambda: answers_of_original(driver, "text", [text]))]
        if not options.interpreted:
            taken.append("the port %.3f" % seconds_of(lambda: answer_of_port(options.program, text)))
        print("        %d levels: %s" % (levels, ", ".join(taken)))


def seconds_of(call):
    began = time.time()
    call()
    return time.time() - began


def told(text, length=150):
    words = [text.command] + [repr(text.base)] * (text.command == "nest")
    shown = "".join(it if it.isprintable() else ascii(it)[1:-1] for it in text.bytes.decode(errors="backslashreplace"))
    return " ".join(words) + " " + shown[:length]


def check_rows():
    """Each rule has its row."""
    with open(os.path.join(ROOT, "docs", "DIFFERENCES.md"), encoding="utf-8") as page:
        lines = page.read().split("\n")
    for words in [*rules.ROWS.values(), *rules.TOLD.values(), rules.TIMED]:
        if not any(line.startswith("| " + words) for line in lines):
            sys.exit("beside_original: docs/DIFFERENCES.md has no row that begins: " + words)


def compared(options, driver):
    with open(os.path.join(ROOT, "docs", "FORMAT.md"), encoding="utf-8") as page:
        form = Format(page.read())
    asked, tally, comparison = texts.all_texts(ROOT, form, options.seed, options.texts), Tally(), Comparison(form)
    if options.interpreted:
        asked = with_room(asked, options.seed)
        of_port = answers_of_interpreter(asked)
    else:
        of_port = (answer_of_port(options.program, it) for it in asked)
    of_original = (answers_of_original(driver, way, asked) for way in ("text", "tree"))
    for text, *answers in zip(asked, of_port, *of_original):
        tally.add(text, comparison.compare(text, *answers), answers)
    return tally


def options_of(words):
    parser = argparse.ArgumentParser(usage="\n".join(__doc__.split("\n")[2:4])[7:])
    parser.format_help = lambda: __doc__
    for name in ("--original", "--registry", "--work"):
        parser.add_argument(name)
    parser.add_argument("--interpreted", action="store_true")
    parser.add_argument("--program", default=os.path.join(ROOT, "crates", "utoipa_doc", "out", "utoipa_doc"))
    parser.add_argument("--seed", type=int, default=1)
    parser.add_argument("--texts", type=int, default=40000)
    return parser.parse_args(words)


def check_commands(options):
    if not shutil.which("cargo"):
        sys.exit("beside_original: the command 'cargo' has to be on the path")
    if options.interpreted and not shutil.which("rt"):
        sys.exit("beside_original: the Rattle toolchain's command 'rt' has to be on the path")
    if not options.interpreted and not os.access(options.program, os.X_OK):
        sys.exit("beside_original: no program at %s: ./build makes it" % options.program)


def main():
    options, began = options_of(sys.argv[1:]), time.time()
    check_rows()
    check_commands(options)
    with tempfile.TemporaryDirectory(prefix="beside-original-") as folder:
        driver = built_driver(options, options.work or folder)
        tally = compared(options, driver)
        tally.tell()
        tell_times(driver, options)
    tally.tell_unexplained()
    print("\nseed %d, %d texts by chance: %d of all differ by no row; %d seconds"
          % (options.seed, options.texts, len(tally.unexplained), time.time() - began))
    return 1 if tally.unexplained else 0


if __name__ == "__main__":
    sys.exit(main())
