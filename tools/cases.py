#!/usr/bin/env python3
"""Writes the cases of each program of cases, its files stdin and stdout, which `rt ci` runs and compares.

usage: tools/cases.py [--check]      with --check: writes nothing, and ends with status 1 where a file isn't as it should be

Cases written by hand are in tables/*.txt of each program's folder, as crates/utoipa_cases/tables:

    # what the next cases show               printed as it is, in both files
    CALL                                     the call of the next cases, at the beginning of a line
    CALL ; CALL                              several calls, each of which is given all inputs and has to give the same answers
      INPUT                                  two spaces, then what the call is given
      ~ INPUT                                the same, where the call runs the command, which is given INPUT damaged too
      & INPUT                                a second input, of the calls that take two
      = ANSWER                               the answer, of all inputs since the last one; `=` alone: the input itself, the first
                                             of two, after `0 ` where the call runs the command

In a line, <12*TEXT> is TEXT twelve times, and <0*> nothing; <01..12*TEXT> is TEXT once for each number from 1 to 12, which stands in
the place of each % in it, with as many digits as the first number has. The input of `run-hex` is written with Python's escapes.

An input is damaged in each of these ways: it breaks off, wherever that is; a letter follows its end; one of its letters is a byte
that is in no UTF-8. Of an object or a list that leaves no JSON text, so each is refused as that. These cases come after the tables'.

The sweeps over the member tables are made here, from the tables of docs/FORMAT.md: each member of each type that is built,
with a value that fits, absent, null, and with a value of another kind, on the smallest document of its type.
What is expected is the rule of the member's mark. Each type that keeps extensions is printed with extensions of any names;
what is expected is the object of all members, in the order of the bytes of their names, where the type's own member wins.

Each file of examples/ is read as its type. It has no member that is dropped or left out, so what is expected is its own tree.
"""
import ast
import glob
import json
import os
import re
import sys

ROOT = os.path.dirname(os.path.dirname(os.path.abspath(__file__)))

# The programs of cases. Of the types of docs/FORMAT.md, the second knows those of DOCUMENT_TYPES, and the first all others.
# The third tells what does not fit in a tree, and knows the types that have a table.
PROGRAMS = ("utoipa_cases", "utoipa_document_cases", "utoipa_check_cases")
DOCUMENT_TYPES = ("Operation", "PathItem", "Callback", "Paths", "Components", "OpenApi")


class Cases:
    """The lines of both files of a program, and the calls that are given damaged inputs too, each with the input as it was."""

    def __init__(self):
        self.asked, self.answered, self.damaged = [], [], []

    def say(self, line):
        self.asked.append(line)
        self.answered.append(line)

    def add(self, call, given, answer):
        assert "\t" not in call and "\n" not in given and "\n" not in answer, (call, given)
        self.asked.append("%s\t%s" % (call, given))
        self.answered.append(answer)


# ---- cases written by hand


def repeated(text):
    text = re.sub(r"<(\d+)\.\.(\d+)\*([^<>]*)>", numbered, text)
    return re.sub(r"<(\d+)\*([^<>]*)>", lambda it: it[2] * int(it[1]), text)


def numbered(it):
    numbers = range(int(it[1]), int(it[2]) + 1)
    return "".join(it[3].replace("%", str(number).zfill(len(it[1]))) for number in numbers)


def hexadecimal(text):
    return ast.literal_eval("b'''%s'''" % text).hex()


def itself(call, given):
    """The answer of a call that gives again what it was given."""
    return ("0 " if call.split(" ")[0] in ("run", "steps") else "") + given.split("\t")[0]


def add_by_hand(cases, lines, file):
    calls, inputs = [], []
    for number, line in enumerate(lines, 1):
        if not line.strip() or line.startswith("#"):
            if inputs:
                sys.exit("%s:%d: an input has no answer" % (file, number - 1))
            cases.say(line)
        elif line.startswith("  = ") or line.strip() == "=":
            answer = repeated(line[4:]) if line.startswith("  = ") else None
            for call in calls:
                for given in inputs:
                    cases.add(call, given, itself(call, given) if answer is None else answer)
            inputs = []
        elif line.startswith("  & "):
            inputs[-1] += "\t" + repeated(line[4:])
        elif line.startswith("  ~ "):
            inputs.append(repeated(line[4:]))
            cases.damaged += [(call, inputs[-1]) for call in calls]
        elif line.startswith("  "):
            given = line[2:]
            inputs.append(hexadecimal(given) if calls[0].startswith("run-hex") else repeated(given))
        else:
            calls = repeated(line).split(" ; ")


def add_damaged(cases, call, given):
    """The cases of a call of the command that is given an object or a list, damaged."""
    assert call.split(" ")[0] == "run" and given.isascii() and given[0] + given[-1] in ("{}", "[]"), (call, given)
    refused = "1 refused: text"
    cases.say("# %s: an input of %d bytes that breaks off, that goes on, and that is no UTF-8" % (call, len(given)))
    for text in [given[:length] for length in range(len(given))] + [given + "x"]:
        cases.add(call, text, refused)
    letter = re.search("[A-Za-z]", given)
    if letter:
        damaged = given[:letter.start()].encode() + b"\xff" + given[letter.end():].encode()
        cases.add(call.replace("run", "run-hex", 1), damaged.hex(), refused)


# ---- the member tables of docs/FORMAT.md


def cells_of(line):
    return [it.strip() for it in line.strip().strip("|").split("|")]


def tables_of(text):
    """The rows of each type, each a member, its mark and its kind."""
    tables, name = {}, None
    for line in text.split("## Member tables")[1].split("\n## Words")[0].split("\n"):
        cells = cells_of(line)
        if len(cells) == 4 and cells[1] in ("required", "optional", "or_null", "defaulted"):
            name = re.match(r"`(\w+)`", cells[0])[1] if cells[0] else name
            members = re.findall(r"`([^`]+)`(?: → `[^`]+`)?", cells[3])
            tables.setdefault(name, []).extend((it, cells[1], cells[2]) for it in members)
    return tables


def words_of(text):
    words = {}
    for line in text.split("\n## Words")[1].split("\n## ")[0].split("\n"):
        cells = cells_of(line)
        if len(cells) == 2 and cells[0].startswith("`"):
            words[cells[0].strip("`")] = cells[1].split(", ")
    return words


# The types that are built and read by a table of their own. MutualTls serves a variant of SecurityScheme.
SWEPT = """Ref Info Contact License ExternalDocs Server ServerVariable Tag Xml Example Content Encoding Header Link RequestBody
    Response Parameter Operation PathItem OpenApi Components Object Array OneOf AllOf AnyOf Discriminator ApiKeyValue Http OpenIdConnect
    MutualTls OAuth2 Scopes Implicit Password ClientCredentials AuthorizationCode DeviceAuthorization""".split()

WITHOUT_EXTENSIONS = ("Ref", "Xml", "Scopes")

# For each kind a value that fits, one that doesn't, and how that is refused; None where no fault is promised.
PLAIN = {
    "text": ("t", 5, "kind"),
    "flag": (True, "true", "kind"),
    "whole": (18446744073709551615, -1, "kind"),
    "number": (-9223372036854775808, "1", "kind"),
    "any": ({"b": [None, -1]}, None, None),
    "version": ("3.2.0", 5, "kind"),
    "SchemaType": (["string", "null"], 5, None),
    "SchemaFormat": ("int32", 5, "kind"),
    "Schema": ({"type": "string"}, 5, "alternative"),
    "ArrayItems": (False, 5, "alternative"),
    "AdditionalProperties": ({"$ref": "#/a"}, 5, "alternative"),
    "flows": ({"k": {"scopes": {}, "tokenUrl": "t"}}, 5, "kind"),
    "Responses": ({"200": {"description": "d"}}, 5, "kind"),
    "Callback": ({"e": {"summary": "s"}}, 5, "kind"),
    "Paths": ({"/p": {"summary": "s"}}, 5, "kind"),
    "SecurityRequirement": ({"k": ["s"]}, 5, "kind"),
    "SecurityScheme": ({"type": "mutualTLS"}, 5, "kind"),
}


class Format:
    def __init__(self, text):
        self.tables, self.words = tables_of(text), words_of(text)

    def smallest(self, name):
        return {it: self.fitting(kind) for it, mark, kind in self.tables[name] if mark == "required"}

    def of(self, kind):
        """A value that fits the kind, one that doesn't, and how that is refused."""
        if kind.startswith("list of "):
            return [self.fitting(kind[8:])], 5, "kind"
        if kind.startswith(("map of ", "ordered map of ")):
            return {"k": self.fitting(kind.partition("map of ")[2])}, 5, "kind"
        if kind.startswith("ref or "):
            return {"$ref": "#/a"}, 5, self.of(kind[7:])[2]
        if kind in self.words:
            return self.words[kind][-1], 5, "kind"
        if kind in PLAIN:
            return PLAIN[kind]
        return self.written(kind, self.smallest(kind)), 5, "kind"

    def fitting(self, kind):
        return self.of(kind)[0]

    def written(self, name, tree):
        """What is written for a tree that is read: null where an `or_null` member is absent."""
        return {**{it: None for it, mark, _ in self.tables[name] if mark == "or_null"}, **tree}


def text_of(tree):
    return json.dumps(ordered(tree), separators=(",", ":"), ensure_ascii=False)


def ordered(tree):
    """The tree with its members in the order of the bytes of their names."""
    if isinstance(tree, dict):
        return {it: ordered(tree[it]) for it in sorted(tree, key=lambda it: it.encode())}
    return [ordered(it) for it in tree] if isinstance(tree, list) else tree


# ---- the sweeps


def has_default(kind, value):
    return value in ("", [], {}) or (kind == "flag" and value is False)


class Sweep:
    """The cases of one type, over its table."""

    def __init__(self, cases, form, name):
        self.cases, self.name, self.rows = cases, name, form.tables[name]
        self.form, self.type, self.fixed = form, name, {}
        if name == "MutualTls":
            self.type, self.fixed = "SecurityScheme", {"type": "mutualTLS"}
        self.smallest = {**form.smallest(name), **self.fixed}

    def is_read(self, tree, document):
        self.cases.add("read " + self.type, text_of(tree), text_of(self.form.written(self.name, document)))

    def is_refused(self, tree, word):
        call = "read " if word else "fits "
        self.cases.add(call + self.type, text_of(tree), "refused: " + word if word else "no")

    def others(self, member):
        return {it: value for it, value in self.smallest.items() if it != member}

    def add(self):
        self.cases.say("# %s: the smallest, one with all members, and with members that its table doesn't name" % self.name)
        whole = {**{it: self.form.fitting(kind) for it, _, kind in self.rows}, **self.fixed}
        kept = {} if self.name in WITHOUT_EXTENSIONS else {"x-": None, "x-a": {"b": [1]}}
        self.is_read(self.smallest, self.smallest)
        self.is_read({**whole, "x-": None, "x-a": {"b": [1]}}, {**whole, **kept})
        self.is_read({**self.smallest, "zzz": 1, "X-a": 2}, self.smallest)
        for row in self.rows:
            self.cases.say("# %s, `%s`: %s %s" % (self.name, row[0], row[1], row[2]))
            self.add_row(*row)

    def add_row(self, member, mark, kind):
        fitting, other, fault = self.form.of(kind)
        others = self.others(member)
        self.is_read({**others, member: fitting}, {**others, member: fitting})
        if other is not None:
            self.is_refused({**others, member: other}, fault)
        if mark == "required":
            self.is_refused(others, "missing")
        self.add_null(member, mark, kind, others)
        self.add_empty(member, mark, kind, others)

    def add_null(self, member, mark, kind, others):
        """Null is absence of an optional member; else the kind decides."""
        null = {**others, member: None}
        if mark in ("optional", "or_null"):
            self.is_read(null, others)
        elif kind == "SchemaType":
            self.is_read(null, null if mark == "required" else others)
        elif kind == "any":
            self.is_read(null, null)
        else:
            self.is_refused(null, self.form.of(kind)[2])

    def add_empty(self, member, mark, kind, others):
        """What is empty is written, but at a defaulted member."""
        shape = kind.split(" ")[0]
        empty = {"text": "", "flag": False, "list": [], "map": {}, "ordered": {}, "flows": {}, "Responses": {}}.get(shape)
        if empty is not None:
            tree = {**others, member: empty}
            self.is_read(tree, others if mark == "defaulted" else tree)


# Where each table is printed: the type that is read, and the members that say which of its alternatives it is.
PRINTED = [(name, name, {}) for name in SWEPT if name not in WITHOUT_EXTENSIONS and name != "MutualTls"]
PRINTED += [(name, "Schema", {}) for name in ("Object", "Array", "OneOf", "AllOf", "AnyOf")]
PRINTED += [("ApiKeyValue", "ApiKey", {"in": word}) for word in ("header", "query", "cookie")]
PRINTED += [(name, "SecurityScheme", {"type": word}) for name, word in
            (("OAuth2", "oauth2"), ("Http", "http"), ("OpenIdConnect", "openIdConnect"), ("MutualTls", "mutualTLS"))]
PRINTED += [("ApiKeyValue", "SecurityScheme", {"in": word, "type": "apiKey"}) for word in ("header", "query", "cookie")]


class Printing:
    """The cases of one type, printed with extensions of any names."""

    def __init__(self, cases, form, name, type, fixed):
        self.cases, self.form, self.name, self.type = cases, form, name, type
        self.whole = {**{it: form.fitting(kind) for it, _, kind in form.tables[name]}, **fixed}
        self.smallest = {**form.smallest(name), **fixed}

    def add_with(self, extensions):
        """Both values with the extensions: an extension stands where the type writes no member of its name."""
        for document in (self.whole, self.smallest):
            written = {**extensions, **self.form.written(self.name, document)}
            self.cases.add("print " + self.type, text_of(document) + "\t" + text_of(extensions), text_of(written))

    def add(self):
        said = " as " + self.type if self.type != self.name else ""
        self.cases.say("# %s%s, printed with all members and with the required ones alone: extensions before and after them"
                       % (self.name, said))
        own = {it: "own" for it in self.whole}
        between = {it + "!": ["between"] for it in self.whole}
        outside = {"": None, "!": {"b": [], "a": {}}, "x-a": {"b": [1, None], "a": '"\\\n'}, "zzz": True, "\ufb01": -1, "\U00010000": 1}
        self.add_with({})
        for name, value in outside.items():
            self.add_with({name: value})
        self.add_with(outside)
        self.cases.say("# %s%s, and of the names of its members, between them, and all of these" % (self.name, said))
        for member in self.whole:
            self.add_with({member[:-1]: 1, member: {"x-b": 2}, member + "!": 3})
        self.add_with(own)
        self.add_with(between)
        self.add_with({**outside, **own, **between})


class Misfits:
    """The cases of what does not fit in a tree of one type, over its table."""

    def __init__(self, cases, form, name):
        self.cases, self.name, self.rows, self.form = cases, name, form.tables[name], form
        self.smallest = form.smallest(name)

    def are(self, tree, places):
        """The pointer of the tree itself is the empty text."""
        self.cases.add("places " + self.name, text_of(tree), " ; ".join(places) if places else "none")

    def add(self):
        self.cases.say("# %s: the smallest, one with all members, and members that its table doesn't name" % self.name)
        self.are(self.smallest, [])
        self.are({it: self.form.fitting(kind) for it, _, kind in self.rows}, [])
        self.are({**self.smallest, "zzz": 1, "x-a": {"b": [1]}}, [])
        self.cases.say("# %s: other kinds" % self.name)
        for tree in (None, True, 5, "t", []):
            self.are(tree, [""])
        self.cases.say("# %s: each required member absent, and all at once" % self.name)
        required = [it for it, mark, _ in self.rows if mark == "required"]
        for member in required:
            given = {it: value for it, value in self.smallest.items() if it != member}
            self.cases.add("misfits " + self.name, text_of(given), ": the member `%s` is required" % member)
        self.cases.add("misfits " + self.name, "{}", " ; ".join(": the member `%s` is required" % it for it in sorted(required)) or "none")
        self.cases.say("# %s: each member null, each of another kind, and all of other kinds at once" % self.name)
        refused = {}
        for member, mark, kind in self.rows:
            others = {it: value for it, value in self.smallest.items() if it != member}
            absent = mark in ("optional", "or_null") or kind in ("SchemaType", "any")
            self.are({**others, member: None}, [] if absent else ["/" + pointed(member)])
            other = self.form.of(kind)[1]
            if other is not None:
                refused[member] = other
                self.are({**others, member: other}, ["/" + pointed(member)])
        self.are({**self.smallest, **refused}, ["/" + pointed(it) for it in sorted(refused)])


def pointed(name):
    """A name, as a JSON Pointer has it."""
    return name.replace("~", "~0").replace("/", "~1")


def add_words(cases, name, words):
    cases.say("# %s: its words, and other texts and kinds" % name)
    for word in words:
        cases.add("read " + name, text_of(word), text_of(word))
    for other in ("", words[0].upper(), words[0] + " ", "zzz"):
        cases.add("read " + name, text_of(other), "refused: word")
    for tree in (None, 5, True, [words[0]], {words[0]: None}):
        cases.add("read " + name, text_of(tree), "refused: kind")


def add_trees(cases, name):
    """A table is read from an object alone."""
    for tree in (None, True, 5, "t", []):
        cases.add("read " + name, text_of(tree), "refused: kind")


# The type of each file of examples/.
EXAMPLES = {"schema.json": "RefOr<Schema>", "server.json": "Server", "shop.json": "OpenApi", "shop-3.2.json": "OpenApi"}


def add_examples(cases_of):
    for name, type in EXAMPLES.items():
        with open(os.path.join(ROOT, "examples", name), encoding="utf-8") as text:
            tree = json.load(text)
        cases = cases_of(type)
        cases.say("# examples/%s" % name)
        cases.add("read " + type, json.dumps(tree, separators=(",", ":"), ensure_ascii=False), text_of(tree))


def folder_of(program):
    return os.path.join(ROOT, "crates", program)


def by_hand(program):
    """The cases of a program's tables."""
    cases = Cases()
    for file in sorted(glob.glob(os.path.join(folder_of(program), "tables", "*.txt"))):
        with open(file, encoding="utf-8") as lines:
            add_by_hand(cases, lines.read().rstrip("\n").split("\n"), file)
    for call, given in cases.damaged:
        add_damaged(cases, call, given)
    return cases


def add_made(cases_of):
    """Adds the cases that are made here, each type's to the cases of the program that knows it."""
    with open(os.path.join(ROOT, "docs", "FORMAT.md"), encoding="utf-8") as text:
        form = Format(text.read())
    add_examples(cases_of)
    for name in SWEPT:
        sweep = Sweep(cases_of(name), form, name)
        sweep.add()
        add_trees(sweep.cases, sweep.type)
    for name in SWEPT:
        Misfits(cases_of("misfits"), form, name).add()
    for name, type, fixed in PRINTED:
        Printing(cases_of(type), form, name, type, fixed).add()
    for name, words in form.words.items():
        if name != "OpenApiVersion":
            add_words(cases_of(name), name, words)


def all_cases():
    """The cases of each program."""
    cases = {program: by_hand(program) for program in PROGRAMS}
    add_made(lambda type: cases["utoipa_check_cases" if type == "misfits" else "utoipa_document_cases" if type in DOCUMENT_TYPES else "utoipa_cases"])
    return cases


def is_as_written(file, text):
    with open(file, encoding="utf-8") as it:
        return it.read() == text


def write(file, text):
    with open(file, "w", encoding="utf-8") as it:
        it.write(text)


def main():
    check, stale, total = "--check" in sys.argv[1:], False, 0
    for program, cases in all_cases().items():
        for name, lines in (("stdin", cases.asked), ("stdout", cases.answered)):
            file, text = os.path.join(folder_of(program), name), "\n".join(lines) + "\n"
            if not check:
                write(file, text)
            elif not is_as_written(file, text):
                print("%s isn't what tools/cases.py writes" % file)
                stale = True
        count = sum(not it.startswith("#") and it != "" for it in cases.asked)
        print("%4d cases of %s" % (count, program))
        total += count
    print("%4d cases" % total)
    return 1 if stale else 0


if __name__ == "__main__":
    sys.exit(main())
