#!/usr/bin/env python3
"""Writes the member tables, the vocabularies and the choices of utoipa_base's definitions as data of the program, in utoipa_tables.

usage: tools/tables.py [--check]      with --check: writes nothing, and ends with status 1 where a file isn't as it should be

What it reads: Kinds.antt, Tables.antt, Words.antt and Choices.antt of crates/utoipa_base/specs. What it writes: src/kinds.rt, src/tables.rt,
src/vocabularies.rt, src/choices.rt, src/alternatives.rt and specs/Tables.antt of crates/utoipa_tables. Each function that it writes has a
clause that its data are those of the definitions, which the check finds by computing: so nothing rests on this script.

The tables that are the alternatives of one choice, as those of a schema, are written once more, each over the members of all of
them: a member that an alternative's table lacks has the mark NotKept there.

Files are compared without their white space, since `rt fmt` lays them out.
"""
import os
import re
import sys

ROOT = os.path.dirname(os.path.dirname(os.path.abspath(__file__)))
DEFINITIONS = os.path.join(ROOT, "crates", "utoipa_base", "specs")
WRITTEN = os.path.join(ROOT, "crates", "utoipa_tables")

# Kinds that hold others, and kinds that have a name of their own in Tables.antt.
HOLDING = ("list_of", "map_of", "ordered_map_of", "entries_of", "ref_or")
NAMED_KINDS = ("paths", "responses", "callback", "security_requirement")

# The choices among tables: the name of the type of its alternatives, what they are, and the tables, in the order in which they are tried.
CHOICES = {
    "schema": (
        "The alternatives of a schema, in the order in which they are tried (Schema Object: section 4.8.24).",
        ["one_of_schema", "all_of_schema", "any_of_schema", "array_schema", "object_schema"],
    ),
    "flow": (
        "The types of an OAuth flow, in the order in which they are tried under a key that names none (OAuth Flow Object: section 4.8.29).",
        ["implicit_flow", "password_flow", "client_credentials_flow", "authorization_code_flow", "device_authorization_flow"],
    ),
}


def read(name):
    with open(os.path.join(DEFINITIONS, name + ".antt")) as file:
        return file.read()


def camel(name):
    return "".join(part.capitalize() for part in name.split("_"))


# ---- the definitions


def constructors(source, name):
    """The constructors of a type without arguments."""
    return re.findall(r"^  (\w+) : %s$" % name, source, re.M)


def kinds(source):
    """The constructors of Kind, each with the type of what it holds, or None, and the comment above it."""
    found, comment = [], []
    block = source[source.index("pub data Kind ") : source.index("pub data Mark ")]
    for line in block.split("\n"):
        above = re.match(r"  -- (.*)", line)
        made = re.match(r"  (\w+) : (?:(\w+) → )?Kind$", line)
        if above:
            comment.append(above[1])
        elif made:
            found.append((made[1], made[2], " ".join(comment)))
            comment = []
    return found


def kind_of(words):
    """The program's text of a kind, whose words are taken from a list."""
    word = words.pop(0)
    if word == "(":
        kind = kind_of(words)
        assert words.pop(0) == ")"
        return kind
    if word in HOLDING:
        return "Kind::%s(&%s)" % (camel(word), kind_of(words))
    if word == "named":
        return "Kind::Named(ObjectType::%s)" % camel(words.pop(0))
    if word == "word_of":
        return "Kind::WordOf(Vocabulary::%s)" % camel(words.pop(0))
    if word in NAMED_KINDS:
        return word.upper()
    return "Kind::" + camel(word)


def parsed(text):
    return kind_of(re.findall(r"[()]|\w+", text))


def named_kinds(source):
    """The kinds that have a name of their own, and what they are."""
    return [(name, parsed(re.search(r"^%s = (.*)$" % name, source, re.M)[1])) for name in NAMED_KINDS]


def tables(source):
    """Each table: the comment above it, and its rows as name, mark and kind, with the kind's text in the definitions."""
    found, comment, rows = {}, [], None
    for line in source[source.index("abbrev pub table ") :].split("\n"):
        above = re.match(r"-- (.*)", line)
        begun = re.match(r"table (\w+) =$", line)
        row = re.match(r"\s+(?:∷ )?row \(codes \"([^\"]*)\"\) (\w+) (.*?)(?: ∷ \[\])?$", line)
        if above:
            comment.append(above[1])
        elif begun:
            rows = []
            found[begun[1]] = (comment[0], rows)
            for more in comment[1:]:
                if not re.match(r"not kept|stricter|fit the next", more) and "section" in more:
                    found[begun[1]] = (more, rows)
            comment = []
        elif row:
            rows.append((row[1], row[2], parsed(row[3]), row[3]))
    return found


def vocabularies(source):
    """Each vocabulary: the comment above it, and its words."""
    found, comment = {}, ""
    for line in source.split("\n"):
        above = re.match(r"-- (.*)", line)
        begun = re.match(r"words (\w+) =(.*)", line)
        if above:
            comment = above[1]
        elif begun:
            words = re.findall(r'codes "([^"]*)"', begun[2])
            found[begun[1]] = (comment, words)
        elif line.startswith("    ") and found:
            words += re.findall(r'codes "([^"]*)"', line)
        elif line.startswith("abbrev"):
            words = []
    return found


def choices(source, name):
    """The words of a choice, each with the definition's text of what it chooses."""
    text = source[source.index("%s =" % name) :]
    text = text[: text.index("∷ []")]
    return [(word, chosen.strip()) for word, chosen in re.findall(r'\(codes "([^"]*)", ([\w ]+)\)', text)]


# ---- the program's text


def doc(text, indent=""):
    text = text[0].upper() + text[1:]
    return "%s/// %s\n" % (indent, text if text.endswith(".") else text + ".")


def kinds_file(types, vocabulary_names, kind_list, table_list, vocabulary_list):
    out = ["//! What may stand at a member, and the object types, as data.\n"]
    text = "/// The object types that have a member table, by the names of the standard.\n#[derive(Clone, Copy, Debug, Drop, PartialEq, Eq)]\npub enum ObjectType {\n"
    for name in types:
        text += doc(table_list[name][0], "    ") + "    %s,\n" % camel(name)
    out.append(text + "}\n")
    text = "/// The types whose values are words.\n#[derive(Clone, Copy, Debug, Drop, PartialEq, Eq)]\npub enum Vocabulary {\n"
    for name in vocabulary_names:
        text += doc(vocabulary_list[name][0], "    ") + "    %s,\n" % camel(name)
    out.append(text + "}\n")
    text = "/// What a member holds.\n#[derive(Clone, Copy, Drop)]\npub enum Kind {\n"
    for name, held, comment in kind_list:
        comment = comment or {"list_of": "a list"}[name]
        text += doc(comment, "    ")
        if held is None:
            text += "    %s,\n" % camel(name)
        elif held == "Kind":
            text += "    %s(&'static Kind),\n" % camel(name)
        else:
            text += "    %s(%s),\n" % (camel(name), held)
    out.append(text + "}\n")
    out.append(
        """/// How a row of a member table is marked.
#[derive(Clone, Copy, Debug, Drop, PartialEq, Eq)]
pub enum Mark {
    /// Absent is refused; always written.
    Required,
    /// Absent or null is none; none is left out.
    Optional,
    /// Absent or null is none; none is written as null.
    OrNull,
    /// Absent is empty, and null is read as the kind says; empty is left out.
    Defaulted,
    /// The table does not keep the member, which the table of another alternative does.
    NotKept,
}
"""
    )
    out.append(
        """/// A row of a member table.
#[derive(Clone, Copy, Drop)]
pub struct Row {
    /// The member's name.
    pub name: &'static str,
    /// How the row is marked.
    pub mark: Mark,
    /// What the member holds.
    pub kind: Kind,
}
"""
    )
    return "\n".join(out)


def rows_text(name, rows):
    text = "static %s: [Row; %d] = [\n" % (name, len(rows))
    for member, mark, kind, _ in rows:
        text += '    Row { name: "%s", mark: Mark::%s, kind: %s },\n' % (member, camel(mark), kind)
    return text + "];\n"


def kinds_used(named, text):
    """The kinds that have a name of their own, of those that a text names."""
    return "".join("const %s: Kind = %s;\n" % (name.upper(), kind) for name, kind in named if re.search(r"\b%s\b" % name.upper(), text))


def names_used(text):
    """The types of kinds.rt that a text names, in their order."""
    return ", ".join(it for it in ("Kind", "Mark", "ObjectType", "Row", "Vocabulary") if re.search(r"\b%s\b" % it, text))


def tables_file(table_list, named):
    data = "\n".join(rows_text(name.upper(), rows) for name, (_, rows) in table_list.items())
    head = """//! The member tables, as data.
ghost use Rattle.std.specs.Prelude.{◌≡◌};
ghost use Rattle.utoipa_base.specs.Tables.{table};
ghost use Rattle.utoipa_tables.specs.Tables.{type_of, rows_of, members_of, members_in};
ghost use Rattle.utoipa_tables.specs.Titles.{type_title};

use crate::kinds::{%s};

""" % names_used(data)
    text = """
/// The member table of an object type, by the names of its members.
pub fn rows(object_type: ObjectType) -> &'static [Row]
    ensures table { rows_of result.now ≡ table (type_of object_type) }
    ensures members { members_of result.now ≡ members_in (table (type_of object_type)) }
{
    match object_type {
"""
    for name in table_list:
        text += "        ObjectType::%s => &%s,\n" % (camel(name), name.upper())
    return head + kinds_used(named, data) + "\n" + data + text + "    }\n}\n" + titles_text(table_list)


def title(name, comment):
    """The name of an object type in a sentence, by the comment above its table."""
    words = re.split(r": | \(", comment)[0]
    kind = re.search(r", (`\w+`)", comment)
    if words.startswith("the member"):
        return "an object with " + re.match(r"the member (`\w+`)", comment)[1]
    words = words.split(", ")[0] + (" of " + kind[1] if kind and re.search(r"scheme|flow", name) else "")
    return ("an " if words[0] in "AEIOU" or words.startswith("XML") else "a ") + words


def titles_text(table_list):
    text = """
/// An object type as a sentence has it: its name in the standard, after an article.
pub fn title(object_type: ObjectType) -> &'static str
    ensures { result.now ≡ type_title (type_of object_type) }
{
    match object_type {
"""
    for name, (comment, _) in table_list.items():
        text += '        ObjectType::%s => "%s",\n' % (camel(name), title(name, comment))
    return text + "    }\n}\n"


def words_file(vocabulary_list):
    text = """//! The words of each vocabulary, as data.
ghost use Rattle.std.specs.Prelude.{◌≡◌};
ghost use Rattle.utoipa_base.specs.Rows.{texts};
ghost use Rattle.utoipa_base.specs.Words as specs;
ghost use Rattle.utoipa_tables.specs.Tables.{vocabulary_of};

use crate::kinds::Vocabulary;
"""
    for name, (_, words) in vocabulary_list.items():
        text += "\nstatic %s: [&str; %d] = [\n" % (name.upper(), len(words))
        text += "".join('    "%s",\n' % word for word in words) + "];\n"
    text += """
/// The words of a vocabulary, in the order of the definition.
pub fn words(vocabulary: Vocabulary) -> &'static [&'static str]
    ensures { texts result.now ≡ specs.words (vocabulary_of vocabulary) }
{
    match vocabulary {
"""
    for name in vocabulary_list:
        text += "        Vocabulary::%s => &%s,\n" % (camel(name), name.upper())
    return text + "    }\n}\n"


CHOICE_FUNCTIONS = [
    ("scheme_types", "A security scheme, by its member `type` (Security Scheme Object: section 4.8.27)."),
    ("api_key_places", "An API key, by its member `in` (Security Scheme Object: section 4.8.27)."),
    ("flow_keys", "OAuth flows, by their keys (OAuth Flows Object: section 4.8.28)."),
]


def choices_file(source):
    text = """//! The choices that a member's text or a key decides, as data.
ghost use Rattle.std.specs.Prelude.{◌≡◌};
ghost use Rattle.utoipa_base.specs.Choices as specs;
ghost use Rattle.utoipa_base.specs.Rows.{texts};
ghost use Rattle.utoipa_tables.specs.Tables.{choices_of, flow_choices, words_of_choices, kinds_of, flow_kinds};

use crate::kinds::{Kind, ObjectType};

/// An alternative, and the word that chooses it.
#[derive(Clone, Copy, Drop)]
pub struct Choice {
    /// The word.
    pub word: &'static str,
    /// What it chooses.
    pub kind: Kind,
}
"""
    for name, comment in CHOICE_FUNCTIONS:
        found = choices(source, name)
        if name == "flow_keys":
            found = [(word, "named " + chosen) for word, chosen in found]
        text += "\nstatic %s: [Choice; %d] = [\n" % (name.upper(), len(found))
        text += "".join('    Choice { word: "%s", kind: %s },\n' % (word, parsed(chosen)) for word, chosen in found) + "];\n"
        text += "\n%spub fn %s() -> &'static [Choice]\n" % (doc(comment), name)
        if name == "flow_keys":
            text += "    ensures { choices_of result.now ≡ flow_choices specs.flow_keys }\n"
        else:
            text += "    ensures { choices_of result.now ≡ specs.%s }\n" % name
        text += "{\n    &%s\n}\n" % name.upper()
        if name == "flow_keys":
            text += "\nstatic FLOW_KINDS: [Kind; %d] = [\n" % len(found)
            text += "".join("    %s,\n" % parsed(chosen) for _, chosen in found) + "];\n"
            text += "\n/// The kinds of OAuth flows.\npub fn flow_kinds() -> &'static [Kind]\n"
            text += "    ensures { kinds_of result.now ≡ flow_kinds specs.flow_keys }\n{\n    &FLOW_KINDS\n}\n"
            text += "\nstatic FLOW_NAMES: [&str; %d] = [\n" % len(found)
            text += "".join('    "%s",\n' % word for word, _ in found) + "];\n"
            text += "\n/// The keys of [`flow_keys`].\npub fn flow_names() -> &'static [&'static str]\n"
            text += "    ensures { texts result.now ≡ words_of_choices (flow_choices specs.flow_keys) }\n{\n    &FLOW_NAMES\n}\n"
        else:
            word_name = {"scheme_types": "scheme_type_words", "api_key_places": "api_key_place_words"}[name]
            text += "\nstatic %s: [&str; %d] = [\n" % (word_name.upper(), len(found))
            text += "".join('    "%s",\n' % word for word, _ in found) + "];\n"
            text += "\n/// The words of [`%s`].\npub fn %s() -> &'static [&'static str]\n" % (name, word_name)
            text += "    ensures { texts result.now ≡ words_of_choices specs.%s }\n{\n    &%s\n}\n" % (name, word_name.upper())
    return text


def shared_rows(table_list, names):
    """The members of some tables, by name, each with its kind: the tables agree on the kinds of the members that they share."""
    kinds_by_name = {}
    for name in names:
        for member, _, kind, defined in table_list[name][1]:
            assert kinds_by_name.setdefault(member, (kind, defined)) == (kind, defined), member
    return [(member, *kinds_by_name[member]) for member in sorted(kinds_by_name)]


def alternative_name(name):
    return camel(re.sub(r"_(schema|flow)$", "", name))


def alternatives_file(table_list, named):
    text = ""
    for choice, (comment, names) in CHOICES.items():
        shared = shared_rows(table_list, names)
        enum = camel(choice) + "Alternative"
        text += "\n%s#[derive(Clone, Copy, Debug, Drop, PartialEq, Eq)]\npub enum %s {\n" % (doc(comment), enum)
        for name in names:
            text += doc(table_list[name][0], "    ") + "    %s,\n" % alternative_name(name)
        text += "}\n"
        for name in names:
            marks = {member: mark for member, mark, _, _ in table_list[name][1]}
            rows = [(member, marks.get(member, "not_kept"), kind, defined) for member, kind, defined in shared]
            text += "\n" + rows_text("%s_AMONG_ALL" % name.upper(), rows)
        text += """
/// The member table of an alternative, over the members of all alternatives of the choice.
pub fn %s_rows(alternative: %s) -> &'static [Row]
    ensures table { rows_of result.now ≡ table (%s_type alternative) }
    ensures members { members_of result.now ≡ %s_members }
{
    match alternative {
""" % (choice, enum, choice, choice)
        for name in names:
            text += "        %s::%s => &%s_AMONG_ALL,\n" % (enum, alternative_name(name), name.upper())
        text += "    }\n}\n"
    head = """//! The alternatives of schemas and of OAuth flows, as data.
ghost use Rattle.std.specs.Prelude.{◌≡◌};
ghost use Rattle.utoipa_base.specs.Tables.{table};
ghost use Rattle.utoipa_tables.specs.Tables.{rows_of, members_of, %s};

use crate::kinds::{%s};

""" % (", ".join("%s_type, %s_members" % (it, it) for it in CHOICES), names_used(text))
    return head + kinds_used(named, text) + text


def definitions_file(types, vocabulary_names, kind_list, table_list):
    held = [(name, what) for name, what, _ in kind_list]
    used = {defined_word for _, names in CHOICES.values() for _, _, defined in shared_rows(table_list, names) for defined_word in re.findall(r"\w+", defined)}
    text = """-- What the data of the program stand for.
use Rattle.std.specs.Prelude.{ℕ, List, [], ◌∷◌, map, codes}
use Rattle.utoipa_base.specs.Kinds as specs
use Rattle.utoipa_base.specs.Tables.{row}
use Rattle.utoipa_tables.specs.declared.alternatives.FlowAlternative.{FlowAlternative}
use Rattle.utoipa_tables.specs.declared.alternatives.FlowAlternative.TheVariants as flow_alternatives
use Rattle.utoipa_tables.specs.declared.alternatives.SchemaAlternative.{SchemaAlternative}
use Rattle.utoipa_tables.specs.declared.alternatives.SchemaAlternative.TheVariants as schema_alternatives
use Rattle.utoipa_tables.specs.declared.choices.Choice.{Choice}
use Rattle.utoipa_tables.specs.declared.kinds.Kind.{Kind, %s}
use Rattle.utoipa_tables.specs.declared.kinds.Mark.{Mark}
use Rattle.utoipa_tables.specs.declared.kinds.Mark.TheVariants as marks
use Rattle.utoipa_tables.specs.declared.kinds.ObjectType.{ObjectType}
use Rattle.utoipa_tables.specs.declared.kinds.ObjectType.TheVariants as types
use Rattle.utoipa_tables.specs.declared.kinds.Row.{Row}
use Rattle.utoipa_tables.specs.declared.kinds.Vocabulary.{Vocabulary}
use Rattle.utoipa_tables.specs.declared.kinds.Vocabulary.TheVariants as vocabularies

""" % ", ".join(camel(name) + ("'" if what == "Kind" else "") for name, what in held)
    text += "-- ---- kinds\n\nabbrev pub type_of : ObjectType → specs.ObjectType\n"
    text += "".join("type_of types.%s = specs.%s\n" % (camel(name), name) for name in types)
    text += "\nabbrev pub vocabulary_of : Vocabulary → specs.Vocabulary\n"
    text += "".join("vocabulary_of vocabularies.%s = specs.%s\n" % (camel(name), name) for name in vocabulary_names)
    text += "\nabbrev pub kind_of : Kind → specs.Kind\n"
    for name, what in held:
        if what is None:
            text += "kind_of %s = specs.%s\n" % (camel(name), name)
        elif what == "Kind":
            text += "kind_of (%s' p k) = specs.%s (kind_of k)\n" % (camel(name), name)
        else:
            text += "kind_of (%s x) = specs.%s (%s x)\n" % (camel(name), name, {"Vocabulary": "vocabulary_of", "ObjectType": "type_of"}[what])
    text += """
abbrev pub kinds_of : List Kind → List specs.Kind
kinds_of [] = []
kinds_of (k ∷ ks) = kind_of k ∷ kinds_of ks

-- ---- rows

-- a row before others, unless its mark says that it is not kept
abbrev pub and_row : Mark → List ℕ → specs.Kind → List specs.Row → List specs.Row
"""
    for name in ("required", "optional", "or_null", "defaulted"):
        text += "and_row marks.%s name k rest = row name specs.%s k ∷ rest\n" % (camel(name), name)
    text += """and_row marks.NotKept name k rest = rest

-- the rows that are kept
abbrev pub rows_of : List Row → List specs.Row
rows_of [] = []
rows_of (r ∷ rs) = and_row r.mark r.name.now (kind_of r.kind) (rows_of rs)

-- the members that rows name, kept or not, each with its kind
abbrev pub members_of : List Row → List (List ℕ × specs.Kind)
members_of [] = []
members_of (r ∷ rs) = (r.name.now, kind_of r.kind) ∷ members_of rs

-- the members of a table, each with its kind
abbrev pub members_in : List specs.Row → List (List ℕ × specs.Kind)
members_in [] = []
members_in (r ∷ rs) = (r.name, r.kind) ∷ members_in rs

-- ---- choices

abbrev pub choices_of : List Choice → List (List ℕ × specs.Kind)
choices_of [] = []
choices_of (c ∷ cs) = (c.word.now, kind_of c.kind) ∷ choices_of cs

-- a flow's type, by its key
abbrev pub flow_choices : List (List ℕ × specs.ObjectType) → List (List ℕ × specs.Kind)
flow_choices [] = []
flow_choices (c ∷ cs) = (c.0, specs.named c.1) ∷ flow_choices cs

abbrev pub words_of_choices : List (List ℕ × specs.Kind) → List (List ℕ)
words_of_choices cs = map (λ c. c.0) cs

abbrev pub flow_kinds : List (List ℕ × specs.ObjectType) → List specs.Kind
flow_kinds cs = map (λ c. specs.named c.1) cs

-- ---- alternatives
"""
    for choice, (_, names) in CHOICES.items():
        text += "\n-- the table of an alternative\nabbrev pub %s_type : %sAlternative → specs.ObjectType\n" % (choice, camel(choice))
        text += "".join("%s_type %s_alternatives.%s = specs.%s\n" % (choice, choice, alternative_name(name), name) for name in names)
        shared = shared_rows(table_list, names)
        text += "\n-- the members of all alternatives, each with its kind\nabbrev pub %s_members : List (List ℕ × specs.Kind)\n%s_members =\n    " % (choice, choice)
        text += "\n    ∷ ".join('(codes "%s", %s)' % (member, re.sub(r"\b([a-z]\w*)", r"specs.\1", defined)) for member, _, defined in shared) + " ∷ []\n"
    assert used
    return text


def written():
    """Each file that the script writes, with its text."""
    kinds_source, tables_source = read("Kinds"), read("Tables")
    types, vocabulary_names = constructors(kinds_source, "ObjectType"), constructors(kinds_source, "Vocabulary")
    kind_list, table_list, vocabulary_list = kinds(kinds_source), tables(tables_source), vocabularies(read("Words"))
    assert list(table_list) == types and list(vocabulary_list) == vocabulary_names, (set(types) ^ set(table_list), set(vocabulary_names) ^ set(vocabulary_list))
    named = named_kinds(tables_source)
    return {
        "src/kinds.rt": kinds_file(types, vocabulary_names, kind_list, table_list, vocabulary_list),
        "src/tables.rt": tables_file(table_list, named),
        "src/vocabularies.rt": words_file(vocabulary_list),
        "src/choices.rt": choices_file(read("Choices")),
        "src/alternatives.rt": alternatives_file(table_list, named),
        "specs/Tables.antt": definitions_file(types, vocabulary_names, kind_list, table_list),
    }


def without_space(text):
    """A text without its white space, and without the commas and braces that a layout adds."""
    return re.sub(r",(?=[)}\]])", "", re.sub(r"\s+", "", text))


def main():
    checked = sys.argv[1:] == ["--check"]
    assert checked or not sys.argv[1:], __doc__
    differing = []
    for name, text in written().items():
        path = os.path.join(WRITTEN, name)
        if checked:
            with open(path) as file:
                if without_space(file.read()) != without_space(text):
                    differing.append(path)
        else:
            with open(path, "w") as file:
                file.write(text)
    for path in differing:
        print("not as tools/tables.py writes it: %s" % path)
    return 1 if differing else 0


if __name__ == "__main__":
    sys.exit(main())
