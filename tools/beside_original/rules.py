"""What is written for a text, by the tables of docs/FORMAT.md and any of the rows of docs/DIFFERENCES.md.

Each row of ROWS is a rule, asked for by its name where the two programs part. With all of them this tells what the port answers,
with none what the original does, and with some what a program would that differs from the original by these alone. So a difference
is explained by the fewest rows that make the one answer of the other.
"""
import json
import re
import sys

# A text may nest as deep as 127, and each level of it takes many calls.
sys.setrecursionlimit(20000)

# Each rule, and how its row begins in docs/DIFFERENCES.md. Of rules that both explain a difference the later one is named.
ROWS = {
    "twice": "An extension named like a written member: both are written",
    "lists": "Some structs are read from lists too, words from one-member maps",
    "numbered": "A scheme's `type` and an API key's `in` are read from numbers too",
    "combined": "A schema is tried as Array, Object, OneOf, AllOf, AnyOf",
    "any value": "An Object of any value is written without `type`",
    "flows": "Untagged `Flow` takes the first kind that fits",
    "items": "`Paths` and `Responses` read `x-` members as items too",
    "left out": "`Encoding::headers` and `Link::parameters` are required on reading",
    "components": "Of components schemas, responses and security schemes are merged",
    "without a path": "Paths extensions of a document without a path are dropped",
    "fractions": "Fractions are kept",
}
# These two are told by comparing alone: they make no answer of a tree another. The third only takes time.
BY_TREE, ORDER = "by tree", "order"
TOLD = {
    BY_TREE: "A repeated member that a table names is refused",
    ORDER: "Members in the order of fields",
}
TIMED = "`contentSchema` is read twice a level"


class Refused(Exception):
    """There is no answer."""


class Twice:
    """What is written twice under one name: a member, and an extension of its name."""

    def __init__(self, member, extension):
        self.member, self.extension = member, extension


# ---- texts and trees


def number_of(text):
    """A number as serde_json keeps it: whole where it fits 64 bits, but for `-0`; refused where it is too large for any."""
    value = float(text) if re.search(r"[.eE]", text) or text == "-0" else int(text)
    if type(value) is int and not -2**63 <= value < 2**64:
        value = float(value)
    if value in (float("inf"), float("-inf")):
        raise ValueError("a number out of range")
    return value


def no_constant(text):
    raise ValueError("no JSON: " + text)


def check_whole(text):
    """Refuses a JSON text that nests deeper than 127, or has half a pair of surrogates: both also in what a later member replaces."""
    depth = 0
    for token in re.findall(r'"(?:\\.|[^"\\])*"|[][{}]', text):
        if token[0] == '"':
            if "\\u" in token:
                json.loads(token).encode()
        else:
            depth += 1 if token in "[{" else -1
            if depth > 127:
                raise ValueError("too deep")


def tree_of(text):
    """The tree of a text; refused where there is none."""
    try:
        spelled = text.decode()
        tree = json.loads(spelled, parse_int=number_of, parse_float=number_of, parse_constant=no_constant)
        check_whole(spelled)
    except (ValueError, OverflowError, RecursionError):
        raise Refused("text")
    return tree


def has_repeated(text):
    """Whether a member stands twice in an object of the text."""
    found = []
    json.loads(text.decode(), object_pairs_hook=lambda pairs: found.append(len(dict(pairs)) < len(pairs)))
    return any(found)


def pairs_kept(pairs):
    """The object of these members, where a name may stand twice."""
    tree = {}
    for name, value in pairs:
        tree[name] = Twice(tree[name], value) if name in tree else value
    return tree


def tree_of_answer(text):
    return json.loads(text, object_pairs_hook=pairs_kept, parse_int=number_of, parse_float=number_of)


def members_of(tree):
    """The members in the order of the bytes of their names, each as it is written."""
    for name in sorted(tree, key=lambda it: it.encode()):
        value = tree[name]
        for each in (value.member, value.extension) if isinstance(value, Twice) else (value,):
            yield json.dumps(name, ensure_ascii=False) + ":" + line_of(each)


def line_of(tree):
    """The compact text of a tree, its members in the order of their names."""
    if isinstance(tree, dict):
        return "{" + ",".join(members_of(tree)) + "}"
    if isinstance(tree, list):
        return "[" + ",".join(map(line_of, tree)) + "]"
    return json.dumps(tree, ensure_ascii=False)


def has_fraction(tree):
    if isinstance(tree, (dict, list)):
        return any(map(has_fraction, tree.values() if isinstance(tree, dict) else tree))
    return type(tree) is float


def rounded(line):
    """A line whose numbers have fourteen digits: serde_json reads the last ones of some fractions otherwise than Python does."""
    number = r"-?[0-9]+(?:\.[0-9]+)?(?:e[+-]?[0-9]+)?"
    return None if line is None else re.sub(number, lambda it: "%.14g" % float(it[0]), line)


# ---- reading and writing

WITHOUT_EXTENSIONS = ("Ref", "Xml", "Scopes")

# The members of the types that the original reads from lists, in the order of the elements.
LISTED = {
    "Ref": "$ref description summary readOnly writeOnly default title".split(),
    "Xml": "name namespace prefix nodeType attribute wrapped".split(),
}
SCALARS = {
    "text": lambda it: type(it) is str,
    "flag": lambda it: type(it) is bool,
    "whole": lambda it: type(it) is int and 0 <= it < 2**64,
    "any": lambda it: True,
}
NAMED_IN_SCHEMAS = {"$ref", "type", "items", "oneOf", "allOf", "anyOf"}
SCHEMES = {"oauth2": "OAuth2", "apiKey": "ApiKey", "http": "Http", "openIdConnect": "OpenIdConnect", "mutualTLS": "MutualTls"}
KEYS = ("header", "query", "cookie")
FLOWS = {"implicit": "Implicit", "password": "Password", "clientCredentials": "ClientCredentials",
         "authorizationCode": "AuthorizationCode", "deviceAuthorization": "DeviceAuthorization"}
REQUIRED_ONCE = (("Encoding", "headers"), ("Link", "parameters"))


class Reading:
    """Reads a tree as a kind and answers what is then written, by the tables and these rows."""

    def __init__(self, form, rows):
        self.form, self.rows = form, rows

    def read(self, kind, tree):
        if kind.startswith("list of "):
            return [self.read(kind[8:], it) for it in self.of_type(list, tree)]
        if kind.startswith(("map of ", "ordered map of ")):
            return self.entries(kind.partition("map of ")[2], self.of_type(dict, tree))
        if kind.startswith("ref or "):
            return self.first([("Ref", tree), (kind[7:], tree)])
        if kind in self.form.words:
            return self.word(kind, tree)
        if kind in SCALARS:
            return tree if SCALARS[kind](tree) else self.refuse(kind)
        if kind in self.form.tables:
            return self.table(kind, tree)
        return getattr(self, "read_" + kind)(tree)

    def refuse(self, what):
        raise Refused(what)

    def of_type(self, type_wanted, tree):
        return tree if type(tree) is type_wanted else self.refuse(type_wanted)

    def entries(self, kind, tree):
        return {name: self.read(kind, it) for name, it in tree.items()}

    def first(self, alternatives):
        for kind, tree in alternatives:
            try:
                return self.read(kind, tree)
            except Refused:
                pass
        raise Refused("no alternative fits")

    def word(self, kind, tree):
        if "lists" not in self.rows and type(tree) is dict and list(tree.values()) == [None]:
            tree = list(tree)[0]
        return tree if type(tree) is str and tree in self.form.words[kind] else self.refuse(kind)

    def table(self, name, tree):
        listed = LISTED.get(name, ())
        if "lists" not in self.rows and type(tree) is list and len(tree) == len(listed) > 0:
            tree = dict(zip(listed, tree))
        self.of_type(dict, tree)
        written = {} if name in WITHOUT_EXTENSIONS else extensions_of(tree)
        for member, mark, kind in self.form.tables[name]:
            if member in tree and (tree[member] is not None or mark not in ("optional", "or_null")):
                value = self.read(kind, tree[member])
                if mark != "defaulted" or not is_default(kind, value):
                    written[member] = value
            elif mark == "required" or ("left out" not in self.rows and (name, member) in REQUIRED_ONCE):
                raise Refused("missing")
            elif mark == "or_null":
                written[member] = None
        return written

    def items(self, kind, tree):
        """An object whose members are named by its writer: the extensions among them are items too, but for the row."""
        self.of_type(dict, tree)
        extensions = extensions_of(tree)
        if "items" in self.rows:
            return {**self.entries(kind, {it: tree[it] for it in tree if it not in extensions}), **extensions}
        return joined(self.entries(kind, tree), extensions, self.rows)

    def read_number(self, tree):
        if type(tree) is float:
            return min(int(tree), 2**63 - 1) if tree.is_integer() and -2.0**63 <= tree <= 2.0**63 else tree
        return tree if type(tree) is int else self.refuse("number")

    def read_version(self, tree):
        pieces = [int(it) for it in self.of_type(str, tree).split(".") if re.fullmatch(r"[+-]?[0-9]+", it)]
        numbers = [it for it in pieces if -128 <= it <= 127]
        if len(numbers) != 3 or numbers[:2] not in ([3, 1], [3, 2]):
            raise Refused("version")
        return "3.%d.0" % numbers[1]

    def read_Schema(self, tree):
        combined, typed = ["OneOf", "AllOf", "AnyOf"], ["Array", "TypedObject"]
        order = combined + typed if "combined" in self.rows else typed + combined
        return self.first([(it, tree) for it in order + ["ObjectOfAnyValue"]])

    def read_TypedObject(self, tree):
        return self.read("Object", tree if type(tree) is dict and "type" in tree else None)

    def read_ObjectOfAnyValue(self, tree):
        is_one = "any value" in self.rows and type(tree) is dict and not NAMED_IN_SCHEMAS & set(tree)
        return self.read("Object", tree if is_one else None)

    def read_SchemaType(self, tree):
        return None if tree is None else self.first([("TypeWord", tree), ("list of TypeWord", tree)])

    def read_SchemaFormat(self, tree):
        return self.first([("KnownFormat", tree), ("text", tree)])

    def read_ArrayItems(self, tree):
        return False if tree is False else self.read("ref or Schema", tree)

    def read_AdditionalProperties(self, tree):
        return self.first([("ref or Schema", tree), ("flag", tree)])

    def read_Paths(self, tree):
        return self.items("PathItem", tree)

    def read_Responses(self, tree):
        return self.items("ref or Response", tree)

    def read_Callback(self, tree):
        return self.entries("ref or PathItem", self.of_type(dict, tree))

    def read_SecurityRequirement(self, tree):
        return self.entries("list of text", self.of_type(dict, tree))

    def choice(self, tree, member, words):
        """The word at the member that decides; a number tells its place among the words, but for the row."""
        word = self.of_type(dict, tree).get(member)
        if "numbered" not in self.rows and type(word) is int and 0 <= word < len(words):
            return list(words)[word]
        return word if type(word) is str and word in words else self.refuse(member)

    def read_SecurityScheme(self, tree):
        word = self.choice(tree, "type", SCHEMES)
        return {**self.read(SCHEMES[word], tree), "type": word}

    def read_ApiKey(self, tree):
        word = self.choice(tree, "in", KEYS)
        return {**self.read("ApiKeyValue", tree), "in": word}

    def read_flows(self, tree):
        return {name: self.flow(name, it) for name, it in self.of_type(dict, tree).items()}

    def flow(self, name, tree):
        if "flows" in self.rows and name in FLOWS:
            return self.read(FLOWS[name], tree)
        return self.first([(kind, tree) for kind in FLOWS.values()])


def extensions_of(tree):
    return {name: it for name, it in tree.items() if name.startswith("x-")}


def is_default(kind, value):
    return value is False if kind == "flag" else value is None if kind == "SchemaType" else value in ("", [], {})


# ---- merging: of what is written of documents

OPERATIONS = "get put post delete options head patch trace query".split()
MERGED_ONCE = ("schemas", "responses", "securitySchemes")


def joined(items, extensions, rows):
    """An object of these items and extensions: an item wins, but for the row, where both are written."""
    both = set() if "twice" in rows else set(items) & set(extensions)
    return {**extensions, **items, **{it: Twice(items[it], extensions[it]) for it in both}}


def taken_apart(paths):
    """The items and the extensions of a document's paths."""
    twice = {name: it for name, it in paths.items() if isinstance(it, Twice)}
    items = {name: it for name, it in paths.items() if not name.startswith("x-")}
    items.update({name: it.member for name, it in twice.items()})
    return items, {name: getattr(it, "extension", it) for name, it in extensions_of(paths).items()}


def with_missing(first, second):
    return {**second, **first}


def lists_joined(first, second):
    there = [line_of(it) for it in first]
    return first + [it for it in second if line_of(it) not in there]


def merged_item(first, second):
    operations = {it: second[it] for it in OPERATIONS if it in second}
    item = with_missing(first, operations)
    additional = with_missing(first.get("additionalOperations", {}), second.get("additionalOperations", {}))
    return {**item, "additionalOperations": additional} if additional else item


def merged_paths(first, second, rows):
    items, extensions = taken_apart(first)
    others, other_extensions = taken_apart(second)
    if not others and "without a path" not in rows:
        return first
    together = {name: merged_item(items[name], others[name]) for name in items if name in others}
    return joined({**others, **items, **together}, {**extensions, **other_extensions}, rows)


def merged_components(first, second, form, rows):
    maps = [it for it, _, _ in form.tables["Components"]] if "components" in rows else MERGED_ONCE
    filled = {it: with_missing(first.get(it, {}), second.get(it, {})) for it in maps}
    return {**first, **{it: entries for it, entries in filled.items() if entries}}


def merged(first, second, form, rows):
    document = {**first, "paths": merged_paths(first["paths"], second["paths"], rows)}
    for name in ("servers", "security", "tags"):
        if name in second:
            document[name] = lists_joined(first.get(name, []), second[name])
    if "components" in second:
        document["components"] = merged_components(first.get("components", {}), second["components"], form, rows)
    return document


def nested(first, base, second, form, rows):
    items, extensions = taken_apart(first["paths"])
    items.update({base + name: it for name, it in taken_apart(second["paths"])[0].items()})
    paths = joined(items, extensions, rows)
    return merged({**first, "paths": paths}, {**second, "paths": {}}, form, rows)


# ---- answers

KINDS = {"server": "Server", "schema": "ref or Schema", "document": "OpenApi", "merge": "list of OpenApi", "nest": "list of OpenApi"}


def answer(form, text, tree, rows):
    """What a program answers to the text, whose tree this is, that differs from the original by these rows alone; None: it refuses."""
    if "fractions" in rows and has_fraction(tree):
        return None
    try:
        read = Reading(form, rows).read(KINDS[text.command], tree)
    except Refused:
        return None
    if text.command == "nest":
        return line_of(nested(read[0], text.base, read[1], form, rows)) if len(read) == 2 else None
    if text.command == "merge":
        for other in read[1:]:
            read[0] = merged(read[0], other, form, rows)
        return line_of(read[0]) if read else None
    return line_of(read)


def fewest_rows(form, text, tree):
    """The rows that make the port's answer of the original's: without any one of them it is another."""
    rows = set(ROWS)
    wanted = answer(form, text, tree, rows)
    for name in ROWS:
        if answer(form, text, tree, rows - {name}) == wanted:
            rows.remove(name)
    return rows
