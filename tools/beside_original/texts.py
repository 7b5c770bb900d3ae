"""Makes the texts that both programs are given, from the tables of docs/FORMAT.md, the cases, and the files of examples/.

What is made depends on the seed and the number alone. A text is given to a command, with the base of `nest`.
"""
import collections
import copy
import glob
import json
import os
import random

from rules import FLOWS, KEYS, SCHEMES, OPERATIONS

Text = collections.namedtuple("Text", "sort command base bytes")

INFO = {"title": "t", "version": "1"}


def document(**members):
    return {"openapi": "3.1.0", "info": INFO, "paths": {}, **members}


def in_components(name):
    return lambda tree: ("document", document(components={name: {"k": tree}}))


def in_schema(member, **others):
    return lambda tree: ("schema", {**others, member: tree})


def in_path(*members):
    """In an operation of a document, at the end of these members."""
    def place(tree):
        for member in reversed(members):
            tree = {member: tree}
        operation = {"responses": {}, **tree} if members else tree
        return "document", document(paths={"/p": {"get": operation}})
    return place


def scheme(**fixed):
    return lambda tree: in_components("securitySchemes")({**tree, **fixed} if type(tree) is dict else tree)


def flow(name):
    return lambda tree: scheme(type="oauth2")({"flows": {name: tree}})


# Where each type stands in what a command reads.
PLACES = {
    "Info": [lambda it: ("document", document(info=it))],
    "Contact": [lambda it: ("document", document(info={**INFO, "contact": it}))],
    "License": [lambda it: ("document", document(info={**INFO, "license": it}))],
    "ExternalDocs": [lambda it: ("document", document(externalDocs=it)), in_path("externalDocs")],
    "Server": [lambda it: ("server", it), lambda it: ("document", document(servers=[it]))],
    "ServerVariable": [lambda it: ("server", {"url": "u", "variables": {"v": it}})],
    "Tag": [lambda it: ("document", document(tags=[it]))],
    "Ref": [lambda it: ("schema", it)] + [in_components(it) for it in ("parameters", "callbacks", "securitySchemes", "links")],
    "Xml": [in_schema("xml", type="string")],
    "Example": [in_components("examples")],
    "Content": [in_components("mediaTypes")],
    "Encoding": [lambda it: in_components("mediaTypes")({"encoding": {"e": it}})],
    "Header": [in_components("headers")],
    "Link": [in_components("links")],
    "RequestBody": [in_components("requestBodies"), in_path("requestBody")],
    "Response": [in_components("responses"), in_path("responses", "200")],
    "Parameter": [in_components("parameters")],
    "Operation": [in_path()],
    "PathItem": [in_components("pathItems"), lambda it: ("document", document(paths={"/p": it}, webhooks={"w": it}))],
    "OpenApi": [lambda it: ("document", it)],
    "Components": [lambda it: ("document", document(components=it))],
    "Object": [lambda it: ("schema", it), in_components("schemas")],
    "Array": [lambda it: ("schema", it)], "OneOf": [lambda it: ("schema", it)],
    "AllOf": [lambda it: ("schema", it)], "AnyOf": [lambda it: ("schema", it)],
    "Discriminator": [in_schema("discriminator", oneOf=[])],
    "ApiKeyValue": [scheme(**{"type": "apiKey", "in": it}) for it in KEYS],
    "Http": [scheme(type="http")], "OpenIdConnect": [scheme(type="openIdConnect")],
    "MutualTls": [scheme(type="mutualTLS")], "OAuth2": [scheme(type="oauth2")],
}
PLACES.update({kind: [flow(it) for it in list(FLOWS) + ["other"]] for kind in FLOWS.values()})

# What stands at a member, or at an element, that may or may not be of its kind.
ODD = [None, True, False, 0, 1, 2, 4, 5, -1, 2**63 - 1, 2**63, 2**64 - 1, 2**64, -2**63, 0.5, 1.0, -0.0, 1e300, "", "t", "string",
       "#/a", "x-", "3.1", "3.1.0", [], ["t"], [None], [["t"]], {}, {"k": "t"}, {"k": None}, {"": {}}, {"x-a": 1}, {"$ref": "#/a"},
       {"$ref": 5}, {"type": "string"}, ["#/a", "d", "s", None, True, 1, "t"], ["#/a", "", "", None, None, None, None],
       ["n", None, "p", None, None, True], {"type": None}, {"description": "d"}]
WORDS_OF_TEXTS = ["", "t", "\u00e9", "\u0001\"\\/\n", "\U00010000", "x-a", "null", "#/components/schemas/a"]
VERSIONS = ["3.1.0", "3.2.0", "3.1.1", "+3.1.0", "3.1.x.0", "3.1", "3.1.200", "3.0.3", "3.2.-0", "3.1.0.", "03.01.7", "-3.1.0", " 3.1.0",
            "3.1.-128", "3.1.128", "3.2.\u0663"]
# Names and words of the standards that no table has, for a program may know them all the same.
OTHER_NAMES = """allowEmptyValue defaultMapping const not if then else dependentSchemas dependentRequired patternProperties contains minContains
    maxContains unevaluatedItems unevaluatedProperties $id $anchor $dynamicRef $dynamicAnchor $vocabulary $comment $defs definitions nullable
    dataValue serializedValue collectionFormat basePath host schemes consumes produces connect connection produces id divisibleBy mutualTLS
    deprecatedBy itemName nodeName namespaceUri zzz X-a x-a x-""".split()
OTHER_WORDS = """uuid uri uri-reference iri ulid int8 uint32 UInt32 body formData connect any file ssv tsv csv multi oauth2 mutualTLS Basic oAuth
    scramSha1 scram-sha-512 privatetoken concealed dpop gnap query-string queryString space-delimited DateTime dateTime url""".split()
LETTERS = [b"{", b"}", b"[", b"]", b'"', b":", b",", b"\\", b"0", b"9", b"-", b"+", b".", b"e5", b"E9999", b" ", b"\n", b"\t", b"\x00",
           b"\xff", b"\xc3", b"\xed\xa0\x80", b"\\ud800", b"\\u0041", b"null", b"true", b"NaN", b"\xef\xbb\xbf", b"x", b"/**/", b"1e400",
           b"-0", b"00", b"[1]", b"{}", b'"x-z":1,', b'"type":"string",', b'"url":"a",', b'"openapi":"3.1.0",', b'"$ref":"#/b",']


def bytes_of(tree):
    return json.dumps(tree, separators=(",", ":"), ensure_ascii=False).encode(errors="surrogatepass")


# ---- the texts of the cases, and of examples/


def texts_of_cases(root):
    """Each text that a case gives to a command, or reads as a type that stands in what a command reads."""
    for file in sorted(glob.glob(os.path.join(root, "crates", "*_cases", "stdin"))):
        with open(file, encoding="utf-8") as lines:
            for call, tab, given in (line.rstrip("\n").partition("\t") for line in lines if not line.startswith("#")):
                word, _, words = call.partition(" ")
                command, _, base = words.partition("|")
                if word == "run" and command in ("", "server", "schema", "document", "merge", "nest"):
                    yield Text("case", command or "server", base, given.encode())
                elif word == "read":
                    yield from texts_in_places(words, given)


def texts_in_places(kind, given):
    try:
        tree = json.loads(given)
    except ValueError:
        return
    for place in PLACES.get(kind, []):
        command, whole = place(tree)
        yield Text("case", command, "", bytes_of(whole))


def texts_of_examples(root):
    for file in sorted(glob.glob(os.path.join(root, "examples", "*.json"))):
        name = os.path.basename(file)
        with open(file, "rb") as text:
            yield Text("example", name[:-5] if name in ("server.json", "schema.json") else "document", "", text.read())


# ---- each member of each type


def texts_of_members(form):
    for name, places in PLACES.items():
        smallest = form.smallest(name)
        for place in places:
            yield from (in_place("member", place, it) for it in [smallest] + ODD)
            for member, _, kind in form.tables[name]:
                others = {it: value for it, value in smallest.items() if it != member}
                yield in_place("member", place, others)
                for value in values_of(form, kind):
                    yield in_place("member", place, {**others, member: value})


def texts_of_other_names(form):
    """Each type with all names at once that are members of other types, or of none."""
    known = {it for rows in form.tables.values() for it, _, _ in rows}
    for name, places in PLACES.items():
        own = {it for it, _, _ in form.tables[name]} | {"$ref", "type", "in", "items", "oneOf", "allOf", "anyOf"}
        others = [it for it in [*sorted(known), *OTHER_NAMES] if it not in own]
        for place in places[:2]:
            for value in ODD:
                yield in_place("names", place, {**form.smallest(name), **dict.fromkeys(others, value)})
        for other in others:
            yield in_place("names", places[0], {**form.smallest(name), other: "t"})


def in_place(sort, place, tree):
    command, whole = place(tree)
    return Text(sort, command, "", bytes_of(whole))


def values_of(form, kind):
    words = form.words.get(kind, [])
    spelled = [spelling for it in words for spelling in (it, it.upper(), {it: None}, {it: 5}, [it])]
    values = ODD + spelled + [form.fitting(kind)] + (OTHER_WORDS if words or kind.startswith("Schema") else [])
    values += VERSIONS if kind == "version" else []
    if kind.startswith("list of "):
        values = values + [[it] for it in ODD]
    if "map of " in kind:
        values = values + [{"k": it} for it in ODD]
    return values


def texts_of_choices():
    """What decides a schema, each way beside each other, and what decides a security scheme and a flow."""
    sides = {"$ref": ["#/a", 5], "type": ["array", None, 5], "items": [{"type": "string"}, False, True], "oneOf": [[{"type": "null"}], 5],
             "allOf": [[], 5], "anyOf": [[{"$ref": "#/a"}], None]}
    trees = [{}]
    for member, values in sides.items():
        trees += [{**tree, member: it} for tree in trees for it in values]
    yield from (Text("choice", "schema", "", bytes_of({**it, "title": "t"})) for it in trees)
    for word in list(SCHEMES) + ["oauth", 0, 1, 2, 3, 4, 5, None, {"http": None}]:
        for place in list(KEYS) + ["path", 0, 1, 2, 3, None]:
            tree = {"type": word, "in": place, "name": "n", "scheme": "basic", "openIdConnectUrl": "u", "flows": {}}
            yield in_place("choice", in_components("securitySchemes"), tree)
    for name in list(FLOWS) + ["other"]:
        for each in range(64):
            members = ["authorizationUrl", "tokenUrl", "deviceAuthorizationUrl", "refreshUrl", "scopes", "x-a"]
            tree = {it: {} if it == "scopes" else "u" for place, it in enumerate(members) if each >> place & 1}
            yield in_place("choice", flow(name), tree)


# ---- what is made by chance


class Maker:
    """Makes trees of a kind by chance. What it is given tells how often it does each thing that the two programs take otherwise."""

    def __init__(self, chance, form, **often):
        self.chance, self.form, self.often = chance, form, often

    def does(self, what):
        return self.chance.random() < self.often.get(what, 0)

    def make(self, kind, depth):
        if self.does("odd"):
            return copy.deepcopy(self.chance.choice(ODD[:14] + ODD[18:]))
        if kind.startswith("list of "):
            return [self.make(kind[8:], depth - 1) for _ in range(self.few(depth))]
        if "map of " in kind:
            return self.entries(kind.partition("map of ")[2], ["a", "b", "c", "application/json", "\u00e9"], depth)
        if kind.startswith("ref or "):
            return self.make("Ref" if depth < 0 or self.chance.random() < 0.15 else kind[7:], depth)
        if kind in self.form.words:
            word = self.chance.choice(self.form.words[kind])
            return {word: None} if self.does("lists") else word
        made = getattr(self, "make_" + kind, None)
        return made(depth) if made else self.table(kind, depth)

    def few(self, depth):
        return 0 if depth < 0 else self.chance.choice([0, 1, 1, 2, 3])

    def entries(self, kind, names, depth):
        return {name: self.make(kind, depth - 1) for name in self.chance.sample(names, min(self.few(depth), len(names)))}

    def table(self, name, depth):
        tree = {}
        for member, mark, kind in self.form.tables[name]:
            has_headers = member == ("headers" if name == "Encoding" else "parameters" if name == "Link" else None)
            if mark == "required" or (has_headers and not self.does("left out")) or self.chance.random() < (0.25 if depth > 0 else 0.08):
                tree[member] = None if mark == "optional" and self.chance.random() < 0.05 else self.make(kind, depth - 1)
        return self.with_others(tree, name)

    def with_others(self, tree, name):
        if self.chance.random() < 0.12:
            tree["x-" + self.chance.choice("ab")] = self.make_any(2)
        if self.chance.random() < 0.04:
            tree[self.chance.choice(OTHER_NAMES + ["type", "$ref", "default", "summary"])] = self.chance.choice(["t", 5, None])
        if name == "Xml" and self.does("lists"):
            return [tree.get(it) for it in "name namespace prefix nodeType attribute wrapped".split()]
        members = list(tree.items())
        self.chance.shuffle(members)
        return dict(members)

    def make_text(self, depth):
        return self.chance.choice(WORDS_OF_TEXTS)

    def make_flag(self, depth):
        return self.chance.random() < 0.5

    def make_whole(self, depth):
        return self.chance.choice([0, 1, 7, 2**63, 2**64 - 1])

    def make_number(self, depth):
        if self.does("fractions"):
            return self.chance.choice([0.5, 2.0, -0.0, 1e300, 9.99])
        return self.chance.choice([0, 1, -1, -2**63, 2**63 - 1, 2**63, 2**64 - 1])

    def make_any(self, depth):
        shape = self.chance.random()
        if depth > 0 and shape < 0.15:
            return [self.make_any(depth - 1) for _ in range(self.few(depth))]
        if depth > 0 and shape < 0.3:
            return self.entries("any", ["a", "x-a", "type", "$ref"], depth)
        return self.make_number(0) if shape < 0.5 else self.chance.choice([None, True, False, "", "t", "\u00e9\n"])

    def make_version(self, depth):
        return self.chance.choice(VERSIONS[:5])

    def make_SchemaType(self, depth):
        if self.chance.random() < 0.2:
            return self.chance.choice([None, [], ["string", "null"], ["object"]])
        return self.make("TypeWord", depth)

    def make_SchemaFormat(self, depth):
        return self.chance.choice(["int32", "date-time", "uuid", "", "t"])

    def make_ArrayItems(self, depth):
        return False if self.chance.random() < 0.1 else self.make("ref or Schema", depth)

    def make_AdditionalProperties(self, depth):
        return self.make_flag(0) if self.chance.random() < 0.4 else self.make("ref or Schema", depth)

    def make_Schema(self, depth):
        kind = self.chance.choice(["Object"] * 5 + ["Array", "OneOf", "AllOf", "AnyOf"]) if depth > 0 else "Object"
        tree = self.table(kind, min(depth, 3))
        if kind in ("OneOf", "AllOf", "AnyOf"):
            return tree if self.does("combined") else {it: value for it, value in tree.items() if it != "type"}
        if "type" not in tree and not self.does("any value"):
            tree["type"] = self.make_SchemaType(depth)
        if self.does("combined"):
            tree.setdefault(self.chance.choice(["oneOf", "allOf", "anyOf", "items"]), [] if self.does("combined") else {"type": "string"})
        return tree

    def make_Responses(self, depth):
        return self.entries("ref or Response", ["200", "404", "default"] + ["x-a"] * self.does("items"), depth)

    def make_Paths(self, depth):
        paths = self.entries("PathItem", ["/a", "/b", "/{c}", "d"] + ["x-a", "x-b"] * self.does("items"), depth + 1)
        if self.does("extensions of paths"):
            name = self.chance.choice(["x-a", "x-c", "x-/a", "x-a/b"])
            paths[name] = {} if self.chance.random() < 0.3 else {"summary": self.chance.choice("tu")}
        return paths

    def make_Callback(self, depth):
        return self.entries("ref or PathItem", ["{$request.body#/url}", "e", "x-e"], depth - 1)

    def make_SecurityRequirement(self, depth):
        return self.entries("list of text", ["a", "b", "x-c"], depth)

    def make_SecurityScheme(self, depth):
        word = self.chance.choice(list(SCHEMES))
        tree = self.make_ApiKey(depth) if word == "apiKey" else self.table(SCHEMES[word], depth)
        return {**tree, "type": list(SCHEMES).index(word) if self.does("numbered") else word}

    def make_ApiKey(self, depth):
        place = self.chance.randrange(3)
        return {**self.table("ApiKeyValue", depth), "in": place if self.does("numbered") else KEYS[place]}

    def make_flows(self, depth):
        flows = {}
        for name in self.chance.sample(list(FLOWS) + ["other"], self.few(depth)):
            kinds = list(FLOWS.values()) if self.does("flows") else ["Implicit", "Password", "ClientCredentials"]
            kind = FLOWS.get(name) if name in FLOWS and FLOWS[name] in kinds else self.chance.choice(kinds[:2])
            flows[name if FLOWS.get(name, kind) == kind else "other"] = self.table(kind, depth)
        return flows


# Each temper tells how often the maker does what the two programs take otherwise. The first is never at it.
TEMPERS = [{}, {}, {"odd": 0.004}, {"odd": 0.03}, {"fractions": 0.03}, {"lists": 0.05}, {"numbered": 0.5}, {"combined": 0.3},
           {"any value": 0.5}, {"flows": 1}, {"items": 0.5, "extensions of paths": 0.3}, {"left out": 0.5}, {"extensions of paths": 0.5}]
MIXED = {"odd": 0.002, "fractions": 0.002, "lists": 0.02, "numbered": 0.2, "combined": 0.1, "any value": 0.2, "flows": 0.5, "items": 0.2,
         "extensions of paths": 0.3, "left out": 0.2}


def maker_of(chance, form):
    return Maker(chance, form, **chance.choice(TEMPERS + [MIXED] * 3))


def made_text(chance, form):
    maker = maker_of(chance, form)
    kind, command = chance.choice([("Server", "server")] + [("ref or Schema", "schema")] * 6 + [("OpenApi", "document")] * 9)
    return Text("made", command, "", bytes_of(maker.make(kind, chance.choice([2, 3, 4, 5]))))


def merged_text(chance, form):
    maker = maker_of(chance, form)
    count = chance.choice([0, 1, 2, 2, 2, 2, 3, 4])
    documents = [small_document(chance, maker) for _ in range(count)]
    return Text("merged", "merge", "", bytes_of(documents))


def nested_text(chance, form):
    maker = maker_of(chance, form)
    documents = [small_document(chance, maker) for _ in range(chance.choice([2] * 20 + [1, 3]))]
    return Text("nested", "nest", chance.choice(["", "/a", "/v1", "x-", "x-a", "\u00e9", "/a b"]), bytes_of(documents))


def small_document(chance, maker):
    """A document whose names and entries are few, so that many of them meet."""
    tree = maker.make("OpenApi", chance.choice([1, 2, 3]))
    if type(tree) is dict and chance.random() < 0.8:
        for member in ("servers", "tags", "security", "components"):
            if chance.random() < 0.4:
                tree[member] = part_of_document(member, chance, maker)
        if chance.random() < 0.6:
            tree["paths"] = maker.make_Paths(2)
            operations = {chance.choice(OPERATIONS): {"summary": chance.choice("tu"), "responses": {}} for _ in range(3)}
            tree["paths"][chance.choice(["/a", "/b"])] = {**operations, "additionalOperations": {chance.choice("AB"): {"responses": {}}}}
    return tree


def part_of_document(member, chance, maker):
    if member == "components":
        return maker.table("Components", 2)
    one = {"servers": lambda: {"url": chance.choice("AB")}, "tags": lambda: {"name": chance.choice("ab")},
           "security": lambda: {chance.choice("ab"): []}}[member]
    return [one() for _ in range(chance.choice([0, 1, 2, 3]))]


# ---- what is changed in one place, repeated, or broken


def places_of(tree, found):
    """Each object or list of a tree with each of its names or indices."""
    for at, value in tree.items() if isinstance(tree, dict) else enumerate(tree):
        found.append((tree, at))
        if isinstance(value, (dict, list)):
            places_of(value, found)
    return found


def parsed(text):
    """The tree of a text, where it is an object or a list that is not empty."""
    try:
        tree = json.loads(text.bytes)
    except ValueError:
        return None
    return tree if isinstance(tree, (dict, list)) and tree else None


def changed_text(chance, form, text):
    tree = parsed(text)
    for _ in range(chance.choice([1, 1, 1, 2]) if tree else 0):
        places = places_of(tree, [])
        if places:
            change(chance, form, *chance.choice(places))
    return text._replace(sort="changed", bytes=bytes_of(tree)) if tree else text


def change(chance, form, tree, at):
    value, way = tree[at], chance.randrange(7)
    if way == 0:
        del tree[at]
    elif way == 1:
        tree[at] = copy.deepcopy(chance.choice(ODD))
    elif way == 2 and isinstance(value, str):
        tree[at] = chance.choice([{value: None}, value.upper(), [value], value + " ", ""])
    elif way == 3:
        tree[at] = [value]
    elif isinstance(tree, dict):
        name = chance.choice([it for it, _, _ in form.tables[chance.choice(list(form.tables))]] + ["x-" + at, "x-a", at + " "])
        tree[name] = copy.deepcopy(value if way < 6 else chance.choice(ODD))
        if way == 4 and name != at:
            del tree[at]
    else:
        tree.insert(at, copy.deepcopy(value))


AGAIN = "\0again"


def repeated_text(chance, form, text):
    """A text in one of whose objects a member stands a second time, after all others or before them."""
    tree = parsed(text)
    places = [(at, name) for at, name in places_of(tree, []) if isinstance(at, dict)] if tree else []
    if not places:
        return text
    at, name = chance.choice(places)
    members, value = dict(at), at[name] if chance.random() < 0.5 else chance.choice(ODD)
    at.clear()
    at.update({**members, name + AGAIN: value} if chance.random() < 0.5 else {name + AGAIN: value, **members})
    return text._replace(sort="repeated", bytes=bytes_of(tree).replace(b"\\u0000again", b""))


def spelled_text(chance, form, text):
    """The same tree, spelled with other spaces and escapes."""
    tree = parsed(text)
    spaces = chance.choice([(",", ":"), (" ,", "\t:\r\n"), (",", ": ")])
    spelled = json.dumps(tree, ensure_ascii=chance.random() < 0.7, separators=spaces, indent=chance.choice([None, 1, "\t"]))
    return text._replace(sort="spelled", bytes=spelled.replace("/", "\\/").encode(errors="replace")) if tree else text


def broken_text(chance, form, text):
    given = bytearray(text.bytes)
    for _ in range(chance.choice([1, 1, 2])):
        start = chance.randrange(len(given) + 1)
        end = start + chance.choice([0, 0, 0, 1, 1, 4])
        given[start:end] = chance.choice(LETTERS + [b""])
    return text._replace(sort="broken", bytes=bytes(given))


def texts_of_limits():
    """Texts that nest as deep as a text may, and one deeper, and numbers at the ends of what is kept."""
    for depth in (125, 126, 127, 128):
        for opening, closing in ((b"[", b"]"), (b'{"a":', b"}")):
            deep = opening * depth + b"1" + closing * depth
            yield Text("broken", "schema", "", b'{"type":"string","default":' + deep + b"}")
            yield Text("broken", "server", "", b'{"url":"u","x-a":' + deep + b"}")
        yield Text("broken", "schema", "", b'{"type":"array","items":' * depth + b'{"type":"string"}' + b"}" * depth)
    for number in ("-0", "18446744073709551615", "18446744073709551616", "-9223372036854775808", "-9223372036854775809", "1e2", "1E-2",
                   "1e400", "-1e400", "01", "1.", ".5", "+1", "0x1", "1_0", "9007199254740993", "123456789012345678901234567890"):
        for member in ("minimum", "maxLength", "default", "x-a", "zzz"):
            yield Text("broken", "schema", "", b'{"type":"integer","%s":%s}' % (member.encode(), number.encode()))


# ---- all of them

NEW = [made_text] * 7 + [merged_text] * 3 + [nested_text] * 2
OF_ANOTHER = [changed_text] * 4 + [repeated_text] * 2 + [spelled_text, broken_text]


def texts_by_chance(form, seed, number, others):
    """As many texts as the number says. Those that are made of another take one of the latest, or one of the others."""
    chance, made = random.Random(seed), []
    for _ in range(number):
        way = chance.choice(NEW + OF_ANOTHER)
        if way in NEW:
            made.append(way(chance, form))
        else:
            made.append(way(chance, form, chance.choice(made[-40:] if made and chance.random() < 0.7 else others)))
    return made


def is_short_of_time(text):
    """The original reads a `contentSchema` twice, and so one that nests deep, too often to wait for."""
    return text.bytes.count(b'"contentSchema"') > 10


def all_texts(root, form, seed, number):
    """Those of the cases, of examples/ and of the tables, and as many as the number says that are made by chance, each once."""
    others = [*texts_of_examples(root), *texts_of_cases(root)]
    texts = [*others, *texts_of_members(form), *texts_of_other_names(form), *texts_of_choices(), *texts_of_limits()]
    texts += texts_by_chance(form, seed, number, others)
    once = {}
    for text in texts:
        if not is_short_of_time(text):
            once.setdefault(text[1:], text)
    return list(once.values())
