"""What the documents of services are made of, for the benchmarks: always the same, since each service's choices begin with a fixed number."""
import json
import random

START = 20_260

WORDS = (
    "the a of an order item customer page list number that is where which each after before with without name price stock shop "
    "delivery address state date time answer request next first last known paid sent kept added changed removed found"
).split()
NAMES = "id name price stock tags state address customer items created changed note weight colour currency parent".split()
METHODS = ("get", "put", "post", "delete", "patch")


class Service:
    """What makes the members of a service's document."""

    def __init__(self, number):
        self.number, self.chance = number, random.Random(START + number)

    def text(self, least, most):
        return " ".join(self.chance.choice(WORDS) for _ in range(self.chance.randint(least, most))).capitalize() + "."

    def schema_name(self):
        return "Service%dType%d" % (self.number, self.chance.randrange(12))

    def schema(self, depth):
        kind = self.chance.randrange(7 if depth else 4)
        if kind == 0:
            return {"$ref": "#/components/schemas/" + self.schema_name()}
        if kind == 1:
            return {"type": "string", "description": self.text(3, 12), "maxLength": self.chance.randint(1, 999)}
        if kind == 2:
            return {"type": "integer", "format": self.chance.choice(("int32", "int64")), "minimum": 0}
        if kind == 3:
            return {"type": ["string", "null"], "enum": sorted(self.chance.sample(NAMES, 4)), "examples": [self.chance.choice(NAMES)]}
        if kind == 4:
            return {"type": "array", "items": self.schema(depth - 1), "uniqueItems": True, "maxItems": 100}
        if kind == 5:
            return {"oneOf": [self.schema(depth - 1) for _ in range(self.chance.randint(2, 3))], "description": self.text(3, 9)}
        return self.object(depth - 1)

    def object(self, depth):
        names = self.chance.sample(NAMES, self.chance.randint(2, 6))
        properties = {name: self.schema(depth) for name in names}
        return {"type": "object", "description": self.text(4, 20), "required": names[:2], "properties": properties}

    def content(self):
        return {"application/json": {"schema": self.schema(2), "example": {"id": self.chance.randrange(10**6), "name": self.text(1, 3)}}}

    def parameter(self, name, place):
        schema = {"type": "string", "maxLength": 64}
        return {"name": name, "in": place, "required": place == "path", "description": self.text(3, 10), "schema": schema}

    def operation(self, name, method):
        responses = {"200": {"description": self.text(2, 8), "content": self.content()}, "404": {"description": self.text(2, 5)}}
        made = {
            "operationId": "%s_%s" % (method, name),
            "summary": self.text(3, 8),
            "description": self.text(8, 40),
            "tags": ["service%d" % self.number],
            "parameters": [self.parameter(it, "query") for it in self.chance.sample(NAMES, self.chance.randint(0, 3))],
            "responses": responses,
        }
        if method in ("put", "post", "patch"):
            made["requestBody"] = {"description": self.text(2, 6), "content": self.content()}
        return made

    def path_item(self, name):
        methods = self.chance.sample(METHODS, self.chance.randint(1, 3))
        item = {method: self.operation(name, method) for method in methods}
        return {**item, "parameters": [self.parameter("id", "path")], "x-owner": self.chance.choice(WORDS)}


def write_inputs(path, line, megabytes):
    """A document with as many services as its size allows, and the line of the case that reads it."""
    paths, schemas, tags, size, number = [], [], [], 0, 0
    while size < megabytes * 1_000_000:
        service = Service(number)
        for at in range(8):
            name = "resource%d" % at
            paths.append('"/service%d/%s/{id}":%s' % (number, name, json.dumps(service.path_item(name))))
        for at in range(12):
            schemas.append('"Service%dType%d":%s' % (number, at, json.dumps(service.object(3))))
        tags.append('{"name":"service%d","description":"%s"}' % (number, service.text(4, 12)))
        size += sum(len(it) + 1 for it in [*paths[-8:], *schemas[-12:], tags[-1]])
        number += 1
    parts = ",".join(paths), ",".join(schemas), ",".join(tags)
    head = '{"openapi":"3.2.0","info":{"title":"Services","version":"1.0.0"},'
    document = head + '"paths":{%s},"components":{"schemas":{%s}},"tags":[%s]}\n' % parts
    for to, text in ((path, document), (line, "fits OpenApi\t" + document)):
        with open(to, "w") as out:
            out.write(text)
