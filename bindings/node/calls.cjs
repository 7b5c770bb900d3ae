// Calls the library, and ends with status 1 at the first call that does not end as it has to.
//
// usage: node calls.cjs UTOIPA.NODE
//
// What is expected is worked by hand from docs/FORMAT.md; a file of examples/ is written as its own tree.
"use strict";

const assert = require("assert");
const fs = require("fs");
const path = require("path");
const { Worker, isMainThread, workerData } = require("worker_threads");

const addon = isMainThread ? path.resolve(process.argv[2]) : workerData.addon;
const utoipa = require(addon);

const FIRST = '{"openapi":"3.1.0","info":{"version":"1","title":"a"},"paths":{"/a":{"get":{"responses":{}}}}}';
const SECOND = '{"openapi":"3.1.0","info":{"version":"2","title":"b"},"paths":{"/b":{},"/a":{"post":{"responses":{}}}}}';

// A tree's text: compact, with the members of each object in the order of their names, which are of ASCII here.
function lineOf(tree) {
  if (Array.isArray(tree)) return `[${tree.map(lineOf)}]`;
  if (tree === null || typeof tree !== "object") return JSON.stringify(tree);
  const members = Object.keys(tree).sort().map((name) => `${JSON.stringify(name)}:${lineOf(tree[name])}`);
  return `{${members}}`;
}

// What a document of the first one's information and of these paths is written as.
const withPaths = (paths) => lineOf({ info: { title: "a", version: "1" }, openapi: "3.1.0", paths });

const refuses = (code, call) => assert.throws(call, { name: "Error", code });

const calls = {
  "examples are written as their own trees"() {
    const functions = { "server.json": "server", "schema.json": "schema", "shop.json": "document", "shop-3.2.json": "document" };
    for (const [name, command] of Object.entries(functions)) {
      const text = fs.readFileSync(path.join(__dirname, "..", "..", "examples", name));
      assert.strictEqual(utoipa[command](text), lineOf(JSON.parse(text)), name);
    }
  },
  "a text is a string or bytes"() {
    const text = ' { "url" : "\\u00fc" , "description" : null , "x-a" : "ü" , "y" : 2 } ';
    for (const given of [text, Buffer.from(text), new TextEncoder().encode(text)]) {
      assert.strictEqual(utoipa.server(given), '{"url":"ü","x-a":"ü"}');
    }
  },
  "another value is no text"() {
    for (const given of [undefined, null, 5, {}, new Uint16Array(2)]) assert.throws(() => utoipa.server(given), TypeError);
    assert.throws(() => utoipa.nest("/v1"), TypeError);
  },
  "an answer longer than its text is given more room"() {
    // The description of external documentation is written also where there is none.
    const tree = { openapi: "3.1.0", info: { title: "a", version: "1" }, paths: {}, externalDocs: { url: "u" } };
    const written = { ...tree, externalDocs: { url: "u", description: null } };
    assert.strictEqual(utoipa.document(lineOf(tree)), lineOf(written));
  },
  "documents are merged"() {
    const paths = { "/a": { get: { responses: {} }, post: { responses: {} } }, "/b": {} };
    assert.strictEqual(utoipa.merge(`[${FIRST},${SECOND}]`), withPaths(paths));
  },
  "a document is nested"() {
    const paths = { "/a": { get: { responses: {} } }, "/v1/a": { post: { responses: {} } }, "/v1/b": {} };
    assert.strictEqual(utoipa.nest("/v1", `[${FIRST},${SECOND}]`), withPaths(paths));
  },
  "what is no JSON text is refused"() {
    for (const given of ["", '{"url":', Buffer.from([0x7b, 0xff, 0x7d])]) refuses("text", () => utoipa.server(given));
  },
  "what is no document is refused"() {
    refuses("fraction", () => utoipa.server('{"url":"u","x-a":1.0}'));
    refuses("missing", () => utoipa.server("{}"));
    refuses("kind", () => utoipa.server('{"url":5}'));
    refuses("kind", () => utoipa.document('{"openapi":"3.0.3","info":{"title":"t","version":"1"},"paths":{}}'));
    refuses("word", () => utoipa.schema('{"type":"text"}'));
    refuses("alternative", () => utoipa.schema('{"type":"object","propertyNames":{"$ref":"#/a"}}'));
  },
  "the first place that does not fit is told"() {
    refuses("missing", () => utoipa.document('{"openapi":5,"info":{"title":"t"},"paths":{}}'));
    refuses("missing", () => utoipa.merge(`[${FIRST},{},5]`));
    refuses("kind", () => utoipa.conflicts("[5,{}]"));
  },
  "another number of documents is refused"() {
    refuses("empty", () => utoipa.merge("[]"));
    refuses("count", () => utoipa.nest("/v1", `[${FIRST}]`));
    refuses("count", () => utoipa.nest("", "[]"));
  },
  "a base that is no text is refused"() {
    refuses("base", () => utoipa.nest(Buffer.from([0x2f, 0xc3]), `[${FIRST},${SECOND}]`));
  },
  "what is found is told"() {
    const text = '{"openapi":"3.1.0","info":{"title":"t"},"paths":{}}';
    assert.strictEqual(utoipa.check("a.json", text), "a.json: /info: the member `version` is required\n");
    assert.strictEqual(utoipa.check("a.json", FIRST), "");
    refuses("name", () => utoipa.check(Buffer.from([0xff]), text));
  },
  "what merging drops is told"() {
    const dropped = "/info: document 1's value is dropped, since document 0 decides\n";
    assert.strictEqual(utoipa.conflicts(`[${FIRST},${SECOND}]`), dropped);
    assert.strictEqual(utoipa.conflicts(`[${FIRST},${FIRST}]`), "");
    refuses("kind", () => utoipa.conflicts("{}"));
  },
  "the stack is enough for what nests deepest": callDeepest,
};

// Callbacks in callbacks of operations, 127 levels in all.
function callDeepest() {
  const item = '{"get":{"callbacks":{"c":{"e":'.repeat(31) + "{}" + '}},"responses":{}}}'.repeat(31);
  const text = `{"info":{"title":"t","version":"1"},"openapi":"3.1.0","paths":{"/a":${item}}}`;
  assert.strictEqual(utoipa.document(text), text);
}

function callManyTimes(thread) {
  const properties = Array.from({ length: 2000 }, (_, at) => `"p${String(at).padStart(4, "0")}":{"maxLength":${thread},"type":"string"}`);
  const text = `{"properties":{${properties}},"type":"object"}`;
  for (let at = 0; at < 10; ++at) assert.strictEqual(utoipa.schema(text), text);
  callDeepest();
}

if (isMainThread) {
  for (const [name, call] of Object.entries(calls)) {
    try {
      call();
    } catch (error) {
      console.error("not so: %s", name);
      throw error;
    }
  }
  // Four threads at a time.
  for (let thread = 0; thread < 4; ++thread) {
    const worker = new Worker(__filename, { workerData: { addon, thread } });
    worker.on("error", (error) => {
      console.error(error);
      process.exitCode = 1;
    });
  }
} else {
  callManyTimes(workerData.thread);
}
