#!/usr/bin/env python3
"""Calls the library, and ends with status 1 where a call does not end as it has to.

usage: UTOIPA_LIBRARY=FOLDER calls.py      FOLDER has libutoipa.so

What is expected is worked by hand from docs/FORMAT.md; a file of examples/ is written as its own tree.
"""
import doctest
import json
import os
import threading
import unittest

import utoipa

EXAMPLES = os.path.join(os.path.dirname(os.path.abspath(__file__)), "..", "..", "examples")

FIRST = '{"openapi":"3.1.0","info":{"version":"1","title":"a"},"paths":{"/a":{"get":{"responses":{}}}}}'
SECOND = '{"openapi":"3.1.0","info":{"version":"2","title":"b"},"paths":{"/b":{},"/a":{"post":{"responses":{}}}}}'


def line_of(tree):
    """A tree's text: compact, with the members in the order of their names."""
    return json.dumps(tree, separators=(",", ":"), ensure_ascii=False, sort_keys=True)


def with_paths(paths):
    """What a document of the first one's information and of these paths is written as."""
    return line_of({"info": {"title": "a", "version": "1"}, "openapi": "3.1.0", "paths": paths})


class Calls(unittest.TestCase):
    def refuses(self, word, function, *given):
        with self.assertRaises(utoipa.Refused) as raised:
            function(*given)
        self.assertEqual(raised.exception.word, word)

    def test_examples_are_written_as_their_own_trees(self):
        functions = {"server.json": utoipa.server, "schema.json": utoipa.schema, "shop.json": utoipa.document, "shop-3.2.json": utoipa.document}
        for name, function in functions.items():
            with open(os.path.join(EXAMPLES, name), "rb") as file:
                text = file.read()
            self.assertEqual(function(text), line_of(json.loads(text)), name)

    def test_a_text_is_a_str_or_bytes(self):
        text = ' { "url" : "\\u00fc" , "description" : null , "x-a" : "ü" , "y" : 2 } '
        for given in (text, text.encode(), bytearray(text.encode()), memoryview(text.encode())):
            self.assertEqual(utoipa.server(given), '{"url":"ü","x-a":"ü"}')
        for given in (None, 5, {}):
            self.assertRaises(TypeError, utoipa.server, given)

    def test_an_answer_longer_than_its_text_is_given_more_room(self):
        # The description of external documentation is written also where there is none.
        tree = {"openapi": "3.1.0", "info": {"title": "a", "version": "1"}, "paths": {}, "externalDocs": {"url": "u"}}
        written = {**tree, "externalDocs": {"url": "u", "description": None}}
        self.assertEqual(utoipa.document(line_of(tree)), line_of(written))

    def test_documents_are_merged(self):
        paths = {"/a": {"get": {"responses": {}}, "post": {"responses": {}}}, "/b": {}}
        self.assertEqual(utoipa.merge("[%s,%s]" % (FIRST, SECOND)), with_paths(paths))

    def test_a_document_is_nested(self):
        paths = {"/a": {"get": {"responses": {}}}, "/v1/a": {"post": {"responses": {}}}, "/v1/b": {}}
        self.assertEqual(utoipa.nest("/v1", "[%s,%s]" % (FIRST, SECOND)), with_paths(paths))
        self.assertEqual(utoipa.nest(b"/v1", b"[%s,%s]" % (FIRST.encode(), SECOND.encode())), with_paths(paths))

    def test_what_is_no_json_text_is_refused(self):
        for given in ("", '{"url":', b'{"url":"\xff"}'):
            self.refuses("text", utoipa.server, given)

    def test_what_is_no_document_is_refused(self):
        self.refuses("fraction", utoipa.server, '{"url":"u","x-a":1.0}')
        self.refuses("missing", utoipa.server, "{}")
        self.refuses("kind", utoipa.server, '{"url":5}')
        self.refuses("kind", utoipa.document, '{"openapi":"3.0.3","info":{"title":"t","version":"1"},"paths":{}}')
        self.refuses("word", utoipa.schema, '{"type":"text"}')
        self.refuses("alternative", utoipa.schema, '{"type":"object","propertyNames":{"$ref":"#/a"}}')

    def test_the_first_place_that_does_not_fit_is_told(self):
        self.refuses("missing", utoipa.document, '{"openapi":5,"info":{"title":"t"},"paths":{}}')
        self.refuses("missing", utoipa.merge, "[%s,{},5]" % FIRST)
        self.refuses("kind", utoipa.conflicts, "[5,{}]")

    def test_another_number_of_documents_is_refused(self):
        self.refuses("empty", utoipa.merge, "[]")
        self.refuses("count", utoipa.nest, "/v1", "[%s]" % FIRST)
        self.refuses("count", utoipa.nest, "", "[]")

    def test_a_base_that_is_no_text_is_refused(self):
        self.refuses("base", utoipa.nest, b"/\xc3", "[%s,%s]" % (FIRST, SECOND))

    def test_what_is_found_is_told(self):
        text = '{"openapi":"3.1.0","info":{"title":"t"},"paths":{}}'
        self.assertEqual(utoipa.check("a.json", text), "a.json: /info: the member `version` is required\n")
        self.assertEqual(utoipa.check("a.json", FIRST), "")
        self.refuses("name", utoipa.check, b"\xff", text)

    def test_what_merging_drops_is_told(self):
        dropped = "/info: document 1's value is dropped, since document 0 decides\n"
        self.assertEqual(utoipa.conflicts("[%s,%s]" % (FIRST, SECOND)), dropped)
        self.assertEqual(utoipa.conflicts("[%s,%s]" % (FIRST, FIRST)), "")
        self.refuses("kind", utoipa.conflicts, "{}")

    def test_the_examples_of_the_module_are_so(self):
        self.assertEqual(doctest.testmod(utoipa).failed, 0)

    def test_the_stack_is_enough_for_what_nests_deepest(self):
        # Callbacks in callbacks of operations, 127 levels in all.
        item = '{"get":{"callbacks":{"c":{"e":' * 31 + "{}" + '}},"responses":{}}}' * 31
        text = '{"info":{"title":"t","version":"1"},"openapi":"3.1.0","paths":{"/a":%s}}' % item
        answers = []
        was = threading.stack_size(utoipa.STACK)
        thread = threading.Thread(target=lambda: answers.append(utoipa.document(text)))
        thread.start()
        thread.join()
        threading.stack_size(was)
        self.assertEqual(answers, [text])

    def test_a_small_stack_of_the_caller_is_enough(self):
        item = "{}"
        for _ in range(30):
            item = '{"get":{"callbacks":{"c":{"e":%s}},"responses":{}}}' % item
        text = '{"components":{"pathItems":{"P":%s}},"info":{"title":"a","version":"1"},"openapi":"3.1.0","paths":{"/a":%s}}' % (item, item)
        answers, before = [], threading.stack_size(1 << 18)
        thread = threading.Thread(target=lambda: answers.append(utoipa.merge("[%s,%s]" % (text, text))))
        thread.start()
        threading.stack_size(before)
        thread.join()
        self.assertEqual(answers, [text])

    def test_what_is_raised_on_a_small_stack_is_raised_to_the_caller(self):
        raised, before = [], threading.stack_size(1 << 18)

        def call():
            try:
                utoipa.document("{")
            except utoipa.Refused as refused:
                raised.append(refused.word)

        thread = threading.Thread(target=call)
        thread.start()
        threading.stack_size(before)
        thread.join()
        self.assertEqual(raised, ["text"])

    def test_threads_call_side_by_side(self):
        answers = {}

        def call(thread):
            text = line_of({"type": "object", "properties": {"p%04d" % at: {"type": "string", "maxLength": thread} for at in range(2000)}})
            answers[thread] = all(utoipa.schema(text) == text for _ in range(10))

        threads = [threading.Thread(target=call, args=(it,)) for it in range(4)]
        for it in threads:
            it.start()
        for it in threads:
            it.join()
        self.assertEqual(answers, dict.fromkeys(range(4), True))


if __name__ == "__main__":
    unittest.main()
