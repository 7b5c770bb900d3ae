"""OpenAPI 3.1 and 3.2 documents read, written, merged, nested and checked, by a library of which each function is proved.

Each function takes a JSON text, a str or bytes. `check` and `conflicts` return lines, each with a line feed at its end; the others return JSON:
with no space between its parts, and with the members of each object in the order of their names. Where a text has no answer, `Refused` is
raised. What is promised of each is what utoipa.h says.

    >>> import utoipa
    >>> utoipa.server('{ "url": "/v1", "description": null }')
    '{"url":"/v1"}'
    >>> utoipa.server('{ "description": "where" }')
    Traceback (most recent call last):
        ...
    utoipa.Refused: missing: a member that is required is absent

A call may take a stack of `STACK` bytes, where a text nests deep. On a thread that has less it is made on one that is started for it.

The library is libutoipa.so: of the folder that the environment variable UTOIPA_LIBRARY names, or else where the system finds it. Other
threads run while the library is called.
"""
from __future__ import annotations

import ctypes
import os
import threading
from typing import Any, Callable, Union

__all__ = ["STACK", "Refused", "check", "conflicts", "document", "merge", "nest", "schema", "server"]

Text = Union[str, bytes, bytearray, memoryview]

# The stack in bytes that a call may take, UTOIPA_STACK of utoipa.h. Where a thread has less, a text that nests deep ends the process.
STACK = 4 << 20

_DONE, _ROOM = 0, 1

# The word of each refusal by its code, and what it says.
_REFUSALS = {
    2: ("memory", "memory ran out"),
    3: ("text", "the text is no JSON text, or not UTF-8"),
    4: ("fraction", "a number is neither an i64 nor a u64"),
    5: ("missing", "a member that is required is absent"),
    6: ("kind", "a value is of another kind or range"),
    7: ("word", "a text is none of the words that may stand there"),
    8: ("alternative", "no alternative of a choice fits"),
    9: ("empty", "there is no document to merge"),
    10: ("count", "there are not two documents, of which the second is to be nested into the first"),
    11: ("base", "the base is not UTF-8"),
    14: ("name", "the name is not UTF-8"),
}


class Refused(ValueError):
    """A text that has no answer. `word` says why.

    It is `memory`, `text` (no JSON text), `fraction` (a number that is neither an i64 nor a u64), `missing` (a required member), `kind`,
    `word`, `alternative`, `empty` (no document to merge), `count` (not two documents to nest), or `base` or `name` (which is not UTF-8).
    Each of `missing`, `kind`, `word` and `alternative` says that the text is JSON, with no fraction, and no document of the kind that is
    read. Which of them comes tells the first place that does not fit.
    """

    word: str

    def __init__(self, code: int) -> None:
        self.word, says = _REFUSALS[code]
        super().__init__("%s: %s" % (self.word, says))


def _library() -> ctypes.CDLL:
    """The library, with the types of its functions."""
    library = ctypes.CDLL(os.path.join(os.environ.get("UTOIPA_LIBRARY", ""), "libutoipa.so"))
    given = [ctypes.c_char_p, ctypes.c_size_t]
    answered = [ctypes.c_void_p, ctypes.c_size_t, ctypes.POINTER(ctypes.c_size_t)]
    for name in ("server", "schema", "document", "merge", "nest", "check", "conflicts"):
        function = getattr(library, "utoipa_" + name)
        function.argtypes = (given if name in ("nest", "check") else []) + given + answered
        function.restype = ctypes.c_uint8
    return library


_LIBRARY = _library()

# Of each thread whether its stack is enough.
_THREAD = threading.local()

# Held while a thread is started with a stack of its own size, which is asked of all that are started.
_STARTING = threading.Lock()


def _stack_size() -> int:
    """The stack of this thread in bytes, 0 where the system does not tell it."""
    try:
        system = ctypes.CDLL(None)
        system.pthread_self.restype = ctypes.c_void_p
        # More than the attributes of a thread take on any Linux.
        attributes, first, size = ctypes.create_string_buffer(256), ctypes.c_void_p(), ctypes.c_size_t()
        if system.pthread_getattr_np(ctypes.c_void_p(system.pthread_self()), attributes):
            return 0
        system.pthread_attr_getstack(attributes, ctypes.byref(first), ctypes.byref(size))
        system.pthread_attr_destroy(attributes)
        return size.value
    except (AttributeError, OSError):
        return 0


def _has_stack() -> bool:
    """Whether this thread has a stack that is enough for each call."""
    if not hasattr(_THREAD, "has_stack"):
        _THREAD.has_stack = _stack_size() >= STACK
    return _THREAD.has_stack


def _with_stack(call: Callable[[], str]) -> str:
    """What a call gives, made here where the stack is enough, and else on a thread of its own."""
    if _has_stack():
        return call()
    outcome: list = []

    def run() -> None:
        try:
            outcome.extend((call(), None))
        except BaseException as raised:
            outcome.extend((None, raised))

    with _STARTING:
        before = threading.stack_size(STACK)
        try:
            thread = threading.Thread(target=run)
            thread.start()
        finally:
            threading.stack_size(before)
    thread.join()
    answer, raised = outcome
    if raised is not None:
        raise raised
    return answer


def _bytes_of(text: Text) -> bytes:
    return text.encode() if isinstance(text, str) else bytes(memoryview(text))


def _answer(function: Any, *given: Text) -> str:
    """The answer of a function of the library to what it is given."""
    return _with_stack(lambda: _answer_here(function, *given))


def _answer_here(function: Any, *given: Text) -> str:
    """The same, on this thread."""
    words = [_bytes_of(it) for it in given]
    passed = [it for word in words for it in (word, len(word))]
    # The answer is mostly no longer than the text and its line feed. Where it is, the library says how long.
    length = len(words[-1]) + 1
    while True:
        room, needed = ctypes.create_string_buffer(length), ctypes.c_size_t()
        code = function(*passed, room, length, ctypes.byref(needed))
        if code == _DONE:
            return ctypes.string_at(room, needed.value).decode()
        if code != _ROOM:
            raise Refused(code)
        length = needed.value


def _line(function: Any, *given: Text) -> str:
    """The answer without the line feed at its end."""
    return _answer(function, *given)[:-1]


def server(text: Text) -> str:
    """Reads a Server Object (OpenAPI 3.1, section 4.8.5) and writes it."""
    return _line(_LIBRARY.utoipa_server, text)


def schema(text: Text) -> str:
    """Reads a Schema Object, or a reference to one (section 4.8.24), and writes it."""
    return _line(_LIBRARY.utoipa_schema, text)


def document(text: Text) -> str:
    """Reads an OpenAPI Object (section 4.8.1) and writes it."""
    return _line(_LIBRARY.utoipa_document, text)


def merge(text: Text) -> str:
    """Reads a list of OpenAPI documents and writes what they are merged into."""
    return _line(_LIBRARY.utoipa_merge, text)


def nest(base: Text, text: Text) -> str:
    """Reads a list of two OpenAPI documents and writes the first with the second nested into it, its paths behind the base."""
    return _line(_LIBRARY.utoipa_nest, base, text)


def check(name: Text, text: Text) -> str:
    """Tells what is found in a text that is to be an OpenAPI Object, in lines `NAME: POINTER: WHAT`: each place that does not fit, is read otherwise
    than it was meant, is dropped where the text is read and written again, or refers to nothing; or that the text is no JSON. Empty where
    nothing is found.

    >>> check("api.json", '{"openapi":"3.1.0","info":{"title":"t"},"paths":{}}')
    'api.json: /info: the member `version` is required\\n'
    """
    return _answer(_LIBRARY.utoipa_check, name, text)


def conflicts(text: Text) -> str:
    """Reads a list of OpenAPI documents and tells what merging them drops: a line for each value in whose place another document decides, with
    its place, a JSON Pointer, and the numbers of both documents, counted from 0. Empty where nothing is dropped."""
    return _answer(_LIBRARY.utoipa_conflicts, text)
