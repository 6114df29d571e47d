"""Weirbowl in your process: a replicated store of Cedar policies and entities, and decisions over it.

    with Site(schema, "one") as site:
        site.put_policy("ann", 'permit(principal == User::"ann", action, resource);')
        site.authorize(request(("User", "ann"), ("Action", "view"), ("Photo", "p1"))).allowed

A Site has a store under one schema. It changes by its own commands and by messages of other sites, and answers requests.
Sites that applied the same updates give equal answers. JSON is taken as bytes, as a text, or as what json.dumps takes.

A Site stays in the process and on the thread that opened it; a call from another raises RuntimeError. Calls keep the
interpreter's lock.
A call needs a thread with a stack of 4 MiB or more (threading.stack_size), since an expression may be 1,000 nodes high.
The library is found in this folder, in embedding/out, or where WEIRBOWL_SO says. Standard library alone.
"""
from __future__ import annotations

import ctypes
import json
import os
import threading
from typing import Any, NamedTuple, Optional, Union

__all__ = ["Answer", "ErringPolicy", "Error", "Found", "Put", "Site", "Stamp", "Verdict", "check", "decide", "decide_under", "explain", "request"]

Json = Union[bytes, str, dict, list]

SENTENCES = {
    1: "out of memory",
    2: "the name does not have 1 to 32 letters, digits, `-`, `_` or `.`",
    10: "no token of a policy begins here",
    11: "one policy is expected, and this does not continue it",
    12: "the number is outside signed 64 bits",
    13: "no function or method has this name",
    14: "the call has another number of arguments",
    15: "the key, the annotation or the name is repeated",
    16: "templates are not supported",
    17: "the policy is nested too deeply or is too large",
    18: "the text is too long",
    19: "the policy's id does not have 1 to 256 bytes of UTF-8",
    20: "the schema is not JSON",
    21: "the JSON does not have the form of a schema",
    22: "the schema uses a name that it does not declare",
    23: "a common type contains itself",
    24: "an action is its own ancestor",
    25: "a type of the schema is too large",
    30: "the JSON does not have the form of an entity or a request",
    31: "the entity's type is not declared",
    32: "actions are declared in the schema only",
    33: "the attribute is not declared",
    34: "a required attribute is missing",
    35: "an attribute's value has another type",
    36: "the entity may not have a parent of this type",
    37: "the entity is its own parent",
    38: "tags are not supported",
    39: "the action does not apply to these types",
    40: "the policy names an entity type that is not declared",
    41: "the policy names an action that is not declared",
    42: "the policy uses a value of another type",
    43: "the policy uses two types that have no common type",
    44: "the policy uses an attribute that is not declared or may be missing",
    45: "the policy has an empty set of unknown type",
    46: "the text of an extension value is not valid",
    50: "the message is not JSON",
    51: "the JSON does not have the form of a message",
    52: "the message is under another schema",
    53: "the message has another version",
    54: "a count of the message is out of range",
    55: "an entry of the message is not valid",
    56: "an entry of the message has the name of another entity",
    57: "the text of an entity is not canonical",
    60: "nothing is stored under this name",
    61: "the entity would be its own ancestor",
    62: "no stamp is left",
    63: "the JSON is not a request under the schema",
}


class Error(Exception):
    """Why a call is rejected. The site is then as it was.

    `code` is that of docs/codes.md, `sentence` what it means; `place` is the byte of the text, or the index of the entry,
    where the error is; `within` is the code of what that entry has. After a merge that ran out of memory (code 1) `place`
    counts the updates that it applied.
    """

    def __init__(self, status: int, code: int, place: Optional[int] = None, within: Optional[int] = None):
        self.status, self.code, self.place, self.within = status, code, place, within
        text = f"{code}: {self.sentence}"
        if place is not None:
            text += f" (at {place})"
        if within is not None:
            text += f" (within, {within}: {SENTENCES.get(within, 'unknown code')})"
        super().__init__(text)

    def __reduce__(self) -> tuple:
        return Error, (self.status, self.code, self.place, self.within)

    @property
    def sentence(self) -> str:
        """What the code means."""
        return SENTENCES.get(self.code, "unknown code")


class ErringPolicy(NamedTuple):
    """A policy whose evaluation fails, with the word of the error (docs/codes.md)."""

    policy: str
    error: str


class Answer(NamedTuple):
    """The answer to a request. It is true, as in `if site.authorize(..):`, only if the decision is "Allow"."""

    decision: str
    """"Allow" or "Deny"."""
    reason: list[str]
    """The ids of the determining policies, in ascending order."""
    errors: list[ErringPolicy]
    """The policies whose evaluation fails, in ascending order of their ids."""
    cycle: list[tuple[str, str]]
    """A cycle of the entities by type and id, if there is one; the decision is then "Deny"."""

    @property
    def allowed(self) -> bool:
        """Whether the decision is "Allow"."""
        return self.decision == "Allow"

    def __bool__(self) -> bool:
        return self.allowed


class Stamp(NamedTuple):
    """The Lamport timestamp of a change: a count, and the name of the site that made the change."""

    count: int
    site: str


class Put(NamedTuple):
    """A policy that was put; `impossible` if no request that conforms to the schema satisfies it."""

    stamp: Stamp
    impossible: bool


class Found(NamedTuple):
    """A policy that was found."""

    text: str
    stamp: Stamp


class Verdict(NamedTuple):
    """What validation finds of a policy: "accepted", "impossible", or "refused" with a code (40 to 46)."""

    id: str
    verdict: str
    code: Optional[int] = None


def request(principal: tuple[str, str], action: tuple[str, str], resource: tuple[str, str], context: Optional[dict] = None) -> dict:
    """Returns the request of three uids, each a type and an id."""
    asked: dict[str, Any] = {"principal": _uid(principal), "action": _uid(action), "resource": _uid(resource)}
    if context is not None:
        asked["context"] = context
    return asked


def _uid(uid: tuple[str, str]) -> dict:
    if not isinstance(uid, tuple) or len(uid) != 2:
        raise TypeError(f"expected a uid as (type, id), got {uid!r}")
    return {"type": _text(uid[0], "a type"), "id": _text(uid[1], "an id")}


def _text(value: str, what: str) -> str:
    if not isinstance(value, str):
        raise TypeError(f"expected {what} as a str, got {value!r}")
    return value


# ---- the functions of include/weirbowl.h


class _Slot(ctypes.Structure):
    _fields_ = [("is_open", ctypes.c_bool), ("address", ctypes.c_void_p)]


class _CallResult(ctypes.Structure):
    _fields_ = [("status", ctypes.c_uint32), ("length", ctypes.c_size_t)]


_BYTES = [ctypes.c_char_p, ctypes.c_size_t]
_OUT = [ctypes.c_void_p, ctypes.c_size_t]
_SLOT = [ctypes.POINTER(_Slot)]
# of each function: its result, and its parameters
CALLS = {
    "open": (ctypes.c_uint32, [*_SLOT, *_BYTES, *_BYTES]),
    "close": (ctypes.c_bool, [*_SLOT]),
    "last_body": (_CallResult, [*_SLOT, *_OUT]),
    "authorize": (_CallResult, [*_SLOT, *_BYTES, *_OUT]),
    "put_policy": (_CallResult, [*_SLOT, *_BYTES, *_BYTES, *_OUT]),
    "get_policy": (_CallResult, [*_SLOT, *_BYTES, *_OUT]),
    "delete_policy": (_CallResult, [*_SLOT, *_BYTES, *_OUT]),
    "put_entity": (_CallResult, [*_SLOT, *_BYTES, *_OUT]),
    "delete_entity": (_CallResult, [*_SLOT, *_BYTES, *_OUT]),
    "state": (_CallResult, [*_SLOT, *_OUT]),
    "summary": (_CallResult, [*_SLOT, *_OUT]),
    "delta": (_CallResult, [*_SLOT, *_BYTES, *_OUT]),
    "merge": (_CallResult, [*_SLOT, *_BYTES, *_OUT]),
    "decide": (_CallResult, [*_BYTES, *_BYTES, *_BYTES, *_OUT]),
    "decide_under": (_CallResult, [*_BYTES, *_BYTES, *_BYTES, *_BYTES, *_OUT]),
    "check": (_CallResult, [*_BYTES, *_BYTES, *_OUT]),
    "explain": (_CallResult, [*_BYTES, *_BYTES, *_BYTES, *_BYTES, *_OUT]),
}


def _load() -> dict[str, Any]:
    """Returns the functions. PyDLL keeps the interpreter's lock during a call, so that no other thread is inside one."""
    here = os.path.dirname(os.path.abspath(__file__))
    named = os.environ.get("WEIRBOWL_SO")
    places = [named] if named else [f"{here}/libweirbowl.so", f"{here}/../../out/libweirbowl.so"]
    path = next((it for it in places if os.path.exists(it)), None)
    if path is None:
        raise ImportError(f"expected libweirbowl.so at {' or '.join(places)}; tests/embedding.py builds it, WEIRBOWL_SO names it")
    library, functions = ctypes.PyDLL(path), {}
    for name, (result, parameters) in CALLS.items():
        functions[name] = getattr(library, f"weirbowl_{name}")
        functions[name].restype, functions[name].argtypes = result, parameters
    return functions


_FUNCTIONS = _load()


def _bytes(value: Json) -> bytes:
    """Returns bytes as they are, a text in UTF-8, and anything else as JSON."""
    if isinstance(value, bytes):
        return value
    return (value if isinstance(value, str) else json.dumps(value)).encode()


def _arguments(values: tuple[Json, ...]) -> list:
    """Returns a pointer and a length of each value."""
    arguments: list = []
    for value in values:
        given = _bytes(value)
        arguments += [given, len(given)]
    return arguments


def _error(status: int, body: bytes) -> Error:
    """Returns the error of a reply; 503 without a body is out of memory."""
    if not body:
        return Error(status, 1)
    error = json.loads(body)["error"]
    return Error(status, error["code"], error["place"], error["within"])


def _answer(body: bytes) -> Answer:
    line = json.loads(body)
    errors = [ErringPolicy(it["policy"], it["error"]) for it in line["errors"]]
    return Answer(line["decision"], line["reason"], errors, [(it["type"], it["id"]) for it in line["cycle"]])


def _stamp(line: dict) -> Stamp:
    return Stamp(line["count"], line["site"])


def _here() -> tuple[int, int]:
    """Returns this process and this thread."""
    return os.getpid(), threading.get_ident()


# the bytes of memory for a reply, at first
_ROOM = 1024


class Site:
    """A site in this process. `with` closes it at the end, and so does `close`."""

    def __init__(self, schema: Json, name: str):
        """Opens a site with nothing stored, under a schema.

        The name goes into the site's stamps: 1 to 32 ASCII letters, digits, `-`, `_` and `.`, another for each site that
        exchanges with it. Raises Error: 2 of the name, 20 to 25 of the schema, 1 if out of memory.
        """
        if hasattr(self, "_slot"):
            raise RuntimeError("a Site is opened once")
        self._slot, self._room, self._owner = _Slot(), ctypes.create_string_buffer(_ROOM), _here()
        code = _FUNCTIONS["open"](ctypes.byref(self._slot), *_arguments((schema, _text(name, "a name"))))
        if code:
            raise Error(503 if code == 1 else 422, code)

    def _call(self, name: str, *values: Json) -> bytes:
        """Makes a call, and returns the body of its reply."""
        self._check_owner()
        slot, arguments = ctypes.byref(self._slot), _arguments(values)
        result = _FUNCTIONS[name](slot, *arguments, self._room, len(self._room))
        if len(self._room) < result.length:
            self._room = ctypes.create_string_buffer(result.length)
            _FUNCTIONS["last_body"](slot, self._room, len(self._room))
        body = ctypes.string_at(self._room, result.length)
        if result.status == 0:
            raise ValueError("the Site is closed")
        if result.status != 200:
            raise _error(result.status, body)
        return body

    def authorize(self, request: Json) -> Answer:
        """Decides a request. Raises Error: 63 if it is not one under the schema."""
        return _answer(self._call("authorize", request))

    def put_policy(self, id: str, text: str) -> Put:
        """Puts one policy under an id, in place of the one that is there; its `@id` is ignored.

        Raises Error: 10 to 19 of the id or the text, 40 to 46 if it does not pass validation, 62 if no stamp is left.
        """
        line = json.loads(self._call("put_policy", _text(id, "an id"), _text(text, "a policy")))
        return Put(_stamp(line), line["impossible"])

    def get_policy(self, id: str) -> Optional[Found]:
        """Looks up the policy of an id; None if there is none."""
        try:
            line = json.loads(self._call("get_policy", _text(id, "an id")))
        except Error as error:
            if error.code == 60:
                return None
            raise
        return Found(line["text"], _stamp(line))

    def delete_policy(self, id: str) -> Stamp:
        """Deletes the policy of an id. Raises Error: 60 if there is none, 62 if no stamp is left."""
        return _stamp(json.loads(self._call("delete_policy", _text(id, "an id"))))

    def put_entity(self, entity: Json) -> Stamp:
        """Puts an entity. Raises Error: 30 to 38 of the entity, 61 for a cycle, 62 if no stamp is left."""
        return _stamp(json.loads(self._call("put_entity", entity)))

    def delete_entity(self, uid: tuple[str, str]) -> Stamp:
        """Deletes the entity of a type and an id. Raises Error: 60 if there is none, 62 if no stamp is left."""
        return _stamp(json.loads(self._call("delete_entity", _uid(uid))))

    def state(self) -> bytes:
        """Returns the state, as a message to other sites of the schema."""
        return self._call("state")

    def summary(self) -> bytes:
        """Returns the summary: the names of the store with their stamps, for `delta` of another site."""
        return self._call("summary")

    def delta(self, summary: bytes) -> bytes:
        """Returns a delta: the entries that the site of a summary is missing. Raises Error: 50 to 54."""
        return self._call("delta", summary)

    def merge(self, message: bytes) -> int:
        """Applies the updates of a state or a delta, and returns how many it has. Raises Error: 50 to 57."""
        return json.loads(self._call("merge", message))["taken"]

    def close(self) -> None:
        """Closes the site and frees its memory. A closed site stays closed."""
        self._check_owner()
        _FUNCTIONS["close"](ctypes.byref(self._slot))

    def _check_owner(self) -> None:
        if _here() != self._owner:
            raise RuntimeError("a Site stays in the process and on the thread that opened it")

    def __enter__(self) -> Site:
        return self

    def __exit__(self, *_: object) -> None:
        self.close()

    def __del__(self) -> None:
        # on another thread, as at the end of the process, the memory is left
        if _here() == getattr(self, "_owner", None):
            self.close()

    def __copy__(self) -> Site:
        raise TypeError("a Site is not copied")

    def __deepcopy__(self, _: object) -> Site:
        raise TypeError("a Site is not copied")

    def __reduce__(self) -> str:
        raise TypeError("a Site is not pickled: exchange its state")


def _text_call(name: str, *values: Json) -> tuple[int, bytes]:
    """Makes a call without a site, again if its reply is longer than the memory for it."""
    arguments, room = _arguments(values), ctypes.create_string_buffer(_ROOM)
    result = _FUNCTIONS[name](*arguments, room, len(room))
    while len(room) < result.length:
        room = ctypes.create_string_buffer(result.length)
        result = _FUNCTIONS[name](*arguments, room, len(room))
    return result.status, ctypes.string_at(room, result.length)


def _answer_or_error(status: int, body: bytes) -> Answer:
    if status != 200:
        raise _error(status, body)
    return _answer(body)


def decide(policies: Union[bytes, str], entities: Json, request: Json) -> Answer:
    """Decides a request over texts of policies and entities, without a schema. Raises Error: 10 to 19, 30."""
    return _answer_or_error(*_text_call("decide", policies, entities, request))


def decide_under(schema: Json, policies: Union[bytes, str], entities: Json, request: Json) -> Answer:
    """Decides like `decide`, under a schema. Raises Error: 20 to 25, 10 to 19, 40 to 46, 30 to 39, in this order."""
    return _answer_or_error(*_text_call("decide_under", schema, policies, entities, request))


def check(schema: Json, policies: Union[bytes, str]) -> list[Verdict]:
    """Validates a file of policies: a verdict for each, in the file's order. Raises Error: 20 to 25, 10 to 19."""
    status, body = _text_call("check", schema, policies)
    if status == 503 or body.startswith(b'{"error"'):
        raise _error(status, body)
    lines = [json.loads(line) for line in body.split(b"\n") if line]
    return [Verdict(it["id"], it["verdict"], it.get("code")) for it in lines]


def explain(schema: Json, policies: Union[bytes, str], entities: Json, request: Json) -> str:
    """Explains what is rejected in these texts, with the line, the column and an excerpt of each error; "" if nothing is."""
    status, body = _text_call("explain", schema, policies, entities, request)
    if status != 200:
        raise _error(status, body)
    return body.decode()
