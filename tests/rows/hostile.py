"""Rows of hostile use: the replies of a served site to random and mutated bytes, and its memory afterwards.

Each input follows from the row's number alone, so a row is the same each time. Inputs are made from valid texts: a
fifth are unchanged, most others are changed at one position or a few. A site must answer each body by 200 or a code of
its route. Each change of its state must have a stamp that it answered with 200, or that came in a message so answered.
It must answer the bytes of a connection or close it, and must not end. Used by tests/rows.
"""
import contextlib
import json
import random
import socket

from rows.commands import Commands, compact
from rows.sites import BAD_ROW, Served, connected, label_of, message, policy_path, request

SCHEMA = compact(
    {
        "": {
            "commonTypes": {"Name": {"type": "String"}},
            "entityTypes": {
                "User": {
                    "memberOfTypes": ["Group"],
                    "shape": {
                        "type": "Record",
                        "attributes": {"name": {"type": "Name"}, "age": {"type": "Long", "required": False}},
                    },
                },
                "Group": {"memberOfTypes": ["Group"]},
                "Doc": {},
            },
            "actions": {
                "view": {
                    "appliesTo": {
                        "principalTypes": ["User"],
                        "resourceTypes": ["Doc"],
                        "context": {"type": "Record", "attributes": {"src": {"type": "Extension", "name": "ipaddr"}}},
                    }
                }
            },
        }
    }
).encode()
POLICIES = (
    b"permit(principal, action, resource);",
    b'forbid(principal == User::"u", action, resource) unless { principal has age && principal.age > 3 };',
    b'@id("p") permit(principal in Group::"g", action == Action::"view", resource is Doc) when { context.src == ip("::1") };',
    b'permit(principal is User, action in [Action::"view"], resource) when { ["a", "b"].contains(principal.name) };',
    b'permit(principal, action, resource) when { if principal.name like "a*\\*" then true else 1 + 2 * 3 < -4 };',
    b"// a comment\npermit(principal, action, resource) when { {a: 1, \"b\": true} == {a: 2, \"b\": false} };",
)
ENTITIES = (
    b'{"uid":{"type":"User","id":"u"},"attrs":{"name":"u","age":9},"parents":[{"type":"Group","id":"g"}]}',
    b'{"uid":{"type":"Group","id":"g"},"attrs":{},"parents":[{"type":"Group","id":"h"}]}',
    b'{"uid":{"type":"Doc","id":"\\u00e9\\ud83d\\ude00"}}',
    b'{"uid":{"__entity":{"type":"User","id":"v"}},"attrs":{"name":""},"parents":[],"tags":{}}',
)
REQUESTS = (
    b'{"principal":"User::\\"u\\"","action":"Action::\\"view\\"","resource":"Doc::\\"d\\"","context":{"src":"10.1.2.3"}}',
    b'{"principal":{"type":"User","id":"u"},"action":{"type":"Action","id":"view"},"resource":{"type":"Doc","id":"d"},'
    b'"context":{"src":{"__extn":{"fn":"ip","arg":"::1/64"}}}}',
)
HEADS = (
    b"GET /v1/state HTTP/1.1\r\nHost: a\r\nAccept: */*\r\n\r\n",
    b"PUT /v1/policies/p HTTP/1.1\r\nContent-Length: 36\r\n\r\npermit(principal, action, resource);",
    b"DELETE /v1/policies/p%20q HTTP/1.0\r\nConnection: keep-alive\r\n\r\n",
    b'POST /v1/authorize HTTP/1.1\r\nContent-Length: 2\r\nConnection: close\r\n\r\n{}GET /v1/summary HTTP/1.1\r\n\r\n',
)
# what may be inserted anywhere: words and marks of the languages, and bytes that are none
PARTS = (
    b"permit", b"principal", b"(", b")", b"[", b"]", b"{", b"}", b",", b";", b'"', b"\\", b"\\u{110000}", b"::", b"&&", b"==", b"-",
    b"9223372036854775808", b"null", b"true", b"1e9", b"0.5", b":", b"\r\n", b"\n", b" ", b"\t", b"%", b"%ff", b"Content-Length: ",
    b"Transfer-Encoding: chunked\r\n", b"HTTP/1.1", b"\x00", b"\x7f", b"\x80", b"\xc3", b"\xe2\x82", b"\xf0\x9f\x98\x80", b"\xff",
    b"\xed\xa0\x80", b'"uid"', b'"version":3', b'"count":0', b'"site":""', b"__entity", b"__extn",
)  # fmt: skip
# the number of inputs that are sent together, after which the site's state is compared
TOGETHER = 64
# the number of deletions in a message
DELETED = 1000
# the codes with which a route may reject a body
POLICY_CODES = {*range(10, 20), *range(40, 47), 62}
ENTITY_CODES = {*range(30, 39), 61, 62}
MESSAGE_CODES = set(range(50, 58))


def mutated(chance, samples):
    """Returns one of the samples, as it is or changed at up to six places."""
    text = bytearray(chance.choice(samples))
    for _ in range(chance.choice((0, 1, 1, 2, chance.randint(3, 6)))):
        at, end = sorted(chance.randint(0, len(text)) for _ in range(2))
        end = min(end, at + chance.randint(1, 12))
        match chance.randint(0, 6):
            case 0:
                text[at:end] = b""
            case 1:
                text[at:at] = chance.choice(PARTS)
            case 2:
                text[at:end] = chance.choice(PARTS)
            case 3:
                text[at:at] = text[at:end] * chance.randint(1, 20)
            case 4:
                text[at:at] = bytes([chance.randint(0, 255)])
            case 5 if text:
                text[chance.randrange(len(text))] ^= 1 << chance.randint(0, 7)
            case _:
                other = chance.choice(samples)
                text[at:] = other[chance.randint(0, len(other)) :]
    return bytes(text)


def greatest(state):
    """Returns the greatest count in a state."""
    return max((it["count"] for it in json.loads(state)["entries"]), default=0)


def entries_of(state):
    """Returns the entries of a state by their names."""
    return {compact(it["name"]): it for it in json.loads(state)["entries"]}


def stamps_changed(before, after):
    """Returns the stamps of entries that differ from an earlier state; a name that is gone has none."""
    old, new = entries_of(before), entries_of(after)
    changed = {(it["count"], it["site"]) for name, it in new.items() if old.get(name) != it}
    return changed | {None for name in old if name not in new}


def stamps_sent(message):
    """Returns the stamps of a merged message. In version 1 a site is a number, read as five digits."""
    entries = json.loads(message)["entries"]
    return {(it["count"], it["site"] if isinstance(it["site"], str) else f"{it['site']:05}") for it in entries}


def resident(site):
    """Returns how many kB of memory a site holds."""
    with open(f"/proc/{site.process.pid}/status", encoding="ascii") as file:
        return next(int(line.split()[1]) for line in file if line.startswith("VmRSS:"))


def user(name):
    """Returns the uid of a user."""
    return {"id": name, "type": "User"}


def policy_pair(name):
    """Returns the requests that put and delete a policy of this name."""
    return request("PUT", policy_path(name), POLICIES[0]), request("DELETE", policy_path(name))


def entity_pair(name):
    """Returns the requests that put a user of this name into a group, and delete it."""
    entity = {"attrs": {"name": name}, "parents": [{"id": "g", "type": "Group"}], "uid": user(name)}
    put = request("PUT", "/v1/entities", compact(entity).encode())
    return put, request("POST", "/v1/entities/delete", compact(user(name)).encode())


class Hostile(Served):
    """Rows of hostile use.

    - `policies SEED COUNT`, `entities ..`, `requests ..`, `states ..`, `summaries ..`: bodies; each must be answered.
    - `cut_states`: a state cut at each byte before its last; each must be rejected as not JSON, without an applied update.
    - `streams SEED COUNT`: the bytes of connections, from their first byte on.
    - `renamed COUNT`, `repeated COUNT`, `entities_renamed COUNT`: COUNT policies, or entities, are put and deleted, each
      under another name, or all under one; the site must then hold at most 768 kB more than one that merged these
      deletions alone, whatever the count.
    - `connections COUNT`: COUNT connections with one request each; whether the site holds 256 kB more afterwards.
    """

    def __init__(self, program, room):
        super().__init__(program, room)
        self.site, self.accepted = None, 0

    def row_outcome(self, word, text):
        numbers = [int(it) for it in text.split()]
        if self.site is not None:
            self.site.end()
        self.site = self.begin(SCHEMA)
        match word, numbers:
            case ("policies" | "entities" | "requests" | "states" | "summaries"), [seed, count]:
                return self.bodies(word, random.Random(seed), count)
            case "streams", [seed, count]:
                return self.streams(random.Random(seed), count)
            case "cut_states", []:
                return self.cut_states()
            case "renamed", [count]:
                names = [f"p{it}" for it in range(count)]
                return self.held(policy_pair, names, [{"policy": name} for name in names])
            case "repeated", [count]:
                return self.held(policy_pair, ["p"] * count, [])
            case "entities_renamed", [count]:
                names = [f"u{it}" for it in range(count)]
                return self.held(entity_pair, names, [{"entity": user(name)} for name in names])
            case "connections", [count]:
                return self.connections(count)
        return BAD_ROW

    # ---- bodies

    def bodies(self, word, chance, count):
        """Sends bodies, several together, and compares the state after them."""
        made = {
            "policies": (POLICIES, POLICY_CODES, self.policy),
            "entities": (ENTITIES, ENTITY_CODES, lambda _, body: request("PUT", "/v1/entities", body)),
            "requests": (REQUESTS, {63}, lambda _, body: request("POST", "/v1/authorize", body)),
            "states": (self.states(), MESSAGE_CODES, lambda _, body: request("POST", "/v1/merge", body)),
            "summaries": (self.summaries(), MESSAGE_CODES, lambda _, body: request("POST", "/v1/delta", body)),
        }
        samples, codes, asking = made[word]
        self.accepted = 0
        for begin in range(0, count, TOGETHER):
            bodies = [mutated(chance, samples) for _ in range(min(TOGETHER, count - begin))]
            fault = self.answered(word, codes, bodies, [asking(chance, body) for body in bodies])
            if fault:
                return f"behind {begin}: {fault}"
        # if nearly all are rejected, or none is, the row tries less than it says
        if not count // 10 < self.accepted < count // 2:
            return f"{self.accepted} of {count} accepted"
        return f"{count} answered"

    @staticmethod
    def policy(chance, body):
        """Puts a policy under one of a few names."""
        return request("PUT", policy_path(f"p{chance.randint(0, 9)}"), body)

    def answered(self, word, codes, bodies, requests):
        """Returns the first error in the replies to these, or in the state after them, or None."""
        before = self.site.state().body
        replies = self.site.asked(requests)
        after = self.site.state().body
        for body, reply in zip(bodies, replies):
            if not reply.is_given and reply.json["error"]["code"] not in codes:
                return f"{body!r} is answered {reply.status} {reply.text}"
        taken = [(body, reply) for body, reply in zip(bodies, replies) if reply.is_given]
        self.accepted += len(taken)
        allowed = set()
        if word in ("policies", "entities"):
            allowed = {(reply.json["count"], reply.json["site"]) for _, reply in taken}
            if greatest(after) != greatest(before) + len(taken):
                return f"{len(taken)} were answered 200, and the counts went from {greatest(before)} to {greatest(after)}"
        elif word == "states":
            allowed = set().union(*(stamps_sent(body) for body, _ in taken))
        others = stamps_changed(before, after) - allowed
        return f"expected only stamps that were answered by 200 in the state, got also {others}" if others else None

    def filled(self):
        """Stores some policies and entities."""
        asked = [request("PUT", policy_path(f"p{number}"), text) for number, text in enumerate(POLICIES)]
        asked += [request("PUT", "/v1/entities", text) for text in ENTITIES]
        if not all(reply.is_given for reply in self.site.asked([*asked, request("DELETE", policy_path("p1"))])):
            raise ValueError("expected a valid text to mutate, got a rejected one")

    def states(self):
        self.filled()
        return (self.site.state().body, self.site.state().body.replace(b'"state"', b'"delta"', 1))

    def summaries(self):
        self.filled()
        return (self.site.ask("GET", "/v1/summary").body,)

    def cut_states(self):
        """Sends the beginnings of a state to a site with an empty store."""
        self.filled()
        state = self.site.state().body
        self.site.end()
        self.site = self.begin(SCHEMA)
        nothing = self.site.state().body
        for end in range(len(state)):
            reply = self.site.ask("POST", "/v1/merge", state[:end])
            if reply.status != 422 or reply.refusal() != "50 - -":
                return f"cut at {end}: {reply.status} {reply.text}"
        return "each is no JSON" if self.site.state().body == nothing else "something was taken"

    # ---- connections

    def streams(self, chance, count):
        """Opens connections, each with other bytes; none may end the site, or leave it waiting."""
        for number in range(count):
            data = mutated(chance, HEADS)
            came = self.stream(data)
            if came and not came.startswith(b"HTTP/1.1 "):
                return f"{number}: {data!r} is answered {came!r}"
            if self.site.process.poll() is not None:
                return f"{number}: {data!r} ended the site"
        return f"{count} answered or closed"

    def stream(self, data):
        """Returns the reply on a connection on which these bytes are sent. It may be closed before all of them are read."""
        came = b""
        with connected(self.site.port) as link:
            with contextlib.suppress(ConnectionError):
                link.sendall(data)
                link.shutdown(socket.SHUT_WR)
                while part := link.recv(65536):
                    came += part
        return came

    # ---- memory

    def held(self, pair, names, others):
        """Puts and deletes. Returns the additional memory of the site, and that of deletions alone, in kB."""
        self.put_and_take(pair, ["warm"] * 200)
        before = resident(self.site)
        self.put_and_take(pair, names)
        more = resident(self.site) - before
        # (550 kB for 5,000 to 40,000 names alike, since a message keeps memory that its first one asks for)
        most = self.taken_alone(others) + 768
        return f"{len(names)} put and taken away" if more <= most else f"{more} kB more, where {most} may be"

    def taken_alone(self, names):
        """Returns the additional memory of another site after it merged deletions of these names, in kB."""
        site = self.begin(SCHEMA)
        label = label_of(site)
        self.take_away(site, label, [{"policy": "warm"}] * DELETED)
        before = resident(site)
        for begin in range(0, len(names), DELETED):
            self.take_away(site, label, names[begin : begin + DELETED])
        more = resident(site) - before
        site.end()
        return more

    @staticmethod
    def take_away(site, label, names):
        """Lets a site merge deletions of these names."""
        entries = [{"body": None, "count": 1, "name": name, "site": "2"} for name in names]
        if not site.ask("POST", "/v1/merge", message("delta", label, entries=entries)).is_given:
            raise ValueError("expected a message of deletions to be merged, got an error")

    def put_and_take(self, pair, names):
        """Puts each and then deletes it, many requests together."""
        for begin in range(0, len(names), TOGETHER):
            asked = [asking for name in names[begin : begin + TOGETHER] for asking in pair(name)]
            if self.site.given(asked) != len(asked):
                raise ValueError("expected a put or deletion to succeed, got an error")

    def connections(self, count):
        """Opens connections one after another, with one request each."""
        self.connect(100)
        before = resident(self.site)
        self.connect(count)
        more = resident(self.site) - before
        return f"{count} connections" if more <= 256 else f"{more} kB more"

    def connect(self, count):
        for _ in range(count):
            with connected(self.site.port) as link:
                link.sendall(request("GET", "/v1/summary"))
                if not link.recv(65536).startswith(b"HTTP/1.1 200 OK\r\n"):
                    raise ValueError("expected a reply on a connection, got none")


class HostileFiles(Commands):
    """`schemas SEED COUNT`, `files SEED COUNT`: mutated schemas, and mutated files of policies, for `check`.

    Each is accepted, or rejected by one line with a code of its kind and status 1.
    """

    CODES = {"schemas": set(range(20, 26)), "files": set(range(10, 20))}

    def row_outcome(self, word, text):
        if word not in self.CODES:
            return BAD_ROW
        seed, count = (int(it) for it in text.split())
        chance = random.Random(seed)
        for number in range(count):
            schema = mutated(chance, (SCHEMA,)) if word == "schemas" else SCHEMA
            policies = b"\n".join(mutated(chance, POLICIES) for _ in range(3)) if word == "files" else b""
            self.cedar.lay(schema=schema, policies=policies)
            ran = self.cedar.run("check", "--schema", "schema", "policies")
            if not self.is_right(word, ran):
                return f"{number}: {schema if word == 'schemas' else policies!r}: {ran.whole()}"
        return f"{count} judged"

    def is_right(self, word, ran):
        """Returns whether a run ended as expected: with an answer, or with one error."""
        if ran.faults:
            return ran.status == 1 and not ran.answers and json.loads(ran.faults)["error"]["code"] in self.CODES[word]
        return ran.status in (0, 1)


KINDS = {"hostile": Hostile, "hostile_files": HostileFiles}
