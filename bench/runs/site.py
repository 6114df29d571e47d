"""Measures a site served over loopback: instructions (by valgrind), seconds of processor time and the greatest resident
memory. With TIMES=1 it counts no instructions, which takes minutes for 100,000 entities.

  python3 bench/runs site authorize ["POLICIES ENTITIES" ..]    one request more, over these policies and entities; always ten
                                                      policies can apply, and one is satisfied (default: 10, 1,000 and
                                                      10,000 policies; 100 to 100,000 entities). One entity in ten is a
                                                      group, so the principal has more ancestors if there are more; with
                                                      REACH=10 there are ten groups, so a request reaches as many
                                                      entities whatever is stored
  python3 bench/runs site put [COUNT ..]                        one put more of a policy, of an entity, and of a group below a
                                                      chain of all others, with COUNT stored (default: 1,000 and 10,000)
  python3 bench/runs site take [COUNT ..]                       one update of a state of COUNT with which the site starts
                                                      (default: 1,000, 10,000 and 100,000)
  python3 bench/runs site write [COUNT ..]                      a name of a summary and of a state in a second reply (default:
                                                      1,000 and 10,000)

Half of a message's updates are policies with a condition, half entities with two attributes and a parent. The cost of
HTTP is subtracted: that of a run with requests of the same length to an unknown path. PROGRAM names another binary. Needs
python3, valgrind and GNU time.
"""
import hashlib
import json
import os
import sys
import tempfile
from running import COUNTING, TIMING, Ended, Link, Served, collected, request, resident, whole

PROGRAM, WHAT, SIZES = whole(), sys.argv[1] if sys.argv[1:] else "", sys.argv[2:]
SHAPE = {"type": "Record", "attributes": {"name": {"type": "String"}, "age": {"type": "Long", "required": False}}}
USES = {"principalTypes": ["User"], "resourceTypes": ["Doc"]}
SCHEMA = json.dumps({"": {
    "entityTypes": {
        "User": {"memberOfTypes": ["Group"], "shape": SHAPE}, "Group": {"memberOfTypes": ["Group"]}, "Doc": {}},
    "actions": {"view": {"appliesTo": USES}}}})
LABEL = hashlib.sha256(SCHEMA.encode()).hexdigest()


def compact(value):
    return json.dumps(value, separators=(",", ":"), sort_keys=True)


def policy(n):
    """Returns a policy: one in ten names a group of users, the others name a user each."""
    part = f'principal in Group::"g{n % 7}"' if n % 10 == 0 else f'principal == User::"u{n}"'
    condition = f"principal has age && principal.age >= {n % 10}"
    return f'permit({part}, action == Action::"view", resource) when {{ {condition} }};'


def policy_of_ten(n):
    """Returns a policy: ten name the group of all users, the others name other users."""
    part = 'principal in Group::"g0"' if n < 10 else f'principal == User::"v{n}"'
    condition = f"principal has age && principal.age >= {n % 10}"
    return f'permit({part}, action == Action::"view", resource) when {{ {condition} }};'


def stated(kind, number, attrs, above):
    """Returns an entity whose parent is the group with the number `above`, if it is not None."""
    parents = [] if above is None else [{"id": f"g{above}", "type": "Group"}]
    return {"attrs": attrs, "parents": parents, "uid": {"id": number, "type": kind}}


def entity(n, groups):
    """Returns the entity with this number: a group, in a tree of groups, or a user, in a group."""
    if n < groups:
        return stated("Group", f"g{n}", {}, n // 2 if n else None)
    return stated("User", f"u{n}", {"age": n % 9, "name": f"u{n}"}, n % groups)


def link(n, _groups):
    """Returns the group with this number, in a chain: its parent is the group before it."""
    return stated("Group", f"g{n}", {}, n - 1 if n else None)


def entry(name, body, count):
    return {"body": body, "count": count, "name": name, "site": "00002"}


def message(policies, entities, made_of=entity, worded=policy):
    """Returns a state of so many policies and entities."""
    groups = int(os.environ.get("REACH") or max(1, entities // 10))
    found = [entry({"policy": f"p{n}"}, worded(n), n + 1) for n in range(policies)]
    for n in range(entities):
        made = made_of(n, groups)
        found.append(entry({"entity": made["uid"]}, compact(made), n + 1))
    return compact({"entries": found, "kind": "state", "schema": LABEL, "version": 2})


def authorizing(entities):
    """Returns a request of the last user."""
    asked = {"principal": f'User::"u{entities - 1}"', "action": 'Action::"view"', "resource": 'Doc::"d"'}
    return "POST", "/v1/authorize", compact(asked).encode()


def putting(n, groups, made_of):
    """Returns a put of a policy, or if `made_of` is given, of the entity that it makes."""
    if made_of is None:
        return "PUT", f"/v1/policies/p{n}", policy(n).encode()
    return "PUT", "/v1/entities", compact(made_of(n, groups)).encode()


def idle(asked):
    """Returns requests of the same length to an unknown path."""
    return [(method, path.replace("/v1/", "/no/"), body) for method, path, body in asked]


class Room:
    """A folder with the schema and a state, and runs of a site that starts with them."""

    def __init__(self, folder):
        self.folder = folder
        self.write("schema", SCHEMA)

    def write(self, name, text):
        with open(f"{self.folder}/{name}", "w", encoding="utf-8") as file:
            file.write(text)

    def begins_with(self, state):
        self.write("state", state)

    def run(self, asked, *before):
        """Serves one connection with these requests. Returns its standard error, its seconds, its KiB and the replies."""
        words = ["--state", "state", "--connections", "1"]
        with Served([*before, PROGRAM], self.folder, *words) as site:
            if not site.listens:
                sys.exit(f"expected a listening site, got {site.told()}")
            link = Link(site.port)
            replies, kib = [link.ask(request(*one))[0] for one in asked], site.peak()
            link.close()
            status, seconds = site.ended()
            if status != 0:
                sys.exit(f"expected status 0, got {status}: {site.told()}")
            return site.told(), seconds, kib, replies

    def instructions(self, asked):
        return 0 if os.environ.get("TIMES") else collected(self.run(asked, *COUNTING)[0])

    def seconds(self, asked):
        return self.run(asked)[1]

    def try_out(self, asked):
        """Returns the KiB of a run with these requests; each must be answered with status 200."""
        _, _, kib, replies = self.run(asked)
        wrong = [it for it in replies if it[0] != 200]
        if wrong:
            sys.exit(f"expected status 200, got {wrong[0]}")
        return kib

    def begun(self, *before):
        """Returns the run of a site that starts and ends without a connection."""
        words = ["serve", "--schema", "schema", "--site", "1", "--state", "state", "--connections", "0"]
        ran = Ended([*before, PROGRAM, *words, "--listen", "127.0.0.1:0"], self.folder)
        if ran.status != 0:
            sys.exit(f"expected status 0, got {ran.status}: {ran.err}")
        return ran

    def beginning(self):
        """Returns the instructions of a site that starts and ends without a connection."""
        return 0 if os.environ.get("TIMES") else collected(self.begun(*COUNTING).err)


def authorize(room):
    print(f"{'policies':>9} {'entities':>9} {'M instructions a request':>25} {'ms':>9} {'KiB':>9}")
    every = [(p, e) for e in (100, 10000, 100000) for p in (10, 1000, 10000)]
    for policies, entities in [tuple(map(int, size.split())) for size in SIZES] or every:
        room.begins_with(message(policies, entities, worded=policy_of_ten))
        asked = [authorizing(entities)]
        kib = room.try_out(asked)
        times, many = (3, 10) if entities > 20000 else (10, 100)
        less = room.instructions(asked + idle(asked * times))
        more = room.instructions(asked + asked * times)
        took = min(room.seconds(asked * many) for _ in range(2))
        took -= min(room.seconds(idle(asked * many)) for _ in range(2))
        count, ms = (more - less) / times / 1e6, took / many * 1000
        print(f"{policies:>9} {entities:>9} {count:>25.3f} {ms:>9.2f} {kib:>9}", flush=True)


def put(room):
    print(f"{'stored':>9} {'what':>9} {'instructions a put more':>24}")
    for count in map(int, SIZES or ("1000", "10000")):
        step, groups = 200, max(1, count // 10)
        for kind, made_of, stored in (
                ("policy", None, message(count, 0)),
                ("entity", entity, message(0, count)),
                ("chain", link, message(0, count, link))):
            room.begins_with(stored)
            puts = [putting(n, groups, made_of) for n in range(count, count + step)]
            room.try_out(puts)
            less, more = room.instructions(idle(puts)), room.instructions(puts)
            print(f"{count:>9} {kind:>9} {(more - less) / step:>24.0f}", flush=True)


def take(room):
    print(f"{'updates':>9} {'MB':>7} {'instructions an update':>23} {'seconds':>8} {'KiB':>9}")
    room.begins_with(message(0, 0))
    none = room.beginning()
    for count in map(int, SIZES or ("1000", "10000", "100000")):
        state = message(count // 2, count - count // 2)
        room.begins_with(state)
        each, seconds = (room.beginning() - none) / count, min(room.begun().seconds for _ in range(2))
        kib = resident(room.begun(*TIMING).err)
        print(f"{count:>9} {len(state) / 1e6:>7.2f} {each:>23.0f} {seconds:>8.2f} {kib:>9}", flush=True)


def write(room):
    print(f"{'stored':>9} {'what':>9} {'instructions a name':>20}")
    for count in map(int, SIZES or ("1000", "10000")):
        room.begins_with(message(count // 2, count - count // 2))
        for what in ("summary", "state"):
            asked = [("GET", f"/v1/{what}", b"")]
            room.try_out(asked)
            less, more = room.instructions(asked + idle(asked)), room.instructions(asked * 2)
            print(f"{count:>9} {what:>9} {(more - less) / count:>20.1f}", flush=True)


MEASURES = {"authorize": authorize, "put": put, "take": take, "write": write}
if WHAT not in MEASURES:
    sys.exit("usage: python3 bench/runs site authorize | put | take | write [SIZE ..]")
with tempfile.TemporaryDirectory() as folder:
    MEASURES[WHAT](Room(folder))
