"""Measures the caches of a site, without its service: instructions (by valgrind), and the greatest resident memory of a run.

  python3 bench/runs site_caches                  all of these
  python3 bench/runs site_caches authorize        one request more, over policies of which ten can apply, and over policies
                                              whose scopes name no entity
  python3 bench/runs site_caches rebuild          ancestors and index rebuilt, by a put after `drop`
  python3 bench/runs site_caches take             an update of a message: of a state that a new site applies, of one that a
                                              site with its caches applies, of one whose updates lose, and of a chain of
                                              groups, from the top downwards and from the bottom upwards
  python3 bench/runs site_caches memory           bytes for a policy and for an entity

PROGRAM names another binary. Needs python3, valgrind and GNU time.
"""
import hashlib
import json
import os
import re
import subprocess
import sys
import tempfile
from running import part

PROGRAM, WORDS = part("site_measures"), sys.argv[1:]
SHAPE = {"type": "Record", "attributes": {"name": {"type": "String"}, "age": {"type": "Long", "required": False}}}
USES = {"principalTypes": ["User"], "resourceTypes": ["Doc"]}


def compact(value):
    return json.dumps(value, separators=(",", ":"), sort_keys=True)


SCHEMA = compact({"": {
    "entityTypes": {
        "User": {"memberOfTypes": ["Group"], "shape": SHAPE}, "Group": {"memberOfTypes": ["Group"]}, "Doc": {}},
    "actions": {"view": {"appliesTo": USES}}}})
LABEL = hashlib.sha256(SCHEMA.encode()).hexdigest()


def policy_of_ten(n):
    """Returns a policy: ten are of the group that all users are in, the others name another user."""
    part = 'principal in Group::"g0"' if n < 10 else f'principal == User::"v{n}"'
    return f'permit({part}, action == Action::"view", resource) when {{ principal has age && principal.age >= 1000 }};'


def unbound(n):
    """Returns a policy whose scope names no entity, and whose condition is false."""
    return f'permit(principal, action == Action::"view", resource) when {{ principal has age && principal.age == {n + 1000} }};'


def stated(kind, number, attrs, above):
    parents = [] if above is None else [{"id": above, "type": "Group"}]
    return {"attrs": attrs, "parents": parents, "uid": {"id": number, "type": kind}}


def tree(count):
    """Yields entities: users in groups; a tenth of all are groups, in a tree."""
    groups = max(1, count // 10)
    for n in range(groups):
        yield stated("Group", f"g{n}", {}, f"g{n // 2}" if n else None)
    for n in range(groups, count):
        yield stated("User", f"u{n}", {"age": n % 99, "name": f"u{n}"}, f"g{n % groups}")


def chain(count, downwards):
    """Yields groups, each with the one before or after it, in the order of the message, as its parent."""
    for n in range(count):
        above = n - 1 if downwards else n + 1
        yield stated("Group", f"g{n:05}", {}, f"g{above:05}" if 0 <= above < count else None)


def line(policies=(), entities=(), count=1):
    """Returns the line that applies a state with these policies and entities, each with the same count."""
    found = [{"body": text, "count": count, "name": {"policy": f"p{n}"}, "site": "2"} for n, text in enumerate(policies)]
    for made in entities:
        found.append({"body": compact(made), "count": count, "name": {"entity": made["uid"]}, "site": "2"})
    return "take " + compact({"entries": found, "kind": "state", "schema": LABEL, "version": 2})


def asks(count, user):
    asked = {"principal": f'User::"{user}"', "action": 'Action::"view"', "resource": 'Doc::"d"'}
    return f"asks {count} {compact(asked)}"


def put(n):
    return f"policy q permit(principal == User::\"v{n}\", action, resource);"


def run(lines, *before):
    with tempfile.NamedTemporaryFile("w", encoding="utf-8") as file:
        file.write("\n".join([SCHEMA, *lines]) + "\n")
        file.flush()
        with open(file.name, encoding="utf-8") as given:
            ran = subprocess.run([*before, PROGRAM], stdin=given, capture_output=True, text=True, check=True)
    if "no\n" in ran.stdout or "bad row" in ran.stdout:
        sys.exit(f"expected each line to succeed, got {ran.stdout}")
    return ran


def instructions(lines):
    report = run(lines, "valgrind", "--tool=callgrind", "--callgrind-out-file=/dev/null").stderr
    return int(re.search(r"Collected *: *(\d+)", report).group(1))


def kib(lines):
    return int(run(lines, "/usr/bin/time", "-f", "%M").stderr.split()[-1])


def authorize():
    print(f"{'policies':>9} {'entities':>9} {'kind':>8} {'instructions a request':>23} {'dropped':>12}")
    for policies, entities, worded, kind in (
            (10, 1000, policy_of_ten, "ten"), (10, 100000, policy_of_ten, "ten"),
            (10000, 100000, policy_of_ten, "ten"), (10000, 1000, unbound, "unbound")):
        begun = [line(map(worded, range(policies)), tree(entities))]
        user, times = f"u{entities - 1}", 5
        less = instructions(begun + [asks(0, user)])
        each = (instructions(begun + [asks(times, user)]) - less) / times
        dropped = (instructions(begun + ["drop", asks(times, user)]) - less) / times
        print(f"{policies:>9} {entities:>9} {kind:>8} {each:>23.0f} {dropped:>12.0f}", flush=True)


def rebuild():
    print(f"{'policies':>9} {'entities':>9} {'M instructions of a rebuild':>28}")
    for policies, entities in ((10, 1000), (10, 10000), (10000, 10)):
        begun = [line(map(policy_of_ten, range(policies)), tree(entities)), put(1)]
        each = (instructions(begun + ["drop", put(2)]) - instructions(begun + [put(2)])) / 1e6
        print(f"{policies:>9} {entities:>9} {each:>28.2f}", flush=True)


def take():
    print(f"{'updates':>9} {'what':>32} {'instructions an update':>23}")
    none = instructions([])
    for count in (1000, 10000):
        first, again, older = line((), tree(count), 2), line((), tree(count), 3), line((), tree(count), 1)
        new = instructions([first])
        one = 'entity {"uid":{"type":"Group","id":"x"},"attrs":{},"parents":[]}'
        present = instructions([one])
        for what, lines, less in (
                ("a new site", [first], none), ("ancestor cache, all are new", [one, first], present),
                ("the same with greater counts", [first, again], new), ("all lose", [first, older], new)):
            print(f"{count:>9} {what:>32} {(instructions(lines) - less) / count:>23.0f}", flush=True)
    one = 'entity {"uid":{"type":"Group","id":"x"},"attrs":{},"parents":[]}'
    for count in (100, 1000):
        for way, downwards in (("downwards", True), ("upwards", False)):
            for what, before in (("a new site", []), ("ancestor cache", [one])):
                many = instructions(before + [line((), chain(count, downwards))]) - instructions(before)
                print(f"{count:>9} {f'chain {way}, {what}':>32} {many / count:>23.0f}", flush=True)


def memory():
    none = kib([])
    for what, lines, count in (
            ("policy of ten", [line(map(policy_of_ten, range(10000)))], 10000),
            ("entity", [line((), tree(10000))], 10000), ("entity", [line((), tree(100000))], 100000)):
        print(f"{count:>9} {what:>14}: {(kib(lines) - none) * 1024 / count:.0f} bytes each at most, with the message", flush=True)


MEASURES = {"authorize": authorize, "rebuild": rebuild, "take": take, "memory": memory}
for word in WORDS or MEASURES:
    print(f"## {word}")
    MEASURES[word]()
