"""Measures messages: instructions an entry to read a state, to apply its updates and to write it, and the greatest resident
memory of each step. Half of the entries are policies with a condition, half entities with two
attributes and a parent.

  python3 bench/runs messages [SIZE ..]       (default: 1,000 and 10,000 entries)

Each step is the difference of two runs of `merge`: the state is rejected at its first byte; at its last entry, after all
others are read; it is applied, and the second message rejected; it is applied and written. PROGRAM names another binary.
Needs python3, valgrind and GNU time.
"""
import hashlib
import json
import sys
import tempfile
from running import COUNTING, TIMING, Ended, collected, resident, whole

PROGRAM = whole()
SHAPE = {"type": "Record", "attributes": {"name": {"type": "String"}, "age": {"type": "Long", "required": False}}}
USES = {"principalTypes": ["User"], "resourceTypes": ["Doc"]}
SCHEMA = json.dumps({"": {
    "entityTypes": {"User": {"memberOfTypes": ["Group"], "shape": SHAPE}, "Group": {}, "Doc": {}},
    "actions": {"view": {"appliesTo": USES}}}})
LABEL = hashlib.sha256(SCHEMA.encode()).hexdigest()
POLICY = """permit(principal in Group::"staff", action == Action::"view", resource)
when { principal has age && principal.age > 3 };"""
STAFF = {"id": "staff", "type": "Group"}


def compact(value):
    return json.dumps(value, separators=(",", ":"), sort_keys=True)


def entry(number):
    """Returns the entry with this number: a policy, or an entity."""
    if number % 2 == 0:
        name, body = {"policy": f"policy{number}"}, POLICY
    else:
        uid = {"id": f"user{number}", "type": "User"}
        attrs = {"age": number, "name": f"user{number}"}
        name, body = {"entity": uid}, compact({"attrs": attrs, "parents": [STAFF], "uid": uid})
    return {"body": body, "count": number + 1, "name": name, "site": "00001"}


def state(size, last):
    """Returns a state with so many entries, and one more with the count `last`, which is rejected if it is 0."""
    entries = [entry(number) for number in range(size)]
    entries.append({"body": None, "count": last, "name": {"policy": "last"}, "site": "00001"})
    return compact({"entries": entries, "kind": "state", "schema": LABEL, "version": 2})


def write(room, **texts):
    for name, text in texts.items():
        with open(f"{room}/{name}", "w", encoding="utf-8") as file:
            file.write(text)


def merged(room, first, second, wanted):
    """Returns the instructions of a merge and its memory in KiB. Its output or its error must have `wanted`."""
    words = [PROGRAM, "merge", "--schema", "schema", first, second]
    ran = Ended([*TIMING, *words], room)
    if wanted not in (ran.out.decode() if ran.status == 0 else ran.err):
        sys.exit(f"{first} and {second}: expected {wanted}, got {ran.out[:200]!r} {ran.err}")
    return collected(Ended([*COUNTING, *words], room).err), resident(ran.err)


empty = compact({"entries": [], "kind": "state", "schema": LABEL, "version": 2})
print(f"{'what':<8} {'entries':>8} {'instructions an entry':>22} {'KiB':>12}")
with tempfile.TemporaryDirectory() as room:
    write(room, schema=SCHEMA, empty=empty, none="x")
    for size in [int(it) for it in sys.argv[1:]] or [1000, 10000]:
        whole = state(size, 1)
        write(room, whole=whole, short=state(size, 0), idle="x" * len(whole))
        before, _ = merged(room, "idle", "none", '"code":50,')
        for what, first, second, wanted in (
                ("reading", "short", "none", f'"code":54,"place":{size},'),
                ("taking", "whole", "none", '"code":50,'),
                ("writing", "whole", "empty", '"policy":"last"')):
            after, kib = merged(room, first, second, wanted)
            print(f"{what:<8} {size:>8} {(after - before) / size:>22.1f} {kib:>12}", flush=True)
            before = after
