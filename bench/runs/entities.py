"""Measures entities under a schema: instructions (by valgrind) of reading one from its bytes and writing its canonical
text.

  python3 bench/runs entities ["ATTRIBUTES PARENTS" ..]   (default: 10 attributes and 3 parents; then more of each)

`merge` does both with each entity of a message. The measure is the difference of two runs: over a message whose last
entry is rejected, and over the same message with the label of another schema, which is rejected before any entity is
read. PROGRAM names another binary. Needs python3 and valgrind.
"""
import hashlib
import json
import sys
import tempfile
from running import COUNTING, Ended, collected, whole

PROGRAM = whole()
SIZES = [tuple(map(int, it.split())) for it in sys.argv[1:]] or [(10, 3), (100, 3), (1000, 3), (10, 100), (10, 1000)]
COUNT = 40
UID = {"id": "u", "type": "User"}


def compact(value):
    return json.dumps(value, separators=(",", ":"), sort_keys=True)


def schema(attributes):
    types = {f"a{n:04}": {"type": "Long" if n % 2 else "String"} for n in range(attributes)}
    user = {"memberOfTypes": ["Group"], "shape": {"type": "Record", "attributes": types}}
    return compact({"": {"entityTypes": {"User": user, "Group": {}}, "actions": {}}})


def entity(attributes, parents):
    attrs = {f"a{n:04}": n if n % 2 else f"text {n}" for n in range(attributes)}
    groups = [{"id": f"g{n:04}", "type": "Group"} for n in range(parents)]
    return compact({"attrs": attrs, "parents": groups, "uid": UID})


def message(label, text):
    """Returns a state with COUNT entries of the entity, and one whose count is rejected."""
    entries = [{"body": text, "count": n + 1, "name": {"entity": UID}, "site": "00001"} for n in range(COUNT)]
    entries.append({"body": None, "count": 0, "name": {"policy": "last"}, "site": "00001"})
    return compact({"entries": entries, "kind": "state", "schema": label, "version": 2})


def instructions(room, label, text, wanted):
    """Returns the instructions of a merge of that message, which must be rejected with this error."""
    with open(f"{room}/message", "w", encoding="utf-8") as file:
        file.write(message(label, text))
    ran = Ended([*COUNTING, PROGRAM, "merge", "--schema", "schema", "message", "message"], room)
    if wanted not in ran.err:
        sys.exit(f"expected {wanted}, got {ran.err}")
    return collected(ran.err)


print(f"{'attributes':>10} {'parents':>8} {'bytes':>8} {'instructions':>13}")
with tempfile.TemporaryDirectory() as room:
    for attributes, parents in SIZES:
        text, under = entity(attributes, parents), schema(attributes)
        with open(f"{room}/schema", "w", encoding="utf-8") as file:
            file.write(under)
        label = hashlib.sha256(under.encode()).hexdigest()
        told = instructions(room, label, text, f'"code":54,"place":{COUNT},')
        idle = instructions(room, "0" * len(label), text, '"code":52,"place":null,')
        print(f"{attributes:>10} {parents:>8} {len(text):>8} {(told - idle) // COUNT:>13,}", flush=True)
