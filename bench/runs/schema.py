"""Measures the reading of schemas: instructions (by valgrind) of `check` over a file without policies, less those for a
schema of the same length that is rejected at its first byte.

  python3 bench/runs schema [COUNT ..]   COUNT entity types with three attributes, actions with a context and environments
                                       (default: 10, 100 and 1,000)

PROGRAM names another binary. Needs python3 and valgrind.
"""
import json
import sys
import tempfile
from running import COUNTING, Ended, collected, whole

PROGRAM = whole()
SHAPE = {"type": "Record", "attributes": {
    "name": {"type": "String"},
    "age": {"type": "Long", "required": False},
    "owner": {"type": "Entity", "name": "T0"}}}
CONTEXT = {"type": "Record", "attributes": {"src": {"type": "Extension", "name": "ipaddr"}}}


def schema(count):
    types = {f"T{n}": {"memberOfTypes": [f"T{(n + 1) % count}"], "shape": SHAPE} for n in range(count)}
    uses = [{"principalTypes": [f"T{n}"], "resourceTypes": [f"T{n}"], "context": CONTEXT} for n in range(count)]
    actions = {f"a{n}": {"appliesTo": uses[n]} for n in range(count)}
    return json.dumps({"": {"entityTypes": types, "actions": actions}}, separators=(",", ":"))


def instructions(room, text, status):
    """Returns the instructions of a `check` without policies under a schema with this text, which must end with this status."""
    with open(f"{room}/schema", "w", encoding="utf-8") as file:
        file.write(text)
    ran = Ended([*COUNTING, PROGRAM, "check", "--schema", "schema", "policies"], room)
    if ran.status != status:
        sys.exit(f"expected status {status}, got {ran.status}: {ran.err}")
    return collected(ran.err)


with tempfile.TemporaryDirectory() as room:
    with open(f"{room}/policies", "w", encoding="utf-8"):
        pass
    print(f"{'of each':>8} {'bytes':>8} {'instructions':>13} {'of a byte':>10}")
    for count in [int(it) for it in sys.argv[1:]] or [10, 100, 1000]:
        text = schema(count)
        found = instructions(room, text, 0) - instructions(room, "x" * len(text), 1)
        print(f"{count:>8} {len(text):>8} {found:>13,} {found // len(text):>10}", flush=True)
