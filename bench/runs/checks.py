"""Measures `check`: ordinary policies under 1, 10 and 100 environments, and hostile ones.

    python3 bench/runs checks [POLICIES]   (default: 1,000 policies)

The first table has instructions for each policy and environment. A hostile policy tests `has` of many attributes, one
after the other: the second table has its instructions, seconds and greatest resident memory. Needs GNU time.
"""
import json
import os
import sys
import tempfile
from running import TIMING, Ended, counted, resident, whole

PROGRAM = whole()
WORDS = ("check", "--schema", "schema", "policies")
POLICIES = int(sys.argv[1]) if sys.argv[1:] else 1000


def write(name, text):
    with open(name, "w", encoding="utf-8") as file:
        file.write(text)


def write_schema(environments, attributes):
    """Writes a schema with one action for each environment."""
    shape = {f"a{n}": {"type": "Long", "required": False} for n in range(attributes)}
    shape |= {"name": {"type": "String"}, "age": {"type": "Long", "required": False}}
    uses = {"appliesTo": {"principalTypes": ["User"], "resourceTypes": ["Doc"]}}
    user = {"memberOfTypes": ["Group"], "shape": {"type": "Record", "attributes": shape}}
    types = {"User": user, "Group": {}, "Doc": {}}
    write("schema", json.dumps({"": {"entityTypes": types, "actions": {f"act{n}": uses for n in range(environments)}}}))


def write_ordinary(count):
    """Writes policies with a scope, and a condition that uses a capability."""
    condition = 'principal has age && principal.age > {} && principal.name like "a*"'
    scope = 'principal in Group::"g{}", action, resource is Doc'
    write("policies", "".join(f"permit({scope.format(n)}) when {{ {condition.format(n)} }};\n" for n in range(count)))


def write_hostile(count, names):
    """Writes a policy with so many `has`, of so many attributes in turn; each 30 are in parentheses."""
    tests = [f"principal has a{n % names}" for n in range(count)]
    groups = [" && ".join(tests[n:n + 30]) for n in range(0, count, 30)]
    write("policies", "permit(principal, action, resource) when { " + " && ".join(f"({it})" for it in groups) + " };\n")


with tempfile.TemporaryDirectory() as folder:
    os.chdir(folder)
    print(f"{'environments':<14} {'policies':>9} {'instructions a policy, environment':>34}")
    for environments in (1, 10, 100):
        write_schema(environments, 0)
        write_ordinary(1)
        before = counted(PROGRAM, *WORDS)
        write_ordinary(POLICIES)
        each = (counted(PROGRAM, *WORDS) - before) / ((POLICIES - 1) * environments)
        print(f"{environments:<14} {POLICIES:>9} {each:>34.1f}", flush=True)
    print(f"\n{'has':<10} {'names':>8} {'bytes':>8} {'M instructions':>14} {'seconds':>9} {'KiB':>9}")
    for count, names in ((13500, 1), (1000, 1000), (2000, 2000), (4000, 4000), (8000, 8000)):
        write_schema(1, names)
        write_hostile(count, names)
        ran = Ended([*TIMING, PROGRAM, *WORDS])
        print(f"{count:<10} {names:>8} {os.path.getsize('policies'):>8} {counted(PROGRAM, *WORDS) // 10**6:>14}"
              f" {ran.seconds:>9.2f} {resident(ran.err):>9}", flush=True)
    os.chdir("/")
