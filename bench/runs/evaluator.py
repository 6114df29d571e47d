"""Measures the evaluation of a condition: instructions, by the number of strings in the request's context.

    python3 bench/runs evaluator [STRINGS ..]   (default: 10 and 1,000)

string: two literal strings are equal; principal: `principal == User::".."`; field: `context.a == ..`; member:
`context.friends.contains(principal)`, ten friends.

It counts `decide --schema` over many policies with the condition twice: with a scope that is true, and with one that
names another resource, so that no condition is evaluated. Each condition is false, since a satisfied policy is reported.
"""
import json
import os
import sys
import tempfile
from running import counted, whole

PROGRAM = whole()
TIMES = 1000
CONDITIONS = {
    "string": '"a text of some forty letters, as in rules" == "a text of some forty letters, as in rulez"',
    "principal": 'principal == User::"alicf"',
    "field": "context.a == 2",
    "member": "context.friends.contains(principal)",
}
WORDS = ("decide", "--schema", "schema", "--policies", "policies", "--entities", "entities", "--request", "request")
WANTED = '{"cycle":[],"decision":"Deny","errors":[],"reason":[]}\n'


def write(name, value):
    with open(name, "w", encoding="utf-8") as file:
        file.write(value if isinstance(value, str) else json.dumps(value))


def write_context(count):
    """Writes a schema, and a request of Alice, with so many strings in the context."""
    names = [f"text {number}" for number in range(count)]
    types = {"a": {"type": "Long"}, "friends": {"type": "Set", "element": {"type": "Entity", "name": "User"}}}
    types |= {it: {"type": "String"} for it in names}
    uses = {"principalTypes": ["User"], "resourceTypes": ["Doc"], "context": {"type": "Record", "attributes": types}}
    friends = [{"type": "User", "id": f"alic{letter}"} for letter in "abcdfghijk"]
    given = {"a": 1, "friends": friends} | {it: it for it in names}
    write("schema", {"": {"entityTypes": {"User": {}, "Doc": {}}, "actions": {"view": {"appliesTo": uses}}}})
    write("request", {"principal": 'User::"alice"', "action": 'Action::"view"', "resource": 'Doc::"d"', "context": given})


def evaluated(resource, condition):
    """Returns the instructions of a decision over many policies of this resource."""
    write("policies", f'permit(principal, action, resource == Doc::"{resource}") when {{ {condition} }};\n' * TIMES)
    if PROGRAM.printed(*WORDS) != WANTED:
        sys.exit(f"expected {WANTED}, got {PROGRAM.printed(*WORDS)}")
    return counted(PROGRAM, *WORDS)


print(f"{'condition':<10} {'strings':>8} {'instructions an evaluation':>28}")
with tempfile.TemporaryDirectory() as folder:
    os.chdir(folder)
    write("entities", [])
    for size in [int(it) for it in sys.argv[1:]] or (10, 1000):
        write_context(size)
        for name, condition in CONDITIONS.items():
            each = (evaluated("d", condition) - evaluated("e", condition)) / TIMES
            print(f"{name:<10} {size:>8} {each:>28.1f}", flush=True)
    os.chdir("/")
