"""Measures how the work grows with the size of a part of a schema, a policy, entities or a request: instructions (by
valgrind) at each SIZE.

  python3 bench/runs growth [SIZE ..]       (default: 10, 100 and 1,000)
  WHAT="known field" python3 bench/runs growth [SIZE ..]       only these rows

  is        one `action is Action` more in a condition, under a schema of SIZE actions
  actions   SIZE actions, each a member of the next
  types     SIZE entity types, each a member of the two before
  uses      one policy and environment, with SIZE actions that have one environment each
  known     one capability more, in a condition that gives SIZE of them, for one attribute of different records
  field     one `context.f` more, of the last of SIZE attributes
  members   SIZE copies of a set of `context` compared with another, with SIZE attributes of the context
  apart     the same, with expressions that all differ: `{a: context, b: n}.a`
  shared    a condition whose shared nodes, counted wherever they occur, are some 15 times SIZE
  asked     one request more at a served site, under SIZE environments
  above     one condition more with `in` of an entity that the request does not name, below a chain of SIZE groups

Each row subtracts a second run: for `is` a condition with one `is`; for `actions` and `types` a schema of the same length
that is rejected at its first byte; for `uses` a file without policies; for `known` half as many capabilities; for `field`
a condition with one `context.f`; for `members` and `apart` the same schema with one member; for `shared` no condition;
for `asked` the cost of HTTP; for `above` the same condition with `==`. PROGRAM names another binary. Needs python3 and
valgrind.
"""
import json
import os
import sys
import tempfile
from running import COUNTING, Ended, Link, Served, collected, request, whole

PROGRAM, SIZES = whole(), [int(it) for it in sys.argv[1:]] or [10, 100, 1000]
USES = {"principalTypes": ["User"], "resourceTypes": ["Doc"]}
AGE = {"type": "Record", "attributes": {"age": {"type": "Long", "required": False}}}
TYPES = {"User": {"memberOfTypes": ["Group"], "shape": AGE}, "Group": {}, "Doc": {}}
ASKED, POLICIES = 1000, 100


def compact(types, actions):
    return json.dumps({"": {"entityTypes": types, "actions": actions}}, separators=(",", ":"))


def action_names(count):
    return compact(TYPES, {f"a{n:04}": {} for n in range(1, count)} | {"a0000": {"appliesTo": USES}})


def action_chain(count):
    above = [[{"id": f"a{n + 1}"}] if n + 1 < count else [] for n in range(count)]
    return compact(TYPES, {f"a{n}": {"memberOf": above[n]} for n in range(count)})


def type_lattice(count):
    above = ([f"T{it}" for it in (n - 1, n - 2) if it >= 0] for n in range(count))
    return compact({f"T{n}": {"memberOfTypes": it} for n, it in enumerate(above)}, {})


def environments(count):
    return compact(TYPES, {f"a{n}": {"appliesTo": USES} for n in range(count)})


def ordinary(count):
    condition = "principal has age && principal.age > {}"
    scope = 'principal in Group::"g{}", action, resource'
    return "\n".join(f"permit({scope.format(n)}) when {{ {condition.format(n)} }};" for n in range(count))


def grouped(parts):
    """Returns a policy whose condition has these parts, each 30 in parentheses, so that it does not nest deep."""
    groups = [" && ".join(parts[at:at + 30]) for at in range(0, len(parts), 30)]
    while len(groups) > 30:
        groups = ["(" + ") && (".join(groups[at:at + 30]) + ")" for at in range(0, len(groups), 30)]
    return "permit(principal, action, resource) when { (" + ") && (".join(groups) + ") };"


def known(count):
    """Returns a policy with so many `has`, each on another record."""
    return grouped([f"{{a: principal, b: {n}}}.a has age" for n in range(count)])


def wide_context(count, required):
    """Returns a schema whose context has so many attributes."""
    fields = {f"f{n:04}": {"type": "Long", "required": required} for n in range(count)}
    context = {"type": "Record", "attributes": fields}
    return compact(TYPES, {"view": {"appliesTo": USES | {"context": context}}})


def members(expressions):
    return "permit(principal, action, resource) when { [" + ", ".join(expressions) + "] == [context] };"


def shared(count):
    """Returns a policy whose condition has an `is .. in` twice in the next one, until it has so many nodes."""
    condition, nodes = "principal", 1
    while nodes < count:
        condition, nodes = f'(if {condition} is User in Group::"g" then principal else principal)', 2 * nodes
    return f'permit(principal, action, resource) when {{ {condition} == principal }};'


def ran(words, files, status=0):
    """Returns the instructions of a run over these files, which must end with this status."""
    with tempfile.TemporaryDirectory() as room:
        for name, text in files.items():
            with open(f"{room}/{name}", "w", encoding="utf-8") as file:
                file.write(text)
        ended = Ended([*COUNTING, PROGRAM, *words], room)
        if ended.status != status:
            sys.exit(f"expected status {status}, got {ended.status}: {ended.out[:300]!r} {ended.err[-300:]}")
        return collected(ended.err)


def checked(schema, policies, status=0):
    """Returns the instructions of a `check`, which must end with this status."""
    return ran(["check", "--schema", "schema", "policies"], {"schema": schema, "policies": policies}, status)


def read(schema):
    return checked(schema, "") - checked("x" * len(schema), "", 1)


def searched(count, operator):
    """Returns the instructions of `decide` over POLICIES policies with a condition on a group below a chain of others."""
    above = [[{"type": "Group", "id": f"g{n + 1}"}] if n + 1 < count else [] for n in range(count)]
    entities = [{"uid": {"type": "Group", "id": f"g{n}"}, "parents": above[n]} for n in range(count)]
    asked = {"principal": 'User::"u"', "action": 'Action::"a"', "resource": 'Doc::"d"'}
    condition = f'when {{ Group::"g0" {operator} Group::"none" }};'
    policies = "\n".join([f"permit(principal, action, resource) {condition}"] * POLICIES)
    words = ["decide", "--policies", "policies", "--entities", "entities", "--request", "request"]
    return ran(words, {"policies": policies, "entities": json.dumps(entities), "request": json.dumps(asked)})


def served(schema, requests):
    """Returns the instructions of a site that serves one connection with these requests."""
    with tempfile.TemporaryDirectory() as room:
        with open(f"{room}/schema", "w", encoding="utf-8") as file:
            file.write(schema)
        with Served([*COUNTING, PROGRAM], room, "--connections", "1") as site:
            link = Link(site.port)
            replies = [link.ask(request(*one))[0][0] for one in requests]
            link.close()
            site.ended()
            if {*replies} - {200, 404}:
                sys.exit(f"expected replies with status 200 or 404, got {replies}")
            return collected(site.told())


def asked(count):
    """Returns the instructions of one request more, under so many environments, at a site that applied an update."""
    body = json.dumps({"principal": 'User::"u"', "action": f'Action::"a{count - 1}"', "resource": 'Doc::"d"'}).encode()
    one, idle = ("POST", "/v1/authorize", body), ("POST", "/no/authorize", body)
    schema, put = environments(count), ("PUT", "/v1/entities", b'{"uid":{"type":"Group","id":"g"}}')
    return (served(schema, [put] + [one] * 11) - served(schema, [put, one] + [idle] * 10)) / 10


def is_action(size):
    names, one = action_names(size), ["action is Action"]
    return (checked(names, grouped(one * ASKED)) - checked(names, grouped(one))) / (ASKED - 1)


def uses(size):
    schema = environments(size)
    return (checked(schema, ordinary(POLICIES)) - checked(schema, "")) / POLICIES / size


def facts(size):
    schema = compact(TYPES, {"view": {"appliesTo": USES}})
    return (checked(schema, known(2 * size)) - checked(schema, known(size))) / size


def field(size):
    schema, one = wide_context(size, True), [f"context.f{size - 1:04} > 0"]
    return (checked(schema, grouped(one * ASKED)) - checked(schema, grouped(one))) / (ASKED - 1)


def joined(size):
    schema = wide_context(size, False)
    return checked(schema, members(["context"] * size)) - checked(schema, members(["context"]))


def joined_apart(size):
    schema, many = wide_context(size, False), [f"{{a: context, b: {n}}}.a" for n in range(size)]
    return checked(schema, members(many)) - checked(schema, members(many[:1]))


def forms(size):
    schema = compact(TYPES, {"view": {"appliesTo": USES}})
    return checked(schema, shared(size)) - checked(schema, "permit(principal, action, resource);")


MEASURES = {
    "is": is_action,
    "actions": lambda size: read(action_chain(size)),
    "types": lambda size: read(type_lattice(size)),
    "uses": uses,
    "known": facts,
    "field": field,
    "members": joined,
    "apart": joined_apart,
    "shared": forms,
    "asked": asked,
    "above": lambda size: (searched(size, "in") - searched(size, "==")) / POLICIES,
}
print(f"{'what':<8} {'size':>6} {'instructions':>14}")
for size in SIZES:
    for what in os.environ.get("WHAT", "").split() or MEASURES:
        print(f"{what:<8} {size:>6} {MEASURES[what](size):>14,.0f}", flush=True)
