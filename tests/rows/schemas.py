"""Rows of schemas: those that `check` rejects, and its output for the others. Used by tests/rows."""
import hashlib
import itertools
import json

from rows.commands import UnderSchema, compact
from rows.texts import expanded, printed

# the most policies for all pairs of entity types; beyond it, policies only for types that an action names, for the first
# actions in all pairs
MOST, FIRST = 2000, 10
# an action that no schema of the rows has
NO_ACTION = 'Action::"no action of this name"'


def full(space, name):
    """Returns a name in its namespace."""
    return f"{space}::{name}" if space else name


def policy(action, types=None):
    """Returns a policy of this action, and optionally of these principal and resource types."""
    if types is None:
        return f"permit(principal, action == {action}, resource);"
    return f"permit(principal is {types[0]}, action == {action}, resource is {types[1]});"


class Stated:
    """What the text of a schema states: its actions, each with the entity types of its requests."""

    def __init__(self, schema):
        spaces = [(name, space) for name, space in json.loads(schema).items() if isinstance(space, dict)]
        types = [full(name, it) for name, space in spaces for it in space.get("entityTypes") or {}]
        stated = [
            (name, it, about.get("appliesTo") or {})
            for name, space in spaces
            for it, about in (space.get("actions") or {}).items()
        ]
        self.actions = [f'{full(name, "Action")}::"{it}"' for name, it, _ in stated]
        if len(stated) * len(types) ** 2 <= MOST:
            self.asked = [(action, pair) for action in self.actions for pair in itertools.product(types, types)]
        else:
            named = enumerate(zip(self.actions, stated))
            self.asked = [(action, pair) for at, (action, it) in named for pair in self.named(it[2], at < FIRST)]

    @staticmethod
    def named(applies, each):
        """Returns the types that an action names without a namespace: each pair, or one by one."""
        kinds, others = applies.get("principalTypes", []), applies.get("resourceTypes", [])
        every = dict.fromkeys([*kinds, *others])
        return itertools.product(every, every) if each else zip(kinds, others)


class Schemas(UnderSchema):
    """Schemas, by `check` and by `merge`.

    - `schema`: the code of a rejected schema.
    - `declared`: of an accepted schema the label, the number of actions, and that of environments. The label is that of
      messages which `merge` accepts. An action is counted if a policy that names it is accepted; an environment, if a
      policy with its action and its types of principal and resource passes and is not impossible.
    """

    def of_schema(self, text):
        return self.taken(expanded(text))

    def of_declared(self, text):
        schema = expanded(text)
        taken = self.taken(schema)
        if taken != "given":
            return taken
        stated = Stated(schema)
        actions = self.verdicts([policy(action) for action in [*stated.actions, NO_ACTION]])
        pairs = self.verdicts([policy(*asked) for asked in stated.asked])
        if actions.pop() != "41" or "refused" in pairs:
            return f"an action that is not declared is taken, or a type that is declared is not: {actions}, {pairs}"
        there = sum(not verdict.isdigit() for verdict in actions)
        return f"{self.label(schema)} {there} actions, {pairs.count('accepted')} environments"

    def verdicts(self, policies):
        """Returns the outcome of `check` for each policy: its verdict, or the code of its error."""
        self.cedar.lay(policies="\n".join(policies).encode())
        ran = self.cedar.run("check", "--schema", "schema", "policies")
        lines = [json.loads(line) for line in ran.answers.splitlines()]
        if len(lines) != len(policies) or ran.faults:
            raise ValueError(ran.whole())
        return [str(line["code"]) if line["verdict"] == "refused" else line["verdict"] for line in lines]

    def label(self, schema):
        """Returns the label of messages under a schema: the SHA-256 of its bytes."""
        label = hashlib.sha256(schema).hexdigest()
        state = compact({"entries": [], "kind": "state", "schema": label, "version": 2})
        self.cedar.lay(first=state.encode(), second=state.encode())
        ran = self.cedar.run("merge", "--schema", "schema", "first", "second")
        return label if ran.status == 0 and printed(ran.answers) == state else ran.whole()


KINDS = {"schemas": Schemas}
