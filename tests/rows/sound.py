"""Rows of soundness: each policy that passes in the table `checks`, at a site, over stores with and without entities.

In no answer does a policy err for a type, an attribute or an extension function, and no impossible policy determines
one. Used by tests/rows.
"""
import json
import os

from rows.commands import compact, policy_when
from rows.sites import BAD_ROW, Served, policy_path
from rows.texts import TABLES, expanded, rows_of

# the errors that a policy that passes may give
LEFT = {"entityDoesNotExist", "arithBoundsError"}
PASSED = {"accepted", "impossible"}
ALICE = {"type": "User", "id": "alice"}
ENTITIES = {
    "alice": {"uid": ALICE, "attrs": {"name": "Al", "age": 3}, "parents": [{"type": "Group", "id": "g"}]},
    "d": {"uid": {"type": "Doc", "id": "d"}, "attrs": {"owner": {"__entity": ALICE}}, "parents": []},
}
REQUEST = {
    "principal": 'User::"alice"',
    "action": 'Action::"view"',
    "resource": 'Doc::"d"',
    "context": {"src": "10.1.2.3"},
}


def first_block():
    """Returns the schema of the first rows of the table `checks`, and each policy that passes there with its verdict."""
    with open(os.path.join(TABLES, "checks.txt"), encoding="utf-8", newline="\n") as file:
        rows = rows_of(file.read())
    first, *others = rows
    policies = []
    for row in others:
        if row.word == "under":
            break
        if row.expected in PASSED:
            text = expanded(row.text)
            policies.append((policy_when(text) if row.word == "check_when" else text, row.expected))
    return expanded(first.text), policies


class Sound(Served):
    """`stored NAME ..`: a request over all these policies, with exactly these entities stored.

    The outcome is the number of policies and `are sound`, or the errors.
    """

    def __init__(self, program, room):
        super().__init__(program, room)
        schema, self.policies = first_block()
        self.site = self.begin(schema)
        self.refused = [
            f"{number}: {reply.refusal()}"
            for number, (text, _) in enumerate(self.policies)
            if not (reply := self.site.ask("PUT", policy_path(f"p{number}"), text)).is_given
        ]
        self.standing = set()

    def row_outcome(self, word, text):
        names = set(text.split())
        if word != "stored" or not names <= set(ENTITIES):
            return BAD_ROW
        for name in ENTITIES:
            self.place(name, name in names)
        reply = self.site.ask("POST", "/v1/authorize", compact(REQUEST).encode())
        wrong = [*self.refused, *(self.faults(reply.json) if reply.is_given else [reply.refusal()])]
        return " ".join(wrong) if wrong else f"{len(self.policies)} policies are sound"

    def place(self, name, stands):
        """Stores an entity, or deletes it."""
        entity = ENTITIES[name]
        if stands and name not in self.standing:
            self.given(self.site.ask("PUT", "/v1/entities", json.dumps(entity).encode()))
            self.standing.add(name)
        if not stands and name in self.standing:
            self.given(self.site.ask("POST", "/v1/entities/delete", json.dumps(entity["uid"]).encode()))
            self.standing.remove(name)

    @staticmethod
    def given(reply):
        """Raises an error unless a change was made: otherwise the row would be about another store."""
        if not reply.is_given:
            raise ValueError(f"expected a stored or deleted entity, got {reply.refusal()}")

    def faults(self, answer):
        """Yields the unsound parts of an answer."""
        for it in answer["errors"]:
            if it["error"] not in LEFT:
                yield f"{it['policy']} errs: {it['error']}"
        for policy in answer["reason"]:
            if self.policies[int(policy[1:])][1] == "impossible":
                yield f"{policy} is impossible and determining"


KINDS = {"sound": Sound}
