"""Makes files for `decide`, of any size, for the measures `decide`, `profile` and `page`."""
import json
import os

WORDS = ("decide", "--policies", "policies.cedar", "--entities", "entities.json", "--request", "request.json")
REQUEST = {"principal": 'User::"u5"', "action": 'Action::"view"', "resource": 'Doc::"d"'}


def policy(number, condition):
    """Returns the policy with this number: with this condition and no scope, or if the condition is empty, with a scope."""
    effect = "forbid" if number % 7 == 3 else "permit"
    if condition:
        return f"{effect}(principal, action, resource) when {{ {condition} }};\n"
    part = f'principal in Group::"g{number % 100}"' if number % 10 == 0 else f'principal == User::"u{number}"'
    return f'{effect}({part}, action == Action::"view", resource);\n'


def stored(count):
    """Returns so many entities: users in groups; a tenth of all are groups, in a tree."""
    groups = max(1, count // 10)

    def uid(kind, number):
        return {"type": kind, "id": f"{kind[0].lower()}{number}"}

    found = [{"uid": uid("Group", n), "parents": [uid("Group", n // 2)] if n else []} for n in range(groups)]
    return found + [{"uid": uid("User", n), "parents": [uid("Group", n % groups)]} for n in range(count - groups)]


def write_inputs(folder, policies, entities):
    """Writes so many policies and entities, and a request, into a folder. CONDITION is the condition of each policy."""
    condition = os.environ.get("CONDITION", "")
    with open(f"{folder}/policies.cedar", "w", encoding="utf-8") as file:
        file.writelines(policy(number, condition) for number in range(policies))
    for name, value in (("entities", stored(entities)), ("request", REQUEST)):
        with open(f"{folder}/{name}.json", "w", encoding="utf-8") as file:
            json.dump(value, file)
