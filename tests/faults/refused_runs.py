#!/usr/bin/env python3
"""Runs commands of a built program. In each run another allocation fails: the first, the second, and so on.

    tests/faults/refused_runs.py PROGRAM

Each run of `check`, `decide` and `merge` ends as with ample memory, or with status 1, an empty standard output and the
error line of code 1 on standard error. A run of `drill` may also print that line for an event and go on: then it prints
as many lines as with ample memory, and the first line that differs is that one. Needs `cc`. The last line is `N passed,
M failed`, of commands.
"""
import hashlib
import json
import os
import sys

sys.dont_write_bytecode = True
sys.path.insert(0, os.path.dirname(os.path.dirname(os.path.abspath(__file__))))

import refusing  # noqa: E402
import tried  # noqa: E402

CLINIC = f"{refusing.TOP}/examples/clinic"
REFUSED = b'{"error":{"code":1,"place":null,"within":null}}\n'
PERMIT = "permit(principal, action, resource);"


def compact(value):
    return json.dumps(value, separators=(",", ":"), sort_keys=True)


def state(site, first):
    """Returns a state of five names under the schema `{}`: two policies, one of them deleted, and two deleted entities."""
    label = hashlib.sha256(b"{}").hexdigest()
    bodies = (PERMIT, "forbid(principal, action, resource);", None)
    names = [{"policy": f"p{first + it}"} for it in range(3)]
    names += [{"entity": {"id": f"e{first + it}", "type": "Group"}} for it in range(2)]
    entries = [
        {"body": body, "count": first + number, "name": name, "site": site}
        for number, (name, body) in enumerate(zip(names, (*bodies, None, None)), 1)
    ]
    return compact({"entries": entries, "kind": "state", "schema": label, "version": 2})


def texts():
    """Returns the files of the commands without files in examples/."""
    alice = {"id": "alice", "type": "User"}
    group = {"id": "g", "type": "Group"}
    ask = {"action": {"id": "view", "type": "Action"}, "principal": alice, "resource": {"id": "d", "type": "Doc"}}
    return {
        "empty": "{}",
        "bare.cedar": f'{PERMIT}\n@id("b") forbid(principal in Group::"g", action, resource) when {{ 1 + 1 == [] }};\n',
        "bare.json": compact([{"parents": [group], "uid": alice}, {"parents": [], "uid": group}]),
        "ask.json": compact(ask),
        "one": state("1", 0),
        "two": state("2", 2),
    }


def commands():
    """Yields the commands, each with its arguments."""
    schema = ["--schema", f"{CLINIC}/schema.json"]
    typed = ["--policies", f"{CLINIC}/policies.cedar", "--entities", f"{CLINIC}/entities.json"]
    yield "check", ["check", *schema, f"{CLINIC}/draft.cedar"]
    yield "decide", ["decide", "--policies", "bare.cedar", "--entities", "bare.json", "--request", "ask.json"]
    yield "decide --schema", ["decide", *schema, *typed, "--request", f"{CLINIC}/ann_writes.json"]
    yield "merge", ["merge", "--schema", "empty", "one", "two"]
    yield "drill", ["drill", *schema, "--sites", "2", f"{CLINIC}/lost_and_late.jsonl"]


def goes_on(ample, came):
    """Returns whether a script went on after an event with the error line of code 1."""
    lines, others = ample[1].splitlines(True), came[1].splitlines(True)
    differing = [other for line, other in zip(lines, others) if line != other]
    return came[0] == 0 and not came[2] and len(lines) == len(others) and differing[0] == REFUSED


def fault(runs, name, words):
    """Returns in how many runs of a command an allocation failed, and what is wrong with a run; None if nothing is."""
    ample, _ = runs.run(words, 0)

    def is_right(came):
        return came in (ample, (1, b"", REFUSED)) or (name == "drill" and goes_on(ample, came))

    return runs.fault(words, ample, is_right)


def rows(program, folder):
    for name, text in texts().items():
        with open(f"{folder}/{name}", "w", encoding="utf-8") as file:
            file.write(text)
    runs = refusing.Runs(program, folder)
    for name, command in commands():
        count, wrong = fault(runs, name, command)
        yield name, refusing.told(count, wrong), not wrong


if __name__ == "__main__":
    sys.exit(tried.main(sys.argv[1:], __doc__, rows))
