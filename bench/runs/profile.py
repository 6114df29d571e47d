"""Measures where `decide` spends its instructions: each function's own, for one policy or one entity more.

    python3 bench/runs profile policy [LESS MORE]   (default: 2,000 and 6,000 policies with scopes alone, 1,000 entities)
    python3 bench/runs profile entity [LESS MORE]   (default: 4,000 and 8,000 entities with one parent each, 10 policies)

It divides the difference of two runs. Inlined code counts as its caller's.
"""
import re
import subprocess
import sys
import tempfile
from decisions import WORDS, write_inputs
from running import whole

PROGRAM = whole()
USUAL = {"policy": (2000, 6000), "entity": (4000, 8000)}


def own(path):
    """Returns the instructions of each function itself, without its callees, by its name."""
    names, found, function, of_call = {}, {}, None, False
    with open(path, encoding="utf-8", errors="replace") as lines:
        for line in lines:
            named = re.match(r"(c?fn)=\((\d+)\)(?: (.*))?$", line)
            if named:
                if named[3]:
                    names[named[2]] = named[3]
                if named[1] == "fn":
                    function = named[2]
            elif line.startswith("calls="):
                of_call = True
            elif re.match(r"[0-9+*-]", line):
                if not of_call:
                    found[function] = found.get(function, 0) + int(line.split()[-1])
                of_call = False
    return {names[number]: count for number, count in found.items()}


def profile(policies, entities):
    """Returns the instructions of each function itself, in a decision over so many policies and entities."""
    with tempfile.TemporaryDirectory() as folder:
        write_inputs(folder, policies, entities)
        tool = ("valgrind", "--tool=callgrind", f"--callgrind-out-file={folder}/profile")
        subprocess.run([*tool, PROGRAM, *WORDS], cwd=folder, capture_output=True, check=False)
        return own(f"{folder}/profile")


kind = sys.argv[1] if sys.argv[1:] else ""
if kind not in USUAL:
    sys.exit("usage: python3 bench/runs profile policy | entity [LESS MORE]")
sizes = [int(it) for it in sys.argv[2:]] or USUAL[kind]
less, more = (profile(it, 1000) if kind == "policy" else profile(10, it) for it in sizes)
rows = sorted(((more.get(name, 0) - less.get(name, 0)) / (sizes[1] - sizes[0]), name) for name in {*less, *more})
print(f"{sum(count for count, _ in rows):8.0f}  all")
for count, name in reversed(rows):
    if count >= 20:
        print(f"{count:8.0f}  {name}")
