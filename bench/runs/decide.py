"""Measures `decide`: seconds (or instructions) and greatest resident memory by the numbers of policies and entities.

    python3 bench/runs decide ["POLICIES ENTITIES" ..]   (default: 10, 1,000 and 100,000 policies, each with 1,000 and with
                                                       100,000 entities)

Policies have scopes alone, or, if CONDITION is given, that condition and no scope. One in ten names a group of the
principal. Entities are users in groups, and groups in a tree of groups. With INSTRUCTIONS=1 it prints millions of
instructions instead of seconds. Needs GNU time.
"""
import os
import sys
import tempfile
import time
from decisions import WORDS, write_inputs
from running import TIMING, Ended, counted, resident, whole

PROGRAM = whole()
SIZES = [tuple(map(int, it.split())) for it in sys.argv[1:]]
USUAL = [(policies, entities) for entities in (1000, 100_000) for policies in (10, 1000, 100_000)]


def cost(folder):
    """Returns the seconds of a run, or its millions of instructions, as a string."""
    if os.environ.get("INSTRUCTIONS"):
        os.chdir(folder)
        return f"{counted(PROGRAM, *WORDS) / 1e6:.0f}"
    began = time.monotonic()
    Ended([PROGRAM, *WORDS], folder)
    return f"{time.monotonic() - began:.2f}"


print(f"{'policies':>9} {'entities':>9} {'MB-pol':>8} {'MB-ent':>8} {'cost':>9} {'MB-peak':>8}  answer")
for policies, entities in SIZES or USUAL:
    with tempfile.TemporaryDirectory() as folder:
        write_inputs(folder, policies, entities)
        ran = Ended([*TIMING, PROGRAM, *WORDS], folder)
        sizes = [os.path.getsize(f"{folder}/{it}") / 1e6 for it in ("policies.cedar", "entities.json")]
        print(f"{policies:>9} {entities:>9} {sizes[0]:>8.2f} {sizes[1]:>8.2f} {cost(folder):>9} {resident(ran.err) / 1024:>8.1f}"
              f"  {ran.out[:60].decode().strip()}", flush=True)
        os.chdir("/")
