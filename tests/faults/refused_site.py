#!/usr/bin/env python3
"""Gives inputs to a served site while one allocation fails: in the first run the first, in the next the second, and so on.

    tests/faults/refused_site.py PROGRAM [FIRST LAST]   (default: from the first allocation to the last one)

The inputs and their replies are rows of one part of crates/test_sites/stdout. An input whose reply has code 1 has changed
nothing, or has applied exactly as many updates as the reply says; one whose connection ended without a reply has changed
nothing. Each is then given once more: that reply, and all later ones, are those of a run with ample memory. If an
allocation fails before the program listens, it ends with an error. After the rows comes one more put. Then an answer
allocates as often as in a run with ample memory, so the caches are present again. If all allocations are tried, some run
must have a reply of code 1, some a message that is cut short, and some must drop the caches; else the script fails.
Needs `cc`.
"""
import json
import mmap
import os
import re
import struct
import sys
import tempfile

sys.dont_write_bytecode = True
TOP = os.path.dirname(os.path.dirname(os.path.dirname(os.path.abspath(__file__))))
sys.path.insert(1, f"{TOP}/tests")
# behind the standard library: two measures have the names of modules of it
sys.path.append(f"{TOP}/bench/runs")

import refusing  # noqa: E402
from rows.sites import Reply, input_of  # noqa: E402
from rows.texts import rows_of  # noqa: E402
from running import Link, Served  # noqa: E402

TABLE = f"{TOP}/crates/test_sites/stdout"
HEADING = "\n# each allocation refused"
ENDS = "ends with an error"
KINDS = ("replies of code 1", "messages cut short", "connections ended", ENDS, "not noticed")
DROPPED = "caches dropped"
# each of these must occur in some run if all allocations are tried
WANTED = ("replies of code 1", "messages cut short", DROPPED)
# how often a run is restarted whose port another program has taken
PORTS = 20
# the put after the rows
ONE_MORE = 'put_policy z permit(principal in Group::"g", action, resource);'


def inputs():
    """Returns the inputs of the part with the heading, with their outcomes. Its first two rows are the schema and the site's start."""
    with open(TABLE, encoding="utf-8", newline="\n") as file:
        part = file.read().split(HEADING)[1].partition("\n# ---- ")[0]
        under, start, *rows = rows_of(part.partition("\n")[2])
    assert (under.word, start.word, start.text) == ("under", "start", "1"), f"expected the rows under and start 1, got {under.word} and {start.word} {start.text}"
    with open(f"{FOLDER}/schema", "w", encoding="utf-8") as file:
        file.write(under.text)
    return rows


def order(entry):
    name = entry["name"]
    if "policy" in name:
        return 0, name["policy"].encode(), b""
    return 1, name["entity"]["type"].encode(), name["entity"]["id"].encode()


def rank(entry):
    return entry["count"], entry["site"], (entry["body"] is not None, (entry["body"] or "").encode())


def state_with(state, message, count):
    """Returns the state after the first `count` updates of a message are applied."""
    whole = json.loads(state.split(" ", 2)[2])
    held = {order(entry): entry for entry in whole["entries"]}
    sent = json.loads(message)["entries"]
    assert count < len(sent), f"expected under {len(sent)} applied updates, got {count}"
    for entry in sent[:count]:
        if order(entry) not in held or rank(held[order(entry)]) < rank(entry):
            held[order(entry)] = entry
    whole["entries"] = [held[name] for name in sorted(held)]
    text = json.dumps(whole, separators=(",", ":"), ensure_ascii=False)
    return f"{len(text.encode())} bytes {text}"


class Asked:
    """The number of allocations of the program, as tests/faults/refuse.c counts."""

    def __init__(self):
        with open(f"{FOLDER}/asked", "w+b") as file:
            file.write(bytes(8))
            file.flush()
            self.memory = mmap.mmap(file.fileno(), 8)

    def begin(self):
        """Starts at zero."""
        self.memory[:] = bytes(8)

    def by(self, client, text):
        """Returns the outcome of an input and its number of allocations, the second time: a connection keeps its memory."""
        client.told(text)
        before, came = self.now(), client.told(text)
        return came, self.now() - before

    def now(self):
        return struct.unpack("q", self.memory)[0]


class Client:
    """Gives inputs to a site, over one connection while it is open."""

    def __init__(self, port):
        self.port, self.link = port, None

    def told(self, text):
        """Returns the outcome of an input; None if the connection ends without a reply."""
        sent, telling = input_of(text)
        try:
            if self.link is None:
                self.link = Link(self.port)
            return telling(Reply(*self.link.ask(sent)[0]))
        except ConnectionError:
            self.close()
            return None

    def close(self):
        if self.link is not None:
            self.link.close()
        self.link = None


def short_of(came, text, state):
    """Returns the kind of an outcome with a failed allocation, and the state that must be left."""
    if came is None:
        return "connections ended", state
    if came == "refused 1 - -":
        return "replies of code 1", state
    cut = re.fullmatch(r"refused 1 (\d+) -", came)
    assert cut and text.startswith("take "), f"{text[:200]}: expected an error of code 1, got {came[:200]}"
    return "messages cut short", state_with(state, text.removeprefix("take "), int(cut[1]))


def served(client, rows, number):
    """Returns the effect of the failed allocation at a site that listens, and the number of allocations of each answer, None
    for an answer in which it failed.

    Fails if an update was lost.
    """
    state, kind, asked = None, "not noticed", []
    for row in rows:
        if row.text == "state":
            state = row.expected
        before, came = ASKED.now(), client.told(row.text)
        if row.text.startswith("authorize "):
            asked.append(None if before < number <= ASKED.now() else ASKED.now() - before)
        if came != row.expected:
            assert kind == "not noticed", f"{row.text[:200]}: expected {row.expected} after an earlier failed allocation, got {came}"
            kind, left = short_of(came, row.text, state)
            now, again = client.told("state"), client.told(row.text)
            assert now == left, f"{row.text[:200]}: expected the state {left}, got {now}"
            assert again == row.expected, f"{row.text[:200]}: expected {row.expected} the second time, got {again}"
    return kind, asked


def behind(client, rows):
    """Returns the outcomes of one more put and of an answer after it, with the number of allocations of that answer."""
    question = [row.text for row in rows if row.text.startswith("authorize ")][-1]
    return client.told(ONE_MORE), ASKED.by(client, question)


def kind_of(site, rows, number):
    """Returns the effect of the failed allocation, and the outcomes after the rows; no kind if it is not an allocation of the rows."""
    if not site.listens:
        status, _ = site.ended()
        assert status > 0, f"expected a status above 0, got {status}"
        return ENDS, None
    client = Client(site.port)
    try:
        kind, asked = served(client, rows, number)
        return (kind, (asked, behind(client, rows))) if number <= ASKED.now() else (None, None)
    finally:
        client.close()


def tried(number, rows):
    """Returns the kind of the run in which this allocation fails, and the outcomes after the rows; no kind if none failed."""
    variables = {"LD_PRELOAD": f"{FOLDER}/refuse.so", "REFUSED": str(number), "ASKED": f"{FOLDER}/asked"}
    for _ in range(PORTS):
        ASKED.begin()
        with Served([PROGRAM], FOLDER, env={**os.environ, **variables}) as site:
            kind, left = kind_of(site, rows, number)
            told = site.told()
        if kind != ENDS or "refused\n" in told:
            return kind, left
    raise AssertionError(f"expected a listening site, got {told!r}")


def all_tried(rows, kinds):
    """Lets each allocation fail in turn. Returns the number of runs that dropped the caches, and whether the last allocation
    was reached. A run dropped the caches if no reply reports the failed allocation, and an answer in which none failed
    takes another number of allocations than with ample memory."""
    dropped, (_, ample) = 0, tried(0, rows)
    for number in range(FIRST, LAST + 1):
        try:
            kind, left = tried(number, rows)
            assert left is None or left[1] == ample[1], f"after the rows: expected {ample[1]}, got {left[1]}"
        except (AssertionError, ValueError, KeyError) as fault:
            sys.exit(f"allocation {number}: {fault}")
        if kind is None:
            return dropped, True
        kinds[kind] += 1
        dropped += kind == "not noticed" and any(it not in (None, of) for it, of in zip(left[0], ample[0]))
    return dropped, False


if sys.argv[1:] in (["-h"], ["--help"]):
    print(__doc__)
    sys.exit(0)
if len(sys.argv) not in (2, 4):
    sys.exit("usage: tests/faults/refused_site.py PROGRAM [FIRST LAST]")
PROGRAM = os.path.abspath(sys.argv[1])
FIRST, LAST = map(int, sys.argv[2:] or (1, 1_000_000))
with tempfile.TemporaryDirectory() as FOLDER:
    refusing.library(FOLDER)
    ASKED, kinds = Asked(), dict.fromkeys(KINDS, 0)
    dropped, reached_last = all_tried(inputs(), kinds)
    told = ", ".join(f"{it} {kind}" for kind, it in kinds.items())
    print(f"{sum(kinds.values())} allocations failing in turn, no update lost: {told}")
    print(f"{dropped} of those not noticed dropped the caches until a later change")
    missing = [kind for kind in WANTED if not {**kinds, DROPPED: dropped}[kind]]
    if missing and reached_last and FIRST == 1:
        sys.exit(f"expected in at least one run, got in none: {', '.join(missing)}")
