"""Measures a delta of ten missing entries: instructions (by valgrind) for each name, of the walk over store and summary and
of the text. The cost of reading the summary is subtracted: that of a summary that is rejected at its last stamp.

  python3 bench/runs delta [NAMES ..]       (default: 10,000 and 100,000)

The names are deleted policies in a state with which the site starts. PROGRAM names another binary. Needs python3 and
valgrind; 100,000 names take a minute.
"""
import hashlib
import json
import re
import subprocess
import sys
import tempfile
from rows.sites import connected, free_port, request
from running import whole

PROGRAM, SIZES = whole(), [int(it) for it in sys.argv[1:]] or [10_000, 100_000]
LABEL, MISSING = hashlib.sha256(b"{}").hexdigest(), 10


def stamp(number, count):
    return {"count": count, "name": {"policy": f"p{number:06}"}, "site": "2"}


def counted(folder, summary):
    """Returns the instructions of a site that answers one request for a delta, and its reply."""
    port = free_port()
    words = ["valgrind", "--tool=callgrind", "--callgrind-out-file=/dev/null", PROGRAM, "serve", "--schema",
             f"{folder}/schema", "--site", "1", "--listen", f"127.0.0.1:{port}", "--state", f"{folder}/state",
             "--connections", "1"]
    site = subprocess.Popen(words, stdout=subprocess.PIPE, stderr=subprocess.PIPE)
    site.stdout.readline()
    with connected(port) as link:
        link.settimeout(600)
        link.sendall(request("POST", "/v1/delta", summary))
        link.shutdown(1)
        reply = b"".join(iter(lambda: link.recv(65536), b""))
    _, report = site.communicate(timeout=600)
    return int(re.search(rb"Collected : (\d+)", report)[1]), reply


for size in SIZES:
    with tempfile.TemporaryDirectory() as folder:
        entries = [{"body": None, **stamp(it, 10**6 + it if it < MISSING else 1 + it)} for it in range(size)]
        with open(f"{folder}/schema", "w") as file:
            file.write("{}")
        with open(f"{folder}/state", "w") as file:
            json.dump({"entries": entries, "kind": "state", "schema": LABEL, "version": 2}, file)
        stamps = [stamp(it, 1 + it) for it in range(size)]
        good, bad = ({"kind": "summary", "schema": LABEL, "stamps": it, "version": 2}
                     for it in (stamps, [*stamps[:-1], stamp(size - 1, 0)]))
        less, rejected = counted(folder, json.dumps(bad).encode())
        more, given = counted(folder, json.dumps(good).encode())
    if b'"code":54' not in rejected or given.count(b'"policy"') != MISSING:
        sys.exit(f"expected code 54 and {MISSING} entries, got {rejected[:200]} and {given[:200]}")
    print(f"{size} names: {(more - less) / size:.1f} instructions a name")
