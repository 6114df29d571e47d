"""Measures the served program over loopback: microseconds a request (by the clock, so on a quiet machine), and the
greatest resident memory; of `merge` the microseconds of processor time an entry; of a decision's line in a log the
instructions. Needs python3, GNU time, and for `log` valgrind. PROGRAM names another binary.

  python3 bench/runs service authorize [POLICIES ..]   one keep-alive connection: one by one, and 32 together (default: 10, 1,000,
                                                     10,000)
  python3 bench/runs service put [COUNT ..]            puts of policies, one by one, with COUNT policies stored (default:
                                                     1,000, 10,000)
  python3 bench/runs service merge [ENTRIES ..]        two states of ENTRIES entries (default: 1,000, 10,000, 100,000)
  python3 bench/runs service start                     from the start to `listening`, with an empty store
  python3 bench/runs service log [POLICIES ..]         instructions of a decision without a log and with `--log /dev/null`,
                                                     one by one, and of its line (default: 10, 1,000)
"""
import hashlib
import json
import os
import resource
import sys
import tempfile
import time
from running import COUNTING, TIMING, Ended, Link, Served, collected, request, resident, whole

PROGRAM, WHAT, SIZES = whole(), sys.argv[1] if sys.argv[1:] else "", [int(it) for it in sys.argv[2:]]
USES = {"principalTypes": ["User"], "resourceTypes": ["Doc"]}
SCHEMA = json.dumps({"": {"entityTypes": {"User": {}, "Doc": {}}, "actions": {"view": {"appliesTo": USES}}}})
LABEL = hashlib.sha256(SCHEMA.encode()).hexdigest()
ASKED = json.dumps({"principal": 'User::"u1"', "action": 'Action::"view"', "resource": 'Doc::"d"'}).encode()


def entry(n, site):
    body = f'permit(principal == User::"u{n}", action, resource);'
    return {"body": body, "count": n + 1, "name": {"policy": f"p{n:06}"}, "site": site}


def state(count, site, first=0):
    entries = [entry(n, site) for n in range(first, first + count)]
    message = {"entries": entries, "kind": "state", "schema": LABEL, "version": 2}
    return json.dumps(message, separators=(",", ":"))


def write(room, name, text):
    with open(f"{room}/{name}", "w", encoding="utf-8") as file:
        file.write(text)


def asked(port, times, together, make):
    """Returns the microseconds of a request on one connection, so many sent together."""
    link, began = Link(port), time.perf_counter()
    for turn in range(times):
        link.ask(*(make(turn * together + n) for n in range(together)))
    took = time.perf_counter() - began
    link.close()
    return took / times / together * 1e6


def authorize(room):
    print(f"{'policies':>9} {'one by one, us':>15} {'32 together, us':>16} {'KiB':>8}")
    for count in SIZES or [10, 1000, 10000]:
        write(room, "state", state(count, "00002"))
        with Served([PROGRAM], room, "--state", "state") as site:
            ask = request("POST", "/v1/authorize", ASKED)
            times = max(20, 200000 // (count + 100))
            one = asked(site.port, times, 1, lambda n: ask)
            many = asked(site.port, max(2, times // 32), 32, lambda n: ask)
            print(f"{count:>9} {one:>15.1f} {many:>16.1f} {site.peak():>8}", flush=True)


def put(room):
    print(f"{'stored':>9} {'a put, us':>10} {'KiB':>8}")
    for count in SIZES or [1000, 10000]:
        write(room, "state", state(count, "00002"))
        with Served([PROGRAM], room, "--state", "state") as site:
            text = b"permit(principal, action, resource);"
            took = asked(site.port, 2000, 1, lambda n: request("PUT", f"/v1/policies/q{n}", text))
            print(f"{count:>9} {took:>10.1f} {site.peak():>8}", flush=True)


def merge(room):
    print(f"{'entries':>9} {'MB in all':>10} {'seconds':>8} {'us an entry':>12} {'KiB':>8}")
    for count in SIZES or [1000, 10000, 100000]:
        write(room, "f", state(count, "00001"))
        write(room, "g", state(count, "00002", count // 2))
        began = resource.getrusage(resource.RUSAGE_CHILDREN)
        ran = Ended([*TIMING, PROGRAM, "merge", "--schema", "schema", "f", "g"], room)
        ended = resource.getrusage(resource.RUSAGE_CHILDREN)
        if ran.status != 0:
            sys.exit(f"expected status 0, got {ran.status}: {ran.err}")
        seconds, kib = ended.ru_utime - began.ru_utime + ended.ru_stime - began.ru_stime, resident(ran.err)
        size = (os.path.getsize(f"{room}/f") + os.path.getsize(f"{room}/g")) / 1e6
        each = seconds / count / 2 * 1e6
        print(f"{count:>9} {size:>10.1f} {seconds:>8.2f} {each:>12.1f} {kib:>8}", flush=True)


def start(room):
    found = []
    for _ in range(20):
        with Served([PROGRAM], room) as site:
            found.append(site.took * 1000)
            kib = site.peak()
    print(f"start: {sorted(found)[10]:.1f} ms, {kib} KiB")


def instructions(room, times, *words):
    """Returns the instructions of a site that makes so many decisions, one by one, on one connection."""
    with Served([*COUNTING, PROGRAM], room, "--state", "state", *words) as site:
        link = Link(site.port)
        for _ in range(times):
            [(status, body)] = link.ask(request("POST", "/v1/authorize", ASKED))
            if status != 200 or b'"Allow"' not in body:
                sys.exit(f"expected the decision Allow, got {status}: {body.decode()}")
        link.close()
        site.child.terminate()
        site.child.wait()
        return collected(site.told())


def log(room):
    print(f"{'policies':>9} {'a decision, Ir':>15} {'with its line':>14} {'the line':>9} {'of a decision':>14}")
    for count in SIZES or [10, 1000]:
        write(room, "state", state(count, "00002"))
        none, lines = ((instructions(room, 1500, *words) - instructions(room, 500, *words)) / 1000
                       for words in ((), ("--log", "/dev/null")))
        line = lines - none
        print(f"{count:>9} {none:>15,.0f} {lines:>14,.0f} {line:>9,.0f} {line / none:>14.1%}", flush=True)


MEASURES = {"authorize": authorize, "put": put, "merge": merge, "start": start, "log": log}
if WHAT not in MEASURES:
    sys.exit("usage: python3 bench/runs service authorize | put | merge | start | log")
with tempfile.TemporaryDirectory() as room:
    write(room, "schema", SCHEMA)
    MEASURES[WHAT](room)
