#!/usr/bin/env python3
"""Changes, exchanges, kills and restarts three sites, and compares them with a model.

    [PROGRAM=FILE] tests/examples/three_sites.py [SEED]

The model is a map from names to entries, where the greater entry wins: by count, then site, then body. Each change, each
`exchange` and each `pull` must return what the model predicts. A killed site restarts under a new name, empty or with the
last pulled state. In the end three rounds of `exchange` must make the states of all three equal to the model's, byte by
byte. PROGRAM names another binary than the built one. Standard library alone.
"""
import argparse
import hashlib
import http.client
import json
import os
import random
import signal
import socket
import subprocess
import sys
import tempfile
import urllib.parse

TOP = os.path.dirname(os.path.dirname(os.path.dirname(os.path.abspath(__file__))))
PROGRAM = os.path.realpath(os.environ.get("PROGRAM") or f"{TOP}/crates/cedar_site/out/cedar_site")
SCHEMA = f"{TOP}/examples/clinic/schema.json"
# the time limit of the run
MOST_SECONDS = 240
STEPS = 30
POLICIES = ("keeper", "no writing/1", "teams", "all")
TEXTS = (
    "permit(principal, action, resource);",
    "permit(principal is Team, action, resource);",
    'forbid(principal, action == Action::"write", resource);',
)
TEAMS = ("a", "b", "c", "d")


def free_port():
    """Returns a free port of 127.0.0.1."""
    with socket.socket() as probe:
        probe.bind(("127.0.0.1", 0))
        return probe.getsockname()[1]


def compact(value):
    return json.dumps(value, sort_keys=True, separators=(",", ":"))


def rank(entry):
    """Returns the key by which entries are ordered: count, site, body; a tombstone has the least body."""
    count, site, body = entry
    return (count, site, b"" if body is None else b"\1" + body.encode())


class Store(dict):
    """The model of a store: entries (count, site, body) by name."""

    def next_count(self):
        return 1 + max((count for count, _, _ in self.values()), default=0)

    def missing_in(self, other):
        """Returns the entries whose names the other lacks or has with a smaller stamp."""
        return Store({name: it for name, it in self.items() if name not in other or other[name][:2] < it[:2]})

    def take(self, entries):
        for name, entry in entries.items():
            self[name] = max(self.get(name, entry), entry, key=rank)
        return len(entries)


def state_text(store, label):
    """Returns the text of the state of a store."""
    def shown(name):
        return {"policy": name[1]} if name[0] == "policy" else {"entity": {"id": name[2], "type": name[1]}}

    entries = []
    # policies by id, then entities by type and id
    for name in sorted(store, key=lambda it: (it[0] != "policy", *it[1:])):
        count, site, body = store[name]
        entries.append({"body": body, "count": count, "name": shown(name), "site": site})
    return compact({"entries": entries, "kind": "state", "schema": label, "version": 2})


class Site:
    """A served site, and its model."""

    def __init__(self, name, store, *words):
        self.name, self.store, self.port = name, store, free_port()
        self.address = f"127.0.0.1:{self.port}"
        words = ["serve", "--schema", SCHEMA, "--site", name, "--listen", self.address, *words]
        self.process = subprocess.Popen([PROGRAM, *words], stdout=subprocess.PIPE, text=True)
        told = self.process.stdout.readline()
        if told != f"listening {self.address}\n":
            raise RuntimeError(f"site {name}: expected `listening {self.address}`, got {told!r}")

    def kill(self):
        self.process.kill()
        self.process.communicate()

    def asked(self, method, path, body=None):
        """Returns the status and the body of a reply."""
        link = http.client.HTTPConnection("127.0.0.1", self.port, timeout=60)
        try:
            link.request(method, path, None if body is None else body.encode())
            reply = link.getresponse()
            return reply.status, reply.read().decode()
        finally:
            link.close()


class Run:
    """Three sites, a file into which states are pulled, and the checks that failed."""

    def __init__(self, seed, room):
        self.dice, self.wrong, self.names = random.Random(seed), [], 0
        with open(SCHEMA, "rb") as file:
            self.label = hashlib.sha256(file.read()).hexdigest()
        self.file, self.kept = f"{room}/kept.json", None
        self.sites = []

    def begin(self):
        """Starts three sites."""
        for _ in range(3):
            self.sites.append(Site(self.new_name(), Store()))

    def new_name(self):
        """Returns a name that was never used. Its first letter is drawn, so a later name may be less than an earlier one."""
        self.names += 1
        return f"{self.dice.choice('abcxyz')}-{self.names}"

    def same(self, what, expected, got):
        if expected != got:
            self.wrong.append(what)
            print(f"three_sites: {what}: expected {expected!r}, got {got!r}")

    def ran(self, *words):
        done = subprocess.run([PROGRAM, *words], capture_output=True, text=True, timeout=60, check=False)
        return done.returncode, done.stdout, done.stderr

    # ---- steps

    def change(self, site, name, method, path, text, body):
        """Makes a change, whose reply must be the next stamp."""
        count = site.store.next_count()
        status, told = site.asked(method, path, text)
        stamp = {key: json.loads(told).get(key) for key in ("count", "site")}
        self.same(f"{method} {path} at {site.name}", (200, {"count": count, "site": site.name}), (status, stamp))
        site.store[name] = (count, site.name, body)

    def put_policy(self, site):
        policy, text = self.dice.choice(POLICIES), self.dice.choice(TEXTS)
        self.change(site, ("policy", policy), "PUT", policy_path(policy), text, text)

    def put_team(self, site):
        """Puts a team whose parents come after it in TEAMS, so that no cycle closes."""
        team = self.dice.choice(TEAMS)
        parents = [{"id": it, "type": "Team"} for it in TEAMS if it > team and self.dice.random() < 0.4]
        entity = {"attrs": {}, "parents": parents, "uid": {"id": team, "type": "Team"}}
        self.change(site, ("entity", "Team", team), "PUT", "/v1/entities", json.dumps(entity), compact(entity))

    def delete(self, site):
        there = sorted(name for name, (_, _, body) in site.store.items() if body is not None)
        if not there:
            return
        name = self.dice.choice(there)
        if name[0] == "policy":
            self.change(site, name, "DELETE", policy_path(name[1]), None, None)
        else:
            uid = json.dumps({"type": name[1], "id": name[2]})
            self.change(site, name, "POST", "/v1/entities/delete", uid, None)

    def exchange(self, one, two):
        """Runs `exchange`, which must print for each direction how many entries were sent."""
        told = ""
        for to, source in ((one, two), (two, one)):
            taken = to.store.take(source.store.missing_in(to.store))
            told += f'{{"taken":{taken}}}\n'
        words = ("exchange", "--schema", SCHEMA, "--between", one.address, "--and", two.address)
        self.same(f"exchange of {one.name} and {two.name}", (0, told, ""), self.ran(*words))

    def pull(self, site):
        """Pulls from a site into the file of states."""
        kept = Store() if self.kept is None else self.kept
        taken = kept.take(site.store.missing_in(kept))
        words = ("pull", "--schema", SCHEMA, "--site", "kept", "--from", site.address, "--state", self.file)
        self.same(f"pull from {site.name}", (0, f'{{"taken":{taken}}}\n', ""), self.ran(*words))
        self.kept = kept

    def lose(self, site):
        """Kills a site. An `exchange` with it must fail at its first call to it, call 2. Then restarts it under a new name."""
        site.kill()
        at = self.sites.index(site)
        other = self.sites[(at + 1) % 3]
        words = ("exchange", "--schema", SCHEMA, "--between", other.address, "--and", site.address)
        line = f"fault: {site.address}: call 2 of 6, POST /v1/delta: no connection\n"
        self.same(f"exchange with {site.name}, which is killed", (3, "", line), self.ran(*words))
        if self.kept is None or self.dice.random() < 0.4:
            self.sites[at] = Site(self.new_name(), Store())
        else:
            self.sites[at] = Site(self.new_name(), Store(self.kept), "--state", self.file)

    def step(self):
        site, kind = self.dice.choice(self.sites), self.dice.random()
        if kind < 0.35:
            self.put_policy(site)
        elif kind < 0.55:
            self.put_team(site)
        elif kind < 0.65:
            self.delete(site)
        elif kind < 0.85:
            self.exchange(site, self.dice.choice([it for it in self.sites if it is not site]))
        elif kind < 0.95:
            self.pull(site)
        else:
            self.lose(site)

    def compare(self):
        """Runs the last exchanges, and compares the three states with the model's."""
        one, two, three = self.sites
        for pair in ((one, two), (two, three), (one, two)):
            self.exchange(*pair)
        texts = [site.asked("GET", "/v1/state")[1] for site in self.sites]
        wanted = state_text(one.store, self.label)
        for site, text in zip(self.sites, texts):
            self.same(f"the state of {site.name}", wanted, text.rstrip("\n"))
        self.same("the sums of the states", 1, len({hashlib.sha256(it.encode()).hexdigest() for it in texts}))

    def end(self):
        for site in self.sites:
            if site.process.poll() is None:
                site.kill()


def policy_path(policy):
    return "/v1/policies/" + urllib.parse.quote(policy, safe="")


def hangs(_number, _frame):
    raise TimeoutError(f"expected an end within {MOST_SECONDS} seconds")


def main():
    words = argparse.ArgumentParser(description=__doc__, formatter_class=argparse.RawDescriptionHelpFormatter)
    words.add_argument("seed", metavar="SEED", type=int, nargs="?", default=1, help="the seed of the random steps (default: 1)")
    seed = words.parse_args().seed
    signal.signal(signal.SIGALRM, hangs)
    signal.alarm(MOST_SECONDS)
    with tempfile.TemporaryDirectory(prefix="three-sites-") as room:
        run = Run(seed, room)
        try:
            run.begin()
            for _ in range(STEPS):
                run.step()
            run.lose(run.dice.choice(run.sites))
            run.compare()
        except (RuntimeError, TimeoutError) as fault:
            run.wrong.append(str(fault))
            print(f"three_sites: {fault}")
        finally:
            run.end()
    wrong = len(run.wrong)
    print(f"three_sites {seed}: {wrong} checks failed" if wrong else f"three_sites {seed}: all checks passed")
    return 1 if wrong else 0


if __name__ == "__main__":
    sys.exit(main())
