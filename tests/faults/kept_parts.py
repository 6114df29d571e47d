#!/usr/bin/env python3
"""Tests the caches of a served site (the ancestors, and an index of policies by their scopes): no answer differs without
them, answers use them, and each change keeps them, or rebuilds them if they were dropped.

    tests/faults/kept_parts.py PROGRAM

A site drops its caches if they cannot allocate. tests/faults/refuse.c, loaded before the C library, counts allocations, and
makes those fail that this script chooses: the counts show whether an answer used the caches.

- Twins: two sites of one name begin empty, and each gets the same 30 requests, drawn from tests/rows/drawn.json. Counts of a
  message are greater than those of earlier commands. At the second site one allocation of each change fails, by chance.
  If the reply reports it, or none comes, the change is sent once more. All replies are equal, and so are the final
  states. All kinds of answers occur: allowed, denied, denied for a cycle, with an erroring policy, and a put that is
  rejected for a cycle. Some answers must be found without caches.
- Hierarchies: the same with eight entities. Each is put below some others, or deleted, a thousand times, by commands
  and by messages, which may bring cycles. After each change a request for each of the eight is sent, with a policy for
  each that it may be in.
- Index: policies that name other entities make no answer allocate more, nor do deleted policies.
- Ancestors: nor does a longer path from an entity to the group that a policy names, except for the list of the groups.
- Leaves: a put of a new user into a group takes no more allocations with 500 other users than with 50, except those of
  larger maps and lists, and an answer takes equally many.
- New: a site without changes answers as one after a change, over as many nested actions.
- Upkeep: after each change of a script an answer takes as many allocations as at a new site that merged the whole state
  as one message, also if the caches were dropped before the change.

Needs `cc`. The last line is `N passed, M failed`.
"""
import json
import mmap
import random
import struct
import os
import sys

sys.dont_write_bytecode = True
sys.path.insert(0, os.path.dirname(os.path.dirname(os.path.abspath(__file__))))

import refusing  # noqa: E402
import tried  # noqa: E402
from rows.sites import Processes, Site, label_of, policy_path  # noqa: E402

SHAPE = {
    "type": "Record",
    "attributes": {"name": {"type": "String"}, "age": {"type": "Long", "required": False}},
}
OWNED = {"type": "Record", "attributes": {"owner": {"type": "Entity", "name": "User"}}}
CONTEXT = {"type": "Record", "attributes": {"src": {"type": "Extension", "name": "ipaddr"}}}
USES = {"principalTypes": ["User"], "resourceTypes": ["Doc"], "context": CONTEXT}
SCHEMA = {
    "": {
        "entityTypes": {
            "User": {"memberOfTypes": ["Group"], "shape": SHAPE},
            "Group": {"memberOfTypes": ["Group"]},
            "Doc": {"shape": OWNED},
        },
        "actions": {"read": {}, "view": {"memberOf": [{"id": "read"}], "appliesTo": USES}},
    }
}
# entities that may all be ancestors of each other
MEMBERS = [*(("Group", it) for it in "abcdef"), *(("User", it) for it in "uv")]
KINDS_OF_MEMBERS = ["Group", "User"]
MEMBERS_SCHEMA = {
    "": {
        "entityTypes": {kind: {"memberOfTypes": KINDS_OF_MEMBERS} for kind in KINDS_OF_MEMBERS},
        "actions": {"view": {"appliesTo": {"principalTypes": KINDS_OF_MEMBERS, "resourceTypes": KINDS_OF_MEMBERS}}},
    }
}
# how many policies name others, and how many groups a way leads over
OTHERS, GROUPS = 300, 100
# actions, each in the next
ACTIONS = {f"w{at}": {"memberOf": [{"id": f"w{at + 1}"}]} for at in range(GROUPS)}
CHAIN_SCHEMA = {
    "": {
        "entityTypes": {"User": {}, "Doc": {}},
        "actions": {**ACTIONS, f"w{GROUPS}": {}, "view": {"memberOf": [{"id": "w0"}], "appliesTo": USES}},
    }
}
# the number of groups in a small and in a large hierarchy, and that of users in each group, and of those put last
LEAF_GROUPS, LEAVES = (5, 50), 10
STEPS = 1000
# a seed, and how often two sites begin
DRAWS = ((9, 40), (28, 40), (34, 40))
DRAWN = 30
# what the replies of each kind hold
KINDS = (b'"decision":"Allow"', b'"cycle":[{', b'"cycle":[],"decision":"Deny"', b'"errors":[{', b'"code":61,')
REFUSED = b'{"error":{"code":1,'
# how often at most lists ask for memory that have each of so many groups: they double
GROWTH = 16


class Fault(Exception):
    """A difference from what is expected."""


def compact(value):
    """Returns the compact text of JSON as bytes."""
    return json.dumps(value, separators=(",", ":"), sort_keys=True).encode()


def drawn_requests():
    """Returns the requests to draw from: methods, paths and bodies. The label in them is that of the schema above."""
    with open(f"{refusing.TOP}/tests/rows/drawn.json", encoding="utf-8") as file:
        return [(method, path, *(it.encode() for it in body)) for method, path, *body in json.load(file)]


def is_change(asked):
    """Returns whether a request may change the store."""
    return asked[1] != "/v1/authorize"


class Counted:
    """A site that starts with an empty store, whose allocations are counted and can be made to fail."""

    def __init__(self, program, folder, number, schema):
        path = f"{folder}/asked{number}"
        with open(path, "w+b") as file:
            file.write(bytes(16))
            file.flush()
            self.memory = mmap.mmap(file.fileno(), 16)
        self.processes = Processes(LD_PRELOAD=f"{folder}/refuse.so", ASKED=path)
        self.site = Site(self.processes, program, f"{folder}/{schema}", "00001")

    def asked(self):
        """Returns the number of allocations of the site so far."""
        return struct.unpack_from("q", self.memory)[0]

    def refuse(self, number):
        """Makes the allocation of this number fail, counted from now; 0 is none."""
        struct.pack_into("q", self.memory, 8, self.asked() + number if number else 0)

    def ask(self, asked):
        """Returns status and body of the reply, and the number of allocations."""
        before = self.asked()
        reply = self.site.ask(*asked)
        return (reply.status, reply.body), self.asked() - before

    def ask_refused(self, asked, number):
        """Returns status and body of the reply while one allocation fails; if the reply reports that, or none comes, those of a
        second attempt. Also returns whether one attempt sufficed."""
        self.refuse(number)
        try:
            came, _ = self.ask(asked)
        except (ConnectionError, ValueError):
            came = None
            self.reconnect()
        self.refuse(0)
        if came is None or came[1].startswith(REFUSED):
            return self.ask(asked)[0], False
        return came, True

    def reconnect(self):
        """Drops a connection that has ended."""
        self.site.incoming.close()
        self.site.link.close()
        self.site.link = None

    def given(self, *asked):
        """Sends requests. Raises `Fault` if one is not answered by 200."""
        for one in asked:
            (status, body), _ = self.ask(one)
            if status != 200:
                raise Fault(f"{one}: expected status 200, got {status} {body!r}")

    def cost(self, question):
        """Returns the number of allocations of a repeated query: a connection keeps its memory."""
        self.ask(question)
        return self.ask(question)[1]

    def state(self):
        """Returns the state."""
        return self.site.state().body

    def close(self):
        """Ends the site."""
        self.site.end()
        self.processes.close()
        self.memory.close()


class Sites:
    """Sites that start with empty stores, and end together."""

    def __init__(self, program, folder):
        self.program, self.folder, self.number, self.going = program, folder, 0, []

    def begin(self, schema="schema"):
        """Starts a site under the schema of this file."""
        self.number += 1
        site = Counted(self.program, self.folder, self.number, schema)
        self.going.append(site)
        return site

    def end(self):
        """Ends those that still run."""
        while self.going:
            self.going.pop().close()


# ---- twins


class Twins:
    """Two sites that get the same requests; at the second some allocations fail."""

    def __init__(self, sites, chance, schema="schema"):
        self.keeping, self.dropping = sites.begin(schema), sites.begin(schema)
        self.chance, self.seen, self.answers, self.without = chance, set(), 0, 0

    def alike(self, asked, came, wanted):
        """Raises `Fault` if the answers differ."""
        if came != wanted:
            raise Fault(f"{asked}: expected {wanted}, got {came} after a failed allocation")
        self.seen |= {kind for kind in KINDS if kind in wanted[1]}

    def change(self, asked):
        """Changes both, the second while one allocation fails."""
        wanted, count = self.keeping.ask(asked)
        came, _ = self.dropping.ask_refused(asked, self.chance.randint(1, max(count, 1)))
        self.alike(asked, came, wanted)

    def answer(self, asked):
        """Lets both answer a request, and counts whether the second does so without its caches."""
        (wanted, count), (came, other) = self.keeping.ask(asked), self.dropping.ask(asked)
        self.alike(asked, came, wanted)
        self.answers += 1
        # a connection asks for memory, too, so that a difference has to be there once more
        self.without += other != count and self.keeping.ask(asked)[1] != self.dropping.ask(asked)[1]

    def end(self):
        """Raises `Fault` if the states differ."""
        if self.keeping.state() != self.dropping.state():
            raise Fault("expected equal states, got different ones")


def drawn(sites, chance, requests):
    """Sends drawn requests to two sites."""
    twins = Twins(sites, chance)
    for _ in range(DRAWN):
        asked = chance.choice(requests)
        if is_change(asked):
            twins.change(asked)
        else:
            twins.answer(asked)
    twins.end()
    sites.end()
    return twins


def told(answers, without):
    """Returns a line about answers. Raises `Fault` if few of them are found without caches."""
    if without < answers // 50:
        raise Fault(f"expected at least {answers // 50} of {answers} answers without caches, got {without}")
    return f"{answers} answers alike, {without} of them without caches"


def draws_alike(sites, seed, count):
    """Starts twins this many times."""
    chance, requests = random.Random(seed), drawn_requests()
    all_twins = [drawn(sites, chance, requests) for _ in range(count)]
    missing = set(KINDS).difference(*(twins.seen for twins in all_twins))
    if missing:
        raise Fault(f"expected answers of all kinds, got none of {missing}")
    return told(sum(twins.answers for twins in all_twins), sum(twins.without for twins in all_twins))


def member_json(member):
    """Returns the uid of an entity."""
    return {"id": member[1], "type": member[0]}


def random_change(chance, label, step):
    """Puts one of eight entities below some others, or deletes it, by a command or by a message with a greater stamp."""
    kind, name = chance.choice(MEMBERS)
    uid, word = {"id": name, "type": kind}, chance.choice(("put", "put", "put", "put", "gone", "message"))
    if word == "gone":
        return entity_gone(kind, name)
    others = sorted(chance.sample(MEMBERS, chance.randint(0, 3)))
    stated = {"attrs": {}, "parents": [member_json(it) for it in others if it != (kind, name)], "uid": uid}
    if word == "put":
        return "PUT", "/v1/entities", compact(stated)
    entry = {"body": compact(stated).decode(), "count": 10 * STEPS * (step + 1), "name": {"entity": uid}, "site": "2"}
    return "POST", "/v1/merge", compact({"entries": [entry], "kind": "state", "schema": label, "version": 2})


def hierarchies_alike(sites, seed):
    """Sends changes of a hierarchy to twins."""
    twins = Twins(sites, random.Random(seed), "members")
    for kind, name in MEMBERS:
        twins.change(put(f"in_{name}", f'permit(principal in {kind}::"{name}", action, resource);'))
    view = {"type": "Action", "id": "view"}
    asks = [compact({"principal": it, "action": view, "resource": it}) for it in map(member_json, MEMBERS)]
    label = label_of(twins.keeping.site)
    for step in range(STEPS):
        twins.change(random_change(twins.chance, label, step))
        for asked in asks:
            twins.answer(("POST", "/v1/authorize", asked))
    twins.end()
    if not {KINDS[0], KINDS[1], KINDS[4]} <= twins.seen:
        raise Fault(f"expected answers of each kind, got {twins.seen}")
    return told(twins.answers, twins.without)


# ---- what answers ask for


def put(policy, text):
    """Puts a policy."""
    return "PUT", policy_path(policy), text.encode()


def delete(policy):
    """Deletes a policy."""
    return "DELETE", policy_path(policy)


def entity(kind, name, *groups):
    """Puts an entity below these groups."""
    attrs = {"User": {"name": name}, "Doc": {"owner": {"type": "User", "id": name}}}.get(kind, {})
    uid, parents = {"type": kind, "id": name}, [{"type": "Group", "id": it} for it in groups]
    return "PUT", "/v1/entities", compact({"uid": uid, "attrs": attrs, "parents": parents})


def entity_gone(kind, name):
    """Deletes an entity."""
    return "POST", "/v1/entities/delete", compact({"type": kind, "id": name})


def question(user):
    """Asks whether a user may view document d."""
    asked = {"principal": f'User::"{user}"', "action": 'Action::"view"', "resource": 'Doc::"d"'}
    return "POST", "/v1/authorize", compact({**asked, "context": {"src": "10.1.2.3"}})


def message(site, count, *entries):
    """Posts a message with these names and bodies, all of one count."""
    made = [{"body": body, "count": count, "name": name, "site": "2"} for name, body in entries]
    return "POST", "/v1/merge", compact({"entries": made, "kind": "state", "schema": label_of(site.site), "version": 2})


def same(what, one, other):
    """Raises `Fault` if two answers take different numbers of allocations."""
    if one != other:
        raise Fault(f"{what}: expected {other} allocations, got {one}")


BASE = (
    put("p", "permit(principal, action, resource);"),
    entity("User", "alice", "g"),
    put("f", 'forbid(principal in Group::"g", action, resource);'),
    put("b", 'permit(principal == User::"bob", action, resource);'),
)


def others():
    """Returns ids and texts of policies for other entities than the queries have: without the index an answer lists them too,
    and allocates more."""
    return [(f"o{at}", f'permit(principal == User::"o{at}", action, resource);') for at in range(OTHERS)]


def index_is_used(sites):
    """Checks that policies that name others, and deleted ones, leave answers as they are."""
    few, many = sites.begin(), sites.begin()
    few.given(*BASE)
    many.given(*BASE)
    more = others()
    for which in ("were put", "were put again", "name a group"):
        if which == "name a group":
            more = [(name, f'forbid(principal in Group::"{name}", action, resource);') for name, _ in more]
        many.given(*(put(*it) for it in more))
        for user in ("alice", "bob"):
            same(f"{OTHERS} policies that {which}, {user}", many.cost(question(user)), few.cost(question(user)))
    every = many.cost(question("alice"))
    dropped = drop(many, BASE[0], question("alice"))
    many.given(*(delete(name) for name, _ in more))
    for user in ("alice", "bob"):
        same(f"{OTHERS} policies taken away, {user}", many.cost(question(user)), few.cost(question(user)))
    return f"{every} allocations with {OTHERS} more policies, and {dropped} without caches"


def drop(site, change, asked):
    """Makes a site drop its index, by the put of a policy while an allocation fails, or its ancestors, by that of an entity:
    one of the last allocations is for the caches. Returns the number of allocations of an answer then."""
    site.given(change)
    kept, (_, count) = site.cost(asked), site.ask(change)
    for number in range(count, 0, -1):
        _, is_asked_once = site.ask_refused(change, number)
        cost = site.cost(asked)
        if is_asked_once and cost != kept:
            return cost
    raise Fault("expected an allocation of a change for the caches, got none")


def ancestors_are_used(sites):
    """Checks that a longer path leaves answers as they are."""
    near, far = sites.begin(), sites.begin()
    near.given(*way(1))
    far.given(*way(GROUPS))
    one, other = near.cost(question("z")), far.cost(question("z"))
    if other > one + GROWTH:
        raise Fault(f"an answer over {GROUPS} groups: expected at most {one + GROWTH} allocations, got {other}")
    dropped = drop(far, way(GROUPS)[-1], question("z"))
    if dropped <= other + GROWTH:
        raise Fault(f"an answer over {GROUPS} groups without caches: expected over {other + GROWTH} allocations, got {dropped}")
    return f"{one} allocations over one group, {other} over {GROUPS}, and {dropped} without caches"


def puts_at_leaf(site, groups):
    """Puts this many groups into one, users into each, and then further users into the first. Returns the most
    allocations that one of these took, and those of an answer, which uses the ancestor cache."""
    site.given(put("t", 'permit(principal in Group::"top", action, resource);'), entity("Group", "top"))
    for at in range(groups):
        users = [entity("User", f"u{at}_{number}", f"l{at}") for number in range(LEAVES)]
        site.given(entity("Group", f"l{at}", "top"), *users)
    each = []
    for at in range(LEAVES):
        (status, body), count = site.ask(entity("User", f"new{at}", "l0"))
        if status != 200:
            raise Fault(f"a put at a leaf: expected status 200, got {status} {body!r}")
        each.append(count)
    return max(each), site.cost(question("new0"))


def leaves_are_cheap(sites):
    """Checks that a put at a leaf takes no more allocations in a large hierarchy than in a small one."""
    few, many = (LEAVES * groups for groups in LEAF_GROUPS)
    (small, answer), (large, other) = (puts_at_leaf(sites.begin(), groups) for groups in LEAF_GROUPS)
    if large > small + GROWTH:
        raise Fault(f"a put with {many} users: expected at most {small + GROWTH} allocations, got {large}")
    same(f"an answer with {many} users", other, answer)
    return f"at most {small} allocations with {few} users, {large} with {many}"


def new_site_keeps(sites):
    """Checks that a site without changes answers by its caches."""
    site = sites.begin("chain")
    new = site.cost(question("z"))
    site.given(put("z", 'permit(principal == User::"y", action, resource);'))
    same(f"nothing put, {len(ACTIONS)} nested actions", new, site.cost(question("z")))
    return f"{new} allocations under {len(ACTIONS)} nested actions"


def way(groups):
    """Puts a policy for a group, and user z into the last of so many groups, each of which is in the one before it."""
    above = [entity("Group", f"w{at}", f"w{at - 1}") for at in range(1, groups)]
    bound = put("z", 'permit(principal in Group::"w0", action, resource);')
    return bound, entity("Group", "w0"), *above, entity("User", "z", f"w{groups - 1}")


def script(site):
    """Yields changes of every kind, each with a query that it affects: policies and groups that are put, changed and deleted,
    a cycle that a message closes, and a deletion that breaks it."""
    group = {"id": "b", "type": "Group"}
    below = compact({"attrs": {}, "parents": [{"id": "a", "type": "Group"}], "uid": group}).decode()
    bound = 'permit(principal == User::"bob", action, resource);'
    yield from ((change, "alice") for change in BASE)
    yield delete("p"), "alice"
    yield put("b", 'permit(principal, action, resource == Doc::"d");'), "alice"
    yield put("f", 'forbid(principal in Group::"h", action, resource);'), "alice"
    for change in (
        entity("Group", "g3"),
        entity("User", "u", "g1"),
        entity("Group", "g1", "g2"),
        entity("Group", "g2", "g3"),
        put("f3", 'forbid(principal in Group::"g3", action, resource);'),
        entity_gone("Group", "g2"),
        entity("Group", "g2", "g3"),
        entity("User", "u", "g2"),
        entity("Group", "g1"),
    ):
        yield change, "u"
    yield entity("Group", "a", "b"), "alice"
    yield message(site, 1, ({"entity": group}, below)), "alice"
    yield entity_gone("Group", "b"), "alice"
    yield message(site, 1, ({"policy": "q"}, bound)), "alice"
    yield delete("q"), "bob"


def upkeep(sites, drops):
    """Checks that caches follow each change, as a new site builds them from the whole state; optionally after a drop."""
    site, count = sites.begin(), 0
    site.given(*way(GROUPS), *(put(*it) for it in others()))
    for change, user in script(site):
        asked = question(user)
        if drops:
            bound, *_, user_put = way(GROUPS)
            drop(site, user_put if count % 2 else bound, question("z"))
        site.given(change)
        anew = sites.begin()
        anew.given(("POST", "/v1/merge", site.state()))
        same(f"after {change}", site.cost(asked), anew.cost(asked))
        sites.going.remove(anew)
        anew.close()
        count += 1
    return f"{count} changes"


TRIES = (
    *((f"twins, {seed}", lambda sites, it=(seed, count): draws_alike(sites, *it)) for seed, count in DRAWS),
    ("hierarchies", lambda sites: hierarchies_alike(sites, 1)),
    ("index", index_is_used),
    ("ancestors", ancestors_are_used),
    ("leaves", leaves_are_cheap),
    ("new", new_site_keeps),
    ("upkeep", lambda sites: upkeep(sites, drops=False)),
    ("upkeep of dropped caches", lambda sites: upkeep(sites, drops=True)),
)


def rows(program, folder):
    refusing.library(folder)
    for schema, text in (("schema", SCHEMA), ("members", MEMBERS_SCHEMA), ("chain", CHAIN_SCHEMA)):
        with open(f"{folder}/{schema}", "wb") as file:
            file.write(json.dumps(text, separators=(",", ":")).encode())
    sites = Sites(program, folder)
    for name, tries in TRIES:
        try:
            came, is_right = tries(sites), True
        except (Fault, OSError) as fault:
            came, is_right = f"FAILED: {fault or type(fault).__name__}", False
        finally:
            sites.end()
        yield name, came, is_right


if __name__ == "__main__":
    sys.exit(tried.main(sys.argv[1:], __doc__, rows))
