"""Rows of scripts for `drill`, and a small model of sites with which random scripts are compared.

The model is the rule of the store in a few lines: at each name the entry with the greatest count, then site, then body
wins. It is independent of the program. Used by tests/rows.
"""
import hashlib
import json
import random

from rows.commands import Commands, compact
from rows.texts import Row, expanded, printed

EMPTY_SCHEMA = "{}"
# users in groups, groups in groups, and one action, so that a policy is possible
SCHEMA = compact(
    {
        "": {
            "entityTypes": {"User": {"memberOfTypes": ["Group"]}, "Group": {"memberOfTypes": ["Group"]}, "Doc": {}},
            "actions": {"view": {"appliesTo": {"principalTypes": ["User"], "resourceTypes": ["Doc"]}}},
        }
    }
)
POLICIES = ("permit(principal, action, resource);", "forbid(principal, action, resource);")
IDS = ("a", "b", "c", "policy0", "é")
UIDS = tuple((kind, name) for kind in ("Group", "User") for name in ("x", "y", "z"))


class Drill(Row):
    """A block: a script, and what is printed. It is shown by its title."""

    def shown(self):
        return self.word


class Drills(Commands):
    """Scripts: what `drill` prints, or `refused` and the error line.

    A block begins with `- TITLE`. It has `  sites: N`, optionally `  schema: TEXT` (default `{}`), the lines of the script
    after `  > `, each with a line end, and the expected lines after `  = `, in their order. A script with other line ends
    is at `  script: TEXT`, an expected error line at `  refused: LINE`. A block with `  random: SEED` plays a script made
    from that number, and expects the output of the model.
    """

    @staticmethod
    def rows_of(table):
        rows, lines = [], table.split("\n")
        begins = [at for at, line in enumerate(lines) if line.startswith("- ")]
        for at, end in zip(begins, [*begins[1:], len(lines)]):
            values, expected = block_of(lines[at + 1 : end])
            rows.append(Drill(at + 1, lines[at], compact(values), expected))
        return rows

    def row_outcome(self, word, text):
        values = json.loads(text)
        if "random" in values:
            return self.of_random(int(values["random"]), int(values["sites"]))
        script = values.get("script", "".join(f"{line}⟦0a⟧" for line in values["lines"]))
        return self.played(values.get("schema", EMPTY_SCHEMA), values["sites"], expanded(script))

    def played(self, schema, sites, script):
        """Returns the outcome of a script."""
        self.cedar.lay(schema=expanded(schema), script=script)
        ran = self.cedar.run("drill", "--schema", "schema", "--sites", sites, "script")
        if ran.status == 0 and not ran.faults:
            return printed(ran.answers)
        if ran.status == 1 and not ran.answers:
            return f"refused {printed(ran.faults)}"
        return ran.whole()

    def of_random(self, seed, sites):
        """Returns whether a script of random events has the output of the model."""
        model = Model(SCHEMA, sites)
        script, wanted = random_script(random.Random(seed), model)
        came = self.played(SCHEMA, str(sites), script.encode()).split("\n")
        wanted += model.states()
        for at, (one, other) in enumerate(zip(wanted, came)):
            if one != other and not (one is None and other.startswith('{"cycle":')):
                return f"line {at}: wanted {one}, came {other}"
        if len(came) != len(wanted):
            return f"{len(came)} lines, not {len(wanted)}"
        return "as the model says" if len(set(came[-sites:])) == 1 else "the last states differ"


def block_of(lines):
    """Returns the values of a block, and its expected outcome."""
    values, told = {"lines": []}, []
    for line in lines:
        if line.startswith("  > "):
            values["lines"].append(line[4:])
        elif line.startswith("  = "):
            told.append(line[4:])
        elif line.strip() and not line.startswith("#"):
            key, _, value = line.strip().partition(": ")
            values[key] = value
    if "random" in values:
        return values, "as the model says"
    refused = values.pop("refused", None)
    return values, "\n".join(told) if refused is None else f"refused {refused}"


# ---- the model


def order(entry):
    """Orders entries by count, then site, then body: no body is least, texts are ordered by bytes."""
    count, site, body = entry
    return count, site.encode(), body is not None, (body or "").encode()


def name_order(name):
    """Orders names: policies by the bytes of the id, then entities by type and id."""
    return len(name), [part.encode() for part in name]


def name_json(name):
    """Returns a name as messages have it: a policy's id alone, or an entity's type and id."""
    return {"policy": name[0]} if len(name) == 1 else {"entity": {"id": name[1], "type": name[0]}}


def uid_json(uid):
    """Returns an entity's uid."""
    return {"id": uid[1], "type": uid[0]}


def error(code, place=None, within=None):
    """Returns the error line."""
    return compact({"error": {"code": code, "place": place, "within": within}})


class Model:
    """Sites as maps from names to entries, and what they made."""

    def __init__(self, schema, sites):
        self.label = hashlib.sha256(schema.encode()).hexdigest()
        self.stores = [{} for _ in range(sites)]
        self.messages, self.summaries = [], []

    def issued(self, site, name, body):
        """Returns a local command's entry, stamped with one more than the greatest count of the store."""
        store = self.stores[site]
        count = 1 + max((entry[0] for entry in store.values()), default=0)
        store[name] = (count, f"{site + 1:05}", body)
        return {"count": count, "site": f"{site + 1:05}"}

    def put_policy(self, site, policy, text):
        return compact({**self.issued(site, (policy,), text), "impossible": False})

    def put_entity(self, site, uid, parents):
        edges = self.edges(site)
        edges[uid] = parents
        if reaches(edges, parents, uid):
            return error(61)
        parents = sorted(set(parents), key=name_order)
        entity = {"attrs": {}, "parents": [uid_json(parent) for parent in parents], "uid": uid_json(uid)}
        return compact(self.issued(site, uid, compact(entity)))

    def delete(self, site, name):
        if self.stores[site].get(name, (0, "", None))[2] is None:
            return error(60)
        return compact(self.issued(site, name, None))

    def edges(self, site):
        """Returns the parents of each entity that is stored."""
        held = {name: entry[2] for name, entry in self.stores[site].items() if len(name) == 2 and entry[2] is not None}
        return {uid: [(up["type"], up["id"]) for up in json.loads(body)["parents"]] for uid, body in held.items()}

    def summary(self, site):
        self.summaries.append({name: entry[:2] for name, entry in self.stores[site].items()})
        return compact({"summary": len(self.summaries) - 1})

    def offer(self, site, since=None):
        """Returns a state, or a delta: the entries that the summary lacks or has with a smaller stamp."""
        known = {} if since is None else self.summaries[since]
        news = {
            name: entry
            for name, entry in self.stores[site].items()
            if name not in known or (known[name][0], known[name][1]) < (entry[0], entry[1])
        }
        self.messages.append(news)
        return compact({"message": len(self.messages) - 1})

    def deliver(self, site, message):
        """Keeps the greater entry at each name."""
        store, news = self.stores[site], self.messages[message]
        for name, entry in news.items():
            store[name] = max(store.get(name, entry), entry, key=order)
        return compact({"taken": len(news)})

    def states(self):
        """Returns the states of all sites."""
        return [self.state(store) for store in self.stores]

    def state(self, store):
        entries = [
            {"body": store[name][2], "count": store[name][0], "name": name_json(name), "site": store[name][1]}
            for name in sorted(store, key=name_order)
        ]
        return compact({"entries": entries, "kind": "state", "schema": self.label, "version": 2})


def reaches(edges, begins, end):
    """Returns whether an entity is reached from others by edges."""
    seen, work = set(), list(begins)
    while work:
        next_one = work.pop()
        if next_one == end:
            return True
        if next_one not in seen:
            seen.add(next_one)
            work += edges.get(next_one, [])
    return False


# ---- random scripts


def random_event(chance, model):
    """Returns an event without its site, and its effect in the model."""
    kinds = ["put_policy"] * 4 + ["delete_policy"] * 3 + ["put_entity"] * 4 + ["delete_entity"] * 3 + ["authorize"]
    kinds += ["summary"] * 2 + ["offer"] * 3 + ["offer_delta"] * (3 if model.summaries else 0)
    kind = chance.choice(kinds + ["deliver"] * (7 if model.messages else 0))
    if kind == "put_policy":
        policy, text = chance.choice(IDS), chance.choice(POLICIES)
        return {"do": kind, "id": policy, "text": text}, lambda at: model.put_policy(at, policy, text)
    if kind == "delete_policy":
        policy = chance.choice(IDS)
        return {"do": kind, "id": policy}, lambda at: model.delete(at, (policy,))
    if kind == "put_entity":
        return random_entity(chance, model)
    if kind == "delete_entity":
        uid = chance.choice(UIDS)
        return {"do": kind, "uid": uid_json(uid)}, lambda at: model.delete(at, uid)
    if kind == "authorize":
        request = {"principal": 'User::"x"', "action": 'Action::"view"', "resource": 'Doc::"d"'}
        return {"do": kind, "request": request}, lambda at: None
    if kind == "summary":
        return {"do": kind}, model.summary
    if kind == "offer":
        return {"do": kind}, model.offer
    if kind == "offer_delta":
        number = chance.randrange(len(model.summaries))
        return {"do": kind, "summary": number}, lambda at: model.offer(at, number)
    number = chance.randrange(len(model.messages))
    return {"do": kind, "message": number}, lambda at: model.deliver(at, number)


def random_entity(chance, model):
    """Returns an entity to put, in groups other than itself."""
    uid = chance.choice(UIDS)
    groups = [other for other in UIDS if other[0] == "Group" and other != uid]
    parents = chance.sample(groups, chance.randrange(3))
    entity = {"uid": uid_json(uid), "parents": [uid_json(parent) for parent in parents]}
    return {"do": "put_entity", "entity": entity}, lambda at: model.put_entity(at, uid, parents)


def random_script(chance, model, events=1000):
    """Returns a script of random events, after which each site offers its state and merges all of these; and the model's
    output for each line, None for an answer to a request."""
    lines, told = [], []

    def add(at, line, does):
        lines.append(compact({**line, "site": at + 1}))
        told.append(does(at))

    sites = range(len(model.stores))
    for _ in range(events):
        add(chance.choice(sites), *random_event(chance, model))
    for at in sites:
        add(at, {"do": "offer"}, model.offer)
    last = range(len(model.messages) - len(sites), len(model.messages))
    for at in sites:
        for number in chance.sample(last, len(last)):
            add(at, {"do": "deliver", "message": number}, lambda at, number=number: model.deliver(at, number))
    return "".join(f"{line}\n" for line in lines), told


KINDS = {"drill": Drills}
