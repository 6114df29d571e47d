"""Kinds of rows for served sites: entities, decimals, addresses, summaries, messages, sites and streams of bytes.

A site is a process, `serve` on a free loopback port, with an empty store. Requests share one connection, except in rows
about the bytes of a connection. An error is its code, its place and the code within, `-` if absent. Used by
tests/rows.
"""
import json
import os
import re
import select
import socket
import subprocess
import threading
import time
import urllib.parse

from rows.texts import Kind, expanded, rows_of

HOST = "127.0.0.1"
# in seconds: how long a site may take to listen, to answer or to end
PATIENCE = 180.0
# how often another port is tried if one is taken
PORTS = 20
BAD_ROW = "bad row"
# the status of a reply by the code of its error; for all other codes it is 422
STATUSES = {1: 503, 60: 404, 61: 409, 62: 409}


# ---- processes


class NotBegun(Exception):
    """A site that does not listen: the status of its process, and what it wrote on standard error."""

    def __init__(self, status, told):
        super().__init__(f"the site ended with status {status}: {told}")
        self.status, self.told = status, told


class Processes:
    """The processes that a table has started, with these variables. After they are ended no other is started."""

    def __init__(self, **variables):
        self.lock, self.running, self.is_over = threading.Lock(), set(), False
        self.environment = {**os.environ, **variables}

    def start(self, words):
        """Starts a process."""
        with self.lock:
            if self.is_over:
                raise RuntimeError("the table is at its end")
            pipe = subprocess.PIPE
            how = {"stdin": subprocess.DEVNULL, "stdout": pipe, "stderr": pipe, "env": self.environment}
            process = subprocess.Popen(words, **how)
            self.running.add(process)
        return process

    def end(self, process):
        """Ends a process, and gives its status and what it wrote on standard error."""
        with self.lock:
            self.running.discard(process)
        process.kill()
        _, told = process.communicate(timeout=PATIENCE)
        return process.returncode, told.decode(errors="replace").removesuffix("\n")

    def close(self):
        """Ends all."""
        with self.lock:
            self.is_over, left = True, list(self.running)
            self.running.clear()
        for process in left:
            process.kill()
            process.wait(PATIENCE)


def free_port():
    """Returns a free port."""
    with socket.socket() as found:
        found.bind((HOST, 0))
        return found.getsockname()[1]


def first_line(process):
    """Returns the first line that a process writes, or its part if the process ends."""
    line, until = b"", time.monotonic() + PATIENCE
    while not line.endswith(b"\n"):
        ready, _, _ = select.select([process.stdout], [], [], max(0.0, until - time.monotonic()))
        if not ready:
            raise TimeoutError("expected the line `listening`, got none")
        part = process.stdout.read1(4096)
        if not part:
            # it has closed its output, so it is about to end
            process.wait(PATIENCE)
            break
        line += part
    return line.decode(errors="replace").removesuffix("\n")


def listening(processes, program, schema, name, *more, before=()):
    """Starts a site of this name under the schema of this file, with these words more, behind those of what starts it
    if that is another program, and gives its process and its port."""
    for _ in range(PORTS):
        port = free_port()
        address = f"{HOST}:{port}"
        words = [*before, program, "serve", "--schema", schema, "--site", name, "--listen", address, *more]
        process = processes.start(words)
        if first_line(process) == f"listening {address}":
            return process, port
        status, told = processes.end(process)
        if told != f"fault: {address}":
            raise NotBegun(status, told)
    raise TimeoutError("expected a free port, got none")


# ---- requests and replies


class Reply:
    """A reply: its status, and its body."""

    def __init__(self, status, body):
        self.status, self.body = status, body

    @property
    def text(self):
        """Returns the body as a text."""
        return self.body.decode()

    @property
    def json(self):
        """Returns the body, read."""
        return json.loads(self.body)

    @property
    def is_given(self):
        """Returns whether it is an answer, not an error."""
        return self.status == 200

    def refusal(self):
        """Returns the error, and the status if it is not that of its code."""
        told, code = refusal_of(self.body)
        return told if self.status == STATUSES.get(code, 422) else f"{told} with status {self.status}"

    def message(self):
        """Returns a message with its length in bytes, or the error."""
        return f"{len(self.body)} bytes {self.text}" if self.is_given else self.refusal()


def refusal_of(line):
    """Returns code, place and inner code of an error line, as a text, and the code."""
    error = json.loads(line)["error"]
    told = ("-" if error[key] is None else str(error[key]) for key in ("code", "place", "within"))
    return " ".join(told), error["code"]


def request(method, path, body=None):
    """Returns the bytes of a request."""
    length = b"" if body is None else b"Content-Length: %d\r\n" % len(body)
    return f"{method} {path} HTTP/1.1\r\n".encode() + length + b"\r\n" + (body or b"")


# a request that each site answers by 404, and the end of the reply
NOWHERE = request("GET", "/nowhere")
NOT_FOUND = b'{"error":{"code":404,"place":null,"within":null}}'


def policy_path(policy):
    """Returns the path of a policy, by the bytes of its id."""
    return "/v1/policies/" + urllib.parse.quote(policy, safe="")


def connected(port):
    """Returns a connection to a site, which sends at once."""
    link = socket.create_connection((HOST, port), timeout=PATIENCE)
    link.setsockopt(socket.IPPROTO_TCP, socket.TCP_NODELAY, 1)
    return link


class Site:
    """A served site that started with an empty store, and a kept connection, which may be idle for ever."""

    def __init__(self, processes, program, schema, name):
        self.processes = processes
        self.process, self.port = listening(processes, program, schema, name, "--idle", "0")
        self.link = self.incoming = None

    def asked(self, requests):
        """Returns the replies to requests that are sent together."""
        if self.link is None:
            self.link = connected(self.port)
            self.incoming = self.link.makefile("rb")
        self.link.sendall(b"".join(requests))
        return [self.reply() for _ in requests]

    def reply(self):
        """Returns the next reply."""
        first = self.incoming.readline().split(b" ")
        if len(first) < 2:
            raise ConnectionError("expected a reply, got the end of the connection")
        length = 0
        while (line := self.incoming.readline()) not in (b"\r\n", b""):
            name, _, value = line.partition(b":")
            if name.lower() == b"content-length":
                length = int(value)
        return Reply(int(first[1]), self.incoming.read(length))

    def given(self, requests):
        """Returns how many of these requests, sent together, are answered by 200.

        It counts them in the received bytes, which is faster than parsing each reply.
        """
        self.asked([])
        self.link.sendall(b"".join([*requests, NOWHERE]))
        came = bytearray()
        while not came.endswith(NOT_FOUND):
            part = self.incoming.read1(65536)
            if not part:
                raise ConnectionError("expected a reply, got the end of the connection")
            came += part
        return came.count(b"HTTP/1.1 200 OK\r\n")

    def ask(self, method, path, body=None):
        """Returns the reply to one request."""
        return self.asked([request(method, path, body)])[0]

    def state(self):
        """Returns the state."""
        return self.ask("GET", "/v1/state")

    def end(self):
        """Ends the site."""
        if self.link is not None:
            self.incoming.close()
            self.link.close()
        self.processes.end(self.process)


class Served(Kind):
    """Rows that sites answer."""

    def __init__(self, program, room):
        super().__init__(program, room)
        self.processes = Processes()
        self.schema = f"{room}/schema"

    def begin(self, schema, name="1"):
        """Starts a site of this name under a schema, with an empty store."""
        with open(self.schema, "wb") as file:
            file.write(schema)
        return Site(self.processes, self.program, self.schema, name)

    def close(self):
        """Ends the sites."""
        self.processes.close()


# ---- entities


class Entities(Served):
    """Entities that are put at a site, one after another; each is deleted before the next one.

    `under` sets the schema of later rows. The outcome of `entity` is the canonical text of the entity, as the site's state
    has it, or the code of the error. That text is put too, and must be in the state again.
    """

    def __init__(self, program, room):
        super().__init__(program, room)
        self.site = None

    def row_outcome(self, word, text):
        """Returns the outcome of one row."""
        if word == "under":
            return self.under(expanded(text))
        if word == "entity" and self.site is not None:
            return self.put(expanded(text))
        return BAD_ROW

    def under(self, schema):
        """Starts a site under this schema."""
        if self.site is not None:
            self.site.end()
        self.site = self.begin(schema)
        return "given"

    def put(self, entity):
        """Puts an entity, and then its canonical text."""
        reply = self.site.ask("PUT", "/v1/entities", entity)
        if not reply.is_given:
            return reply.refusal().removesuffix(" - -")
        text, uid = self.stored(reply)
        again = self.site.ask("PUT", "/v1/entities", text.encode())
        is_same = again.is_given and self.stored(again) == (text, uid)
        gone = self.site.ask("POST", "/v1/entities/delete", json.dumps(uid).encode())
        if not gone.is_given:
            return f"{text} is not taken away: {gone.refusal()}"
        return text if is_same else f"{text} is not read back"

    def stored(self, reply):
        """Returns the text and the uid of the entity with this stamp in the state."""
        stamp = reply.json
        entries = [it for it in self.site.state().json["entries"] if all(it[key] == stamp[key] for key in stamp)]
        if len(entries) != 1:
            raise ValueError(f"expected one entry of the stamp {stamp}, got {len(entries)}")
        return entries[0]["body"], entries[0]["name"]["entity"]


class Extensions(Entities):
    """Decimals and addresses, each put as the attribute of an entity. The outcome is the canonical text of its value."""

    TYPES = {"decimal": "decimal", "address": "ipaddr"}
    FUNCTIONS = {"decimal": "decimal", "address": "ip"}

    def row_outcome(self, word, text):
        """Returns the outcome of one row."""
        if word not in self.TYPES:
            return BAD_ROW
        if self.site is None:
            self.under(self.schema_text())
        value = {"__extn": {"fn": self.FUNCTIONS[word], "arg": expanded(text).decode()}}
        came = self.put(json.dumps({"uid": {"type": "T", "id": "t"}, "attrs": {word: value}}).encode())
        return f"no {word}" if came == "35" else self.argument(word, came)

    def schema_text(self):
        """Returns a schema whose entities may have an attribute of each of these types."""
        attributes = {key: {"type": "Extension", "name": it, "required": False} for key, it in self.TYPES.items()}
        types = {"T": {"shape": {"type": "Record", "attributes": attributes}}}
        return json.dumps({"": {"entityTypes": types, "actions": {}}}).encode()

    def argument(self, word, came):
        """Returns the canonical text of the value within that of the entity, or else the outcome."""
        try:
            told = json.loads(came)["attrs"][word]["__extn"]
            return told["arg"] if told["fn"] == self.FUNCTIONS[word] else came
        except (ValueError, KeyError, TypeError):
            return came


# ---- messages


def label_of(site):
    """Returns the label of a site's schema."""
    return site.state().json["schema"]


def message(kind, label, **parts):
    """Returns the bytes of a message with these entries or stamps."""
    whole = {"kind": kind, "schema": label, "version": 2, **parts}
    return json.dumps(whole, ensure_ascii=False).encode()


def tombstone(stamp):
    """Returns the entry of a name that was deleted, with the name and the stamp of a stamp in a summary."""
    return {"body": None, **stamp}


# the bytes that a site's name may have, ascending, and how many it may have
SITE_BYTES = "-.0123456789ABCDEFGHIJKLMNOPQRSTUVWXYZ_abcdefghijklmnopqrstuvwxyz"
LONGEST_SITE = 32


def next_site(site):
    """Returns the next greater name of a site, or None."""
    if len(site) < LONGEST_SITE:
        return site + SITE_BYTES[0]
    kept = site.rstrip(SITE_BYTES[-1])
    return kept[:-1] + SITE_BYTES[SITE_BYTES.index(kept[-1]) + 1] if kept else None


def next_stamp(stamp):
    """Returns the next greater stamp of the same name."""
    site = next_site(stamp["site"])
    if site is not None:
        return {**stamp, "site": site}
    return {**stamp, "count": stamp["count"] + 1, "site": SITE_BYTES[0]}


def raised(stamp):
    """Returns a stamp of version 1, of a site with a number, as one of version 2: the site's name is five digits."""
    return {**stamp, "site": f"{stamp['site']:05}"}


class Summaries(Served):
    """Summaries for which a site under the schema `{}` makes a delta.

    The outcome of an accepted one is the number of its stamps, if three deltas are right. A site with an empty store has
    no entry for it. One with deletions of exactly its names and stamps, and of one name more, has one entry. If each of
    these deletions has the next greater stamp, the delta has them all. In a summary of version 1 the number of a site is
    read as five digits.
    """

    SCHEMA = b"{}"
    OTHER = {"count": 1, "name": {"policy": "another name"}, "site": "1"}

    def __init__(self, program, room):
        super().__init__(program, room)
        self.empty = self.label = None

    def row_outcome(self, word, text):
        """Returns the outcome of one row."""
        if word != "summary":
            return BAD_ROW
        if self.empty is None:
            self.empty = self.begin(self.SCHEMA)
            self.label = label_of(self.empty)
        summary = expanded(text)
        reply = self.empty.ask("POST", "/v1/delta", summary)
        if not reply.is_given:
            return reply.refusal()
        nothing = {"entries": [], "kind": "delta", "schema": self.label, "version": 2}
        if reply.text != json.dumps(nothing, separators=(",", ":")):
            return f"expected an empty delta of an empty store, got {reply.text}"
        return self.stamps_of(summary)

    def stamps_of(self, summary):
        """Returns the number of stamps that the site reads from a summary, if they are those of the summary."""
        whole = json.loads(summary)
        stamps = [raised(it) for it in whole["stamps"]] if whole["version"] == 1 else whole["stamps"]
        site = self.begin(self.SCHEMA)
        try:
            left = self.delta_of(site, stamps, summary)
            all_of_them = self.delta_of(site, [next_stamp(it) for it in stamps], summary)
        finally:
            site.end()
        if tombstone(self.OTHER) not in left:
            return f"expected the entry of a name that the summary lacks, got {left}"
        if len(all_of_them) != len(stamps) + 1:
            return f"expected {len(stamps) + 1} entries with greater stamps, got {all_of_them}"
        return f"{len(stamps) + 1 - len(left)} stamps"

    def delta_of(self, site, stamps, summary):
        """Returns the delta of a site that merged deletions of these stamps, and of one name more."""
        entries = [tombstone(it) for it in [*stamps, self.OTHER]]
        taken = site.ask("POST", "/v1/merge", message("delta", self.label, entries=entries))
        if taken.text != f'{{"taken":{len(entries)}}}':
            raise ValueError(f"expected the deletions to be merged, got {taken.text}")
        return site.ask("POST", "/v1/delta", summary).json["entries"]


# the head of a policy's text: blanks, comments and annotations, and then its effect
EFFECT = re.compile(r'(?:\s|//[^\n]*|@\s*\w+\s*(?:\(\s*"(?:[^"\\]|\\.)*"\s*\))?)*(permit|forbid)\b')


class Messages(Served):
    """Messages between sites.

    - `under`: sets the schema of later rows and starts a site with an empty store; prints the schema's label.
    - `read`: the updates of a state or a delta, in the order of their names, each with its name, its stamp, and the
      effect of a policy, or the text of an entity. `merge` of the message and an empty state prints them, and another
      site with an empty store that merges the message has the same state.
    - `take`: how many updates of a state or a delta the site applied.
    - `empty`: starts a site with an empty store.
    - `state`, `summary`: the site's message, with its length in bytes.
    - `delta`: the site's delta for the summary in the text.
    """

    def __init__(self, program, room):
        super().__init__(program, room)
        self.declared = self.label = self.site = self.other = None

    def row_outcome(self, word, text):
        """Returns the outcome of one row."""
        if word == "under":
            return self.under(expanded(text))
        if self.site is None:
            return BAD_ROW
        match word:
            case "read":
                return self.read(expanded(text))
            case "take":
                return self.take(expanded(text))
            case "empty":
                self.site = self.another(self.site)
                return "empty"
            case "state" | "summary":
                return self.site.ask("GET", f"/v1/{word}").message()
            case "delta":
                return self.site.ask("POST", "/v1/delta", expanded(text)).message()
        return BAD_ROW

    def another(self, site):
        """Returns a site with an empty store, in place of another one."""
        if site is not None:
            site.end()
        return self.begin(self.declared)

    def under(self, schema):
        """Sets the schema of later rows."""
        self.declared = schema
        self.site, self.other = self.another(self.site), self.another(self.other)
        self.label = label_of(self.site)
        return self.label

    def take(self, text):
        """Posts a message to the site."""
        reply = self.site.ask("POST", "/v1/merge", text)
        return f"{reply.json['taken']} taken" if reply.is_given else reply.refusal()

    def merged(self, text):
        """Returns the state that `merge` prints for a message and an empty state, or the error."""
        paths = [f"{self.room}/message", f"{self.room}/nothing"]
        for path, content in zip(paths, (text, message("state", self.label, entries=[]))):
            with open(path, "wb") as file:
                file.write(content)
        words = [self.program, "merge", "--schema", self.schema, *paths]
        ran = subprocess.run(words, stdin=subprocess.DEVNULL, capture_output=True, timeout=PATIENCE, check=False)
        if ran.returncode == 0:
            return ran.stdout.removesuffix(b"\n")
        if ran.returncode == 1:
            return refusal_of(ran.stderr)[0]
        raise ValueError(f"merge: expected status 0, got {ran.returncode}: {ran.stderr!r}")

    def read(self, text):
        """Returns the updates of a message, as shown by a state and the number of updates."""
        by_files, empty = self.merged(text), self.other.state().body
        reply = self.other.ask("POST", "/v1/merge", text)
        state = self.other.state().body
        by_site = state if reply.is_given else reply.refusal()
        if by_files != by_site:
            return f"merge: {by_files}; a site: {by_site}"
        if not reply.is_given:
            return by_site if state == empty else f"{by_site}, and yet the state is another: {state}"
        told = [f"{reply.json['taken']} updates", *map(self.update, json.loads(state)["entries"])]
        if state != empty:
            self.other = self.another(self.other)
        return "; ".join(told)

    def update(self, entry):
        """Returns an entry of the other site, as the row prints it."""
        stamp = f"({entry['count']}, {entry['site']})"
        policy = entry["name"].get("policy")
        if policy is None:
            uid = entry["name"]["entity"]
            name, body = uid["type"] + "::" + quoted(uid["id"]), entry["body"]
        else:
            name, body = quoted(policy), self.effect(policy, entry["body"])
        return f"{name} {stamp} {'nothing' if body is None else body}"

    # a user, and her request, to whom each policy of the rows applies that some request satisfies
    USER = b'{"uid":{"type":"User","id":"zoe"},"attrs":{"name":"Zoe","age":9}}'
    ASKS = (b'{"principal":"User::\\"zoe\\"","action":"Action::\\"view\\"","resource":"Doc::\\"d\\"",'
            b'"context":{"src":"10.0.0.1"}}')

    def effect(self, policy, text):
        """Returns the effect of a policy by its text or, if a request satisfies the policy, by the decision."""
        if text is None:
            return None
        said = EFFECT.match(text)
        said = said[1] if said else "no effect"
        self.other.ask("PUT", "/v1/entities", self.USER)
        answer = self.other.ask("POST", "/v1/authorize", self.ASKS)
        if answer.is_given and policy in answer.json["reason"]:
            shown = "permit" if answer.json["decision"] == "Allow" else "forbid"
            return said if said == shown else f"{said}, decided as {shown}"
        return said


def quoted(text):
    """Returns a text within quotes, with what JSON escapes."""
    return json.dumps(text, ensure_ascii=False)


# ---- sites


def given_stamp(reply):
    """Returns the stamp of a change, and whether the policy is impossible."""
    if not reply.is_given:
        return f"refused {reply.refusal()}"
    told = reply.json
    return f"({told['count']}, {told['site']})" + (" impossible" if told.get("impossible") else "")


def found_policy(reply):
    """Returns the stamp and the text of a policy, or `none`."""
    if reply.is_given:
        return f"({reply.json['count']}, {reply.json['site']}) {reply.json['text']}"
    told = reply.refusal()
    return "none" if told == "60 - -" else f"refused {told}"


def given_message(reply):
    """Returns a message that was asked for."""
    return reply.message() if reply.is_given else f"refused {reply.refusal()}"


def given_count(reply):
    """Returns the number of merged updates."""
    return f"taken {reply.json['taken']}" if reply.is_given else f"refused {reply.refusal()}"


def given_answer(reply):
    """Returns the answer to a request."""
    return reply.text if reply.is_given else f"refused {reply.refusal()}"


def input_of(text):
    """Returns the request of an input, and a function that prints its reply, or None."""
    word, _, about = text.partition(" ")
    first, _, rest = about.partition(" ")
    match word:
        case "put_policy":
            return request("PUT", policy_path(expanded(first)), expanded(rest)), given_stamp
        case "delete_policy":
            return request("DELETE", policy_path(expanded(about))), given_stamp
        case "get_policy":
            return request("GET", policy_path(expanded(about))), found_policy
        case "put_entity":
            return request("PUT", "/v1/entities", expanded(about)), given_stamp
        case "delete_entity":
            uid = {"type": first, "id": expanded(rest).decode()}
            return request("POST", "/v1/entities/delete", json.dumps(uid).encode()), given_stamp
        case "take":
            return request("POST", "/v1/merge", expanded(about)), given_count
        case "authorize":
            return request("POST", "/v1/authorize", expanded(about)), given_answer
        case "delta":
            return request("POST", "/v1/delta", expanded(about)), given_message
        case "state" | "summary":
            return request("GET", f"/v1/{word}"), given_message
    return None


class Sites(Served):
    """Sites, each by its name, and inputs to them.

    - `under SCHEMA`: sets the schema of the sites that later rows start.
    - `start NAME`: starts a site of this name with an empty store, in place of an earlier one; prints the schema's
      label. If the command starts none, for its arguments or the schema, it is a bad row.
    - `NAME INPUT`: the reply of the site of this name. Several inputs, separated by ` ¶ `, are sent together. An input is a word and its text: `put_policy ID TEXT`,
      `delete_policy ID`, `put_entity JSON`, `delete_entity TYPE ID`, `take MESSAGE`, `authorize JSON`, `get_policy ID`,
      `state`, `summary`, `delta SUMMARY`.

    The program `test_sites` prints the same table. Its other rows, of contexts, worlds, streams, inputs that end early and
    measures, are skipped here.
    """

    BETWEEN = " ¶ "
    OTHERS = ("context", "cuts", "logs", "network", "prefixes", "reads", "says", "serve", "standing", "together", "tried", "world", "writes")

    @staticmethod
    def rows_of(table):
        """Returns the rows of sites in the text of a table."""
        return [row for row in rows_of(table) if row.word not in Sites.OTHERS]

    def __init__(self, program, room):
        super().__init__(program, room)
        self.declared, self.started = b"", {}

    def row_outcome(self, word, text):
        """Returns the outcome of one row."""
        if word == "under":
            self.declared = text.encode()
            return "given"
        if word == "start":
            return self.start(text)
        inputs = [input_of(it) for it in text.split(self.BETWEEN)]
        if word not in self.started or None in inputs:
            return BAD_ROW
        replies = self.started[word].asked([it for it, _ in inputs])
        return self.BETWEEN.join(told(reply) for reply, (_, told) in zip(replies, inputs))

    def start(self, name):
        """Starts a site."""
        if name in self.started:
            self.started.pop(name).end()
        try:
            site = self.begin(self.declared, name)
        except NotBegun as fault:
            if fault.status == 2 or (fault.status == 1 and refusal_of(fault.told)[0] == "20 - -"):
                return BAD_ROW
            raise
        self.started[name] = site
        return label_of(site)


# ---- streams


ESCAPES = {"r": b"\r", "n": b"\n", "t": b"\t", "f": b"\xff", "k": b"abcdefghijklmnopqrstuvwxyzabcdef" * 32}


def unescaped(text):
    """Returns the bytes of a stream's text."""
    return b"".join(
        ESCAPES.get(it[1], it[1].encode()) if it[0] == "\\" else it.encode() for it in re.findall(r"\\.|[^\\]", text)
    )


def shown(came):
    """Returns bytes as a line of text."""
    return came.decode("latin-1").replace("\r", "\\r").replace("\n", "\\n")


def to_end(link):
    """Returns all bytes of a connection."""
    parts = []
    try:
        while part := link.recv(65536):
            parts.append(part)
    except ConnectionResetError:
        pass  # it ended with bytes that it did not read
    return b"".join(parts)


# in seconds: what is left between the parts of a stream, so that each is read by itself
PAUSE = 0.0005


def sent(port, *parts):
    """Returns the reply to a stream that is sent in these parts."""
    with connected(port) as link:
        try:
            link.sendall(parts[0])
            for part in parts[1:]:
                time.sleep(PAUSE)
                link.sendall(part)
            link.shutdown(socket.SHUT_WR)
        except TimeoutError:
            raise
        except OSError:
            pass  # it has ended the connection, and answered before
        return to_end(link)


class Streams(Served):
    """Bytes that are sent to a site over one connection, and its output.

    - `under TEXT`: sets the schema of later rows.
    - `site NAME`: starts a site of this name for later rows, with an empty store.
    - `serve TEXT`: the output for this stream; the site keeps the resulting store.
    - `cut TEXT`: the same at another site with an empty store. Output and resulting state must be the same however the
      text is cut in two, and if it comes byte by byte; else the outcome is `differs`.
    - `ended TEXT`: the positions at which a text that ends there has more output than one that ends a byte before, each
      time at a site with an empty store; and those at which the resulting state changes.
    """

    STATE = request("GET", "/v1/state")

    def __init__(self, program, room):
        super().__init__(program, room)
        self.declared, self.name, self.site = b"", "1", None
        self.tried_at, self.nothing = None, None

    def row_outcome(self, word, text):
        """Returns the outcome of one row."""
        match word:
            case "under":
                self.declared = unescaped(text)
                self.leave()
                return "kept"
            case "site":
                return self.give(text)
            case "serve":
                return "no site" if self.site is None else shown(sent(self.site.port, unescaped(text)))
            case "cut":
                return self.cut(unescaped(text))
            case "ended":
                return self.ended(unescaped(text))
        return BAD_ROW

    def leave(self):
        """Ends the rows' site, and the other one."""
        for site in (self.site, self.tried_at):
            if site is not None:
                site.end()
        self.site = self.tried_at = None

    def give(self, name):
        """Starts a site for later rows."""
        self.leave()
        self.name = name
        try:
            self.site = self.begin(self.declared, name)
        except NotBegun as fault:
            if fault.status in (1, 2):
                return "no site"
            raise
        return "empty"

    def tried(self, *parts):
        """Returns the output of a site with an empty store, and its state afterwards."""
        if self.tried_at is None:
            self.tried_at = self.begin(self.declared, self.name)
            self.nothing = sent(self.tried_at.port, self.STATE)
        came, state = sent(self.tried_at.port, *parts), sent(self.tried_at.port, self.STATE)
        if state != self.nothing:
            self.tried_at.end()
            self.tried_at = None
        return came, state

    def cut(self, text):
        """Returns the output, however the text is split."""
        whole = self.tried(text)
        ways = [(text[:at], text[at:]) for at in range(1, len(text))]
        ways.append([text[at : at + 1] for at in range(len(text))])
        return shown(whole[0]) if all(self.tried(*parts) == whole for parts in ways) else "differs"

    def ended(self, text):
        """Returns the positions at which output is added, and those at which the state changes."""
        ends = [self.tried(text[:at]) for at in range(len(text) + 1)]
        more = [at for at in range(1, len(ends)) if ends[at][0] != ends[at - 1][0]]
        changes = [at for at in range(1, len(ends)) if ends[at][1] != ends[at - 1][1]]
        return "more at" + "".join(f" {at}" for at in more) + ", changed at" + "".join(f" {at}" for at in changes)


KINDS = {
    "entities": Entities,
    "extensions": Extensions,
    "summaries": Summaries,
    "messages": Messages,
    "sites": Sites,
    "streams": Streams,
}
