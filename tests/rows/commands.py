"""Kinds of rows for the commands `check`, `decide`, `merge`, `pull` and `exchange`, and for command lines.

The outcome of a row is the program's output, with a matching status. An unknown word, or a text of another form than
its word takes, gives `bad row`. Used by tests/rows.
"""
import hashlib
import json
import os
import re
import shlex
import socket
import subprocess
import sys
import threading

from rows.sites import Processes, Site, policy_path
from rows.texts import Kind, Row, expanded, printed

SECONDS = 240
SMALLEST_REQUEST = b'{"principal":"User::\\"alice\\"","action":"Action::\\"view\\"","resource":"Doc::\\"d\\""}'
EMPTY_SCHEMA = b"{}"
# Ends in the program: each stream takes ten bytes, and a write beyond them fails and sends no signal.
SHORT_STREAMS = """
import os, resource, signal, sys
signal.signal(signal.SIGXFSZ, signal.SIG_IGN)
resource.setrlimit(resource.RLIMIT_FSIZE, (10, 10))
os.execv(sys.argv[1], ["cedar_site", *sys.argv[2:]])
"""


class Run:
    """The status of a run, and what it wrote."""

    def __init__(self, status, answers, faults):
        self.status, self.answers, self.faults = status, answers, faults

    def line(self):
        """Returns the answer line, for status 0, or the error line, for status 1; else the whole outcome."""
        if self.status == 0 and not self.faults:
            return printed(self.answers)
        if self.status == 1 and not self.answers:
            return printed(self.faults)
        return self.whole()

    def whole(self):
        """Returns the status, and the output of each stream as JSON."""
        return f"{self.status} {quoted(self.answers)} {quoted(self.faults)}"

    def refusal(self):
        """Returns the code, place and code within of the error line, or None without an error."""
        if self.status != 1 or self.answers or not self.faults.startswith(b'{"error":'):
            return None
        error = json.loads(self.faults)["error"]
        return error["code"], error["place"], error["within"]


class Program:
    """The program, run in a folder, one run after another. If the runner ends, a run in progress ends too."""

    def __init__(self, path, room):
        self.path, self.room = path, room
        self.lock, self.over, self.going = threading.Lock(), False, set()

    def start(self, words, **how):
        """Starts the program, or another one that ends in it."""
        with self.lock:
            if self.over:
                raise RuntimeError("the runner is ending")
            process = subprocess.Popen(words, cwd=self.room, stdin=subprocess.DEVNULL, **how)
            self.going.add(process)
        return process

    def wait(self, process):
        """Waits until a run ends. Returns its status and what it wrote on pipes."""
        try:
            answers, faults = process.communicate(timeout=SECONDS)
        finally:
            self.end(process)
        return Run(process.returncode, answers, faults)

    def run(self, *words):
        """Returns a run of the program with these arguments."""
        whole = ["cedar_site", *words]
        return self.wait(self.start(whole, executable=self.path, stdout=subprocess.PIPE, stderr=subprocess.PIPE))

    def run_short(self, *words):
        """Returns the status of a run whose streams are files that take ten bytes each."""
        whole = [sys.executable, "-c", SHORT_STREAMS, self.path, *words]
        with open(f"{self.room}/answers.short", "wb") as answers, open(f"{self.room}/faults.short", "wb") as faults:
            return self.wait(self.start(whole, stdout=answers, stderr=faults)).status

    def end(self, process):
        """Ends a run that is in progress."""
        if process.poll() is None:
            process.kill()
            process.wait()
        with self.lock:
            self.going.discard(process)

    def close(self):
        """Ends the run in progress, and starts no other."""
        with self.lock:
            self.over, going = True, list(self.going)
        for process in going:
            self.end(process)

    def lay(self, **texts):
        """Writes files into the folder, by their names."""
        for name, text in texts.items():
            with open(f"{self.room}/{name}", "wb") as file:
                file.write(text)


class Commands(Kind):
    """What all kinds of this file have: the program, and a method for each word, which is called `of_` and the word."""

    def __init__(self, program, room):
        super().__init__(program, room)
        self.cedar = Program(program, room)

    def row_outcome(self, word, text):
        answer = getattr(self, f"of_{word}", None)
        return answer(text) if answer else "bad row"

    def close(self):
        self.cedar.close()


def quoted(written):
    """Returns what was written as JSON, letters beyond ASCII as they are."""
    return json.dumps(written.decode(errors="replace"), ensure_ascii=False)


def compact(value):
    """Returns the compact text of JSON, keys ascending."""
    return json.dumps(value, ensure_ascii=False, separators=(",", ":"), sort_keys=True)


def policy_when(condition):
    """Returns a policy with this condition."""
    return b"permit(principal, action, resource) when { " + condition + b" };"


def code_at(refusal):
    """Returns the code of an error, and its place if it has one."""
    code, place, _ = refusal
    return f"{code}" if place is None else f"{code} at {place}"


def text_of(value):
    """Returns the bytes of a text, or the compact text of other JSON."""
    return expanded(value) if isinstance(value, str) else compact(value).encode()


def object_of(text):
    """Returns the JSON object that a text is, or None."""
    try:
        value = json.loads(text)
    except ValueError:
        return None
    return value if isinstance(value, dict) else None


class Policies(Commands):
    """Texts that are parsed: `ok`, or the code and the place of the error.

    - `condition`: the condition of a policy, for `decide`; `ok` whatever the answer is.
    - `policy`: a policy that is put at a site; `ok` also if it does not pass validation (40 to 46).
    - `file`: a file of policies, for `check`: `N policies` by the number of its lines, whatever the verdicts are.
    """

    def __init__(self, program, room):
        super().__init__(program, room)
        self.cedar.lay(schema=EMPTY_SCHEMA, entities=b"[]", request=SMALLEST_REQUEST)
        self.processes, self.site = Processes(), None

    def of_condition(self, text):
        self.cedar.lay(policies=policy_when(expanded(text)))
        ran = self.cedar.run("decide", "--policies", "policies", "--entities", "entities", "--request", "request")
        refusal = ran.refusal()
        if refusal:
            return code_at(refusal)
        return "ok" if ran.line().startswith('{"cycle":') else ran.whole()

    def of_file(self, text):
        self.cedar.lay(policies=expanded(text))
        ran = self.cedar.run("check", "--schema", "schema", "policies")
        refusal = ran.refusal()
        if refusal:
            return code_at(refusal)
        lines = ran.answers.splitlines()
        told = [json.loads(line)["verdict"] for line in lines]
        fits = ran.status == (1 if "refused" in told else 0) and not ran.faults
        return f"{len(lines)} policies" if fits else ran.whole()

    def of_policy(self, text):
        if self.site is None:
            self.site = Site(self.processes, self.program, f"{self.room}/schema", "1")
        reply = self.site.ask("PUT", policy_path("p"), expanded(text))
        if reply.is_given:
            return "ok"
        error = reply.json["error"]
        if reply.status != 422 or error["within"] is not None:
            return f"{reply.status} {reply.text}"
        return "ok" if 40 <= error["code"] <= 46 else code_at((error["code"], error["place"], None))

    def close(self):
        super().close()
        self.processes.close()


class Decisions(Commands):
    """Texts for `decide`: the line of the answer, or of the error.

    - `given`: sets the texts of later rows, from JSON with some of KEYS: each a text, or JSON in place of its compact
      text.
    - `decide`: the row's own `policies`, perhaps with other texts of its own.
    - `when`: a policy with this condition.
    """

    KEYS = ("policies", "entities", "request")

    def __init__(self, program, room):
        super().__init__(program, room)
        self.given = {key: b"" for key in self.KEYS}

    def texts_of(self, text):
        """Returns the texts at the keys of a row, or None if it has other keys."""
        row = object_of(text)
        if row is None or not set(row) <= set(self.KEYS):
            return None
        return {key: text_of(value) for key, value in row.items()}

    def line(self, texts):
        """Returns the output of `decide` for texts, by default those of `given`."""
        self.cedar.lay(**{**self.given, **texts})
        return self.cedar.run("decide", *(word for key in self.KEYS for word in (f"--{key}", key))).line()

    def of_given(self, text):
        texts = self.texts_of(text)
        if texts is None:
            return "bad row"
        self.given.update(texts)
        return "given"

    def of_decide(self, text):
        texts = self.texts_of(text)
        return self.line(texts) if texts and "policies" in texts else "bad row"

    def of_when(self, text):
        return self.line({"policies": policy_when(expanded(text))})


class DecisionsUnderSchema(Decisions):
    """Texts for `decide` under a schema: the words `given_texts` and `decide_under`, like `given` and `decide`."""

    KEYS = ("schema", "policies", "entities", "request")
    of_given_texts, of_decide_under = Decisions.of_given, Decisions.of_decide


class UnderSchema(Commands):
    """Rows under a schema, which `under` sets for later rows: `given` if `check` accepts it, else the code."""

    def __init__(self, program, room):
        super().__init__(program, room)
        self.schema = b""
        self.cedar.lay(nothing=b"")

    def taken(self, schema):
        """Returns the outcome of `check` for a file without policies under this schema: `given`, or the code."""
        self.schema = schema
        self.cedar.lay(schema=schema)
        ran = self.cedar.run("check", "--schema", "schema", "nothing")
        if (ran.status, ran.answers, ran.faults) == (0, b"", b""):
            return "given"
        refusal = ran.refusal()
        return code_at(refusal) if refusal else ran.whole()

    def of_under(self, text):
        return self.taken(expanded(text))


class Requests(UnderSchema):
    """Requests that `decide` rejects, without policies and entities: the code.

    - `request`: the request.
    - `context`: a request with this `action` and `context`; principal and resource are of types that the first action of
      the schema applies to.
    """

    def __init__(self, program, room):
        super().__init__(program, room)
        self.cedar.lay(entities=b"[]")

    def code(self, request):
        """Returns the code with which a request is rejected."""
        self.cedar.lay(request=request)
        words = ("--schema", "schema", "--policies", "nothing", "--entities", "entities", "--request", "request")
        ran = self.cedar.run("decide", *words)
        refusal = ran.refusal()
        return code_at(refusal) if refusal else ran.line()

    def of_request(self, text):
        return self.code(expanded(text))

    def of_context(self, text):
        row = object_of(text)
        if row is None or set(row) != {"action", "context"}:
            return "bad row"
        principal, resource = self.types()
        row["principal"], row["resource"] = {"type": principal, "id": "p"}, {"type": resource, "id": "r"}
        return self.code(compact(row).encode())

    def types(self):
        """Returns the first principal and resource types of an action of the schema."""
        for space in json.loads(self.schema).values():
            for action in space.get("actions", {}).values():
                applies = action.get("appliesTo")
                if applies:
                    return applies["principalTypes"][0], applies["resourceTypes"][0]
        raise ValueError("expected an action with an environment in the schema, got none")


class Checks(UnderSchema):
    """Policies for `check`.

    - `check`: a policy; `check_when`: a policy with this condition. The outcome is `accepted`, `impossible` or the code.
    - `check_texts`: the row's own `policies` under its own `schema`: whether some are rejected, by the status, and all
      lines; or the line of the error.
    """

    KEYS = ("schema", "policies")

    def verdict(self, policy):
        """Returns the verdict or code of the one line of `check`."""
        self.cedar.lay(policies=policy)
        ran = self.cedar.run("check", "--schema", "schema", "policies")
        lines = [json.loads(line) for line in ran.answers.splitlines()]
        if len(lines) != 1 or ran.faults:
            return ran.whole()
        verdict = lines[0]["verdict"]
        if ran.status != (1 if verdict == "refused" else 0):
            return ran.whole()
        return str(lines[0]["code"]) if verdict == "refused" else verdict

    def of_check(self, text):
        return self.verdict(expanded(text))

    def of_check_when(self, text):
        return self.verdict(policy_when(expanded(text)))

    def of_check_texts(self, text):
        row = object_of(text)
        if row is None or set(row) != set(self.KEYS):
            return "bad row"
        self.cedar.lay(**{f"own_{key}": text_of(value) for key, value in row.items()})
        ran = self.cedar.run("check", "--schema", "own_schema", "own_policies")
        if ran.faults:
            return ran.line()
        said = {0: "none refused", 1: "some refused"}[ran.status]
        return f"{said} {printed(ran.answers)}".replace("\n", "\\n")


class Stored(UnderSchema):
    """Texts as the body of an entry, in a state that `merge` joins with an empty one.

    The outcome is `valid` if the printed state has that entry, else the code with which it is rejected, or `another
    name`. `stored` has the text of a policy, `stored_when` that of one with this condition, `stored_entity` that of an
    entity, behind its uid as JSON.
    """

    def state(self, entries):
        """Returns the state that has these entries."""
        label = hashlib.sha256(self.schema).hexdigest()
        return compact({"entries": entries, "kind": "state", "schema": label, "version": 2})

    def merged(self, name, body):
        """Returns the outcome of the entry of this name and body."""
        state = self.state([{"body": body, "count": 1, "name": name, "site": "1"}])
        self.cedar.lay(first=state.encode(), second=self.state([]).encode())
        ran = self.cedar.run("merge", "--schema", "schema", "first", "second")
        refusal = ran.refusal()
        if refusal is None:
            return "valid" if ran.line() == state else ran.whole()
        code, place, within = refusal
        if code == 55 and place == 0:
            return str(within)
        return "another name" if refusal == (56, 0, None) else ran.whole()

    def of_stored(self, text):
        return self.merged({"policy": "p"}, expanded(text).decode())

    def of_stored_when(self, text):
        return self.merged({"policy": "p"}, policy_when(expanded(text)).decode())

    def of_stored_entity(self, text):
        uid, _, body = text.partition(" ")
        uid = object_of(uid)
        if uid is None:
            return "bad row"
        return self.merged({"entity": uid.get("__entity", uid)}, body)


class Runs(Commands):
    """Runs of command lines.

    - `file NAME TEXT`: writes a file into the folder of the runs below: `laid`.
    - `run`: the status, and what was written on standard output and standard error, as JSON. An argument with blanks, or
      without bytes, is in quotes.
    - `run_short`: the status of a run in which each stream takes ten bytes and then fails.
    """

    def of_file(self, text):
        name, _, content = text.partition(" ")
        self.cedar.lay(**{name: expanded(content)})
        return "laid"

    def of_run(self, text):
        return self.cedar.run(*shlex.split(text)).whole()

    def of_run_short(self, text):
        return str(self.cedar.run_short(*shlex.split(text)))


class ExplainedRuns(Runs):
    """Runs of commands with the option `--explain`, besides those of `Runs`.

    - `explained COMMAND | FILES`: the run of the command without the option, and how many errors `explain FILES` prints.
      With the option the status and standard output are the same, and standard error has that text after the same line;
      else both runs.
    """

    def of_explained(self, text):
        command, _, files = text.partition(" | ")
        plain = self.cedar.run(*shlex.split(command))
        behind = self.cedar.run("explain", *shlex.split(files)).answers
        wanted = Run(plain.status, plain.answers, plain.faults + behind).whole()
        came = self.cedar.run(*shlex.split(command), "--explain").whole()
        if came != wanted:
            return f"expected {wanted}, got {came}"
        return f"{plain.whole()} and {len(re.findall(rb'^error ', behind, re.M))} explained"


class Block(Row):
    """A row of several lines, which is shown by its title."""

    def shown(self):
        return self.word


class Blocks(Commands):
    """Rows of several lines: `- TITLE`, below it lines `  KEY: VALUE`. The key `gives` has the expected outcome."""

    @staticmethod
    def rows_of(table):
        """Returns the blocks of a table, each with its title as the word and its lines as the text."""
        rows, lines = [], table.split("\n")
        begins = [at for at, line in enumerate(lines) if line.startswith("- ")]
        for at, end in zip(begins, [*begins[1:], len(lines)]):
            values = values_of(lines[at + 1 : end])
            expected = values.pop("gives")
            rows.append(Block(at + 1, lines[at], compact(values), expected))
        return rows

    def row_outcome(self, word, text):
        return self.gives(json.loads(text))

    def gives(self, values):
        """Returns the outcome of a block."""
        raise NotImplementedError


def values_of(lines):
    """Returns the values of a block, by key."""
    parted = [line.strip().partition(":") for line in lines if line.strip() and not line.startswith("#")]
    return {key: value.strip() for key, _, value in parted}


class Merges(Blocks):
    """Two messages that are merged: the state, or the error line."""

    def gives(self, values):
        self.cedar.lay(**{name: expanded(values[name]) for name in ("schema", "first", "second")})
        return self.cedar.run("merge", "--schema", "schema", "first", "second").line()


class Pulls(Blocks):
    """A pull from a peer that gives stated bytes: the number of entries sent and the state file, the error line, or `network`.

    The request must be the stated one. If the pull fails, the state file must stay as it was.
    """

    ADDRESS = "127.0.0.1:7000"

    @staticmethod
    def rows_of(table):
        """Returns the blocks, with `network` for any error of the connection: no command shows which one it is."""
        rows = Blocks.rows_of(table)
        for row in rows:
            if row.expected.startswith("network"):
                row.expected = "network"
        return rows

    def gives(self, values):
        state = f"{self.room}/state"
        if values["state"] != "-":
            self.cedar.lay(state=expanded(values["state"]))
        elif os.path.exists(state):
            os.remove(state)
        self.cedar.lay(schema=values["schema"].encode())
        peer = Peer(bytes_of(values["reader"]))
        words = ("--schema", "schema", "--site", "1", "--from", peer.address, "--state", "state")
        try:
            ran = self.cedar.run("pull", *words)
        finally:
            heard = peer.close()
        return self.told(values, ran, peer.address, heard)

    def told(self, values, ran, address, heard):
        """Returns the outcome of a run: its output, its request and the state file."""
        wanted = bytes_of(values["writes"].replace(self.ADDRESS, address))
        if heard != wanted:
            return f"asked {heard!r}"
        try:
            with open(f"{self.room}/state", "rb") as file:
                left = file.read()
        except FileNotFoundError:
            left = b"-"
        taken = re.fullmatch(r'\{"taken":(\d+)\}', ran.line())
        if taken:
            return f"{taken[1]} {left.decode().rstrip(chr(10))}"
        if left != expanded(values["state"]):
            return f"{ran.whole()}, and the state file became {left!r}"
        if ran.status == 3 and ran.faults == f"fault: {address}\n".encode():
            return "network"
        return ran.line()


class Exchanges(Blocks):
    """A round of exchange with two peers, whose addresses are written 127.0.0.1:7000 and 127.0.0.1:7001.

    A peer gives one reply a connection: a status and a body, or `raw` and bytes; at `-` nobody listens. The requests must be
    the stated ones, in their order and byte by byte. The outcome is the status, and what was printed on both streams.
    """

    ADDRESSES = {"first": "127.0.0.1:7000", "second": "127.0.0.1:7001"}

    def gives(self, values):
        self.cedar.lay(schema=values["schema"].encode())
        heard = []
        peers = {key: Peers(number, replies_of(values[key]), heard) for number, key in enumerate(self.ADDRESSES, 1)}
        words = ("--schema", "schema", "--between", peers["first"].address, "--and", peers["second"].address)
        try:
            ran = self.cedar.run("exchange", *words)
        finally:
            for peer in peers.values():
                peer.close()
        asked = " | ".join(heard)
        if asked.encode() != expanded(values["asks"]):
            return f"asked {asked[:1000]}"
        told = " ".join([f"{ran.status}:", *(printed(stream) for stream in (ran.answers, ran.faults) if stream)])
        for key, address in self.ADDRESSES.items():
            told = told.replace(peers[key].address, address)
        return told.replace("\n", " ")


def replies_of(text):
    """Returns the replies of a peer, or None if nobody listens."""
    if text == "-":
        return None
    replies = []
    for part in text.split(" | ") if text else []:
        status, _, body = part.partition(" ")
        if status == "raw":
            replies.append(bytes_of(body))
        else:
            body = expanded(body)
            replies.append(b"HTTP/1.1 %s Reply\r\nContent-Length: %d\r\n\r\n%s" % (status.encode(), len(body), body))
    return replies


def bound_socket():
    """Returns a socket that has a port of its own and does not listen: a connection to it is refused, and no other row gets the port."""
    bound = socket.socket()
    bound.bind(("127.0.0.1", 0))
    return bound


class Peers:
    """A peer for several calls: it keeps the request of each, and answers with the next of its replies."""

    def __init__(self, number, replies, heard):
        self.number, self.replies, self.heard = number, replies, heard
        self.listener = bound_socket() if replies is None else socket.create_server(("127.0.0.1", 0))
        self.listener.settimeout(SECONDS)
        self.address = f"127.0.0.1:{self.listener.getsockname()[1]}"
        if replies is None:
            return
        self.thread = threading.Thread(target=self.give, daemon=True)
        self.thread.start()

    def give(self):
        """Receives requests and replies to them, until it is closed."""
        replies = list(self.replies)
        try:
            while True:
                link, _ = self.listener.accept()
                with link:
                    link.settimeout(SECONDS)
                    asked = b""
                    while not is_whole(asked) and (more := link.recv(1 << 16)):
                        asked += more
                    # a body that is too large is rejected once there is a connection, and not sent
                    if asked:
                        self.heard.append(self.shown(asked))
                        link.sendall(replies.pop(0) if replies else b"")
        except OSError:
            pass  # it is closed

    def shown(self, asked):
        """Returns the peer's number with method, path and body if the request has the expected form, else with all its bytes."""
        head, _, body = asked.partition(b"\r\n\r\n")
        method, path = head.split(b" ")[:2]
        length = b"" if method == b"GET" else b"Content-Length: %d\r\n" % len(body)
        host = self.address.encode()
        whole = b"%s %s HTTP/1.1\r\nHost: %s\r\n%sConnection: close\r\n\r\n%s" % (method, path, host, length, body)
        if asked != whole:
            return f"{self.number} {asked!r}"
        return " ".join([str(self.number), method.decode(), path.decode(), *([body.decode()] if body else [])])

    def close(self):
        """Ends it."""
        self.listener.close()


class Peer:
    """The peer of a pull: on a free port it receives one whole request, sends its reply, and ends."""

    def __init__(self, reply):
        self.reply, self.heard = reply, b""
        self.listener = socket.create_server(("127.0.0.1", 0))
        self.listener.settimeout(SECONDS)
        self.address = f"127.0.0.1:{self.listener.getsockname()[1]}"
        self.thread = threading.Thread(target=self.give, daemon=True)
        self.thread.start()

    def give(self):
        """Receives one request and replies to it."""
        try:
            link, _ = self.listener.accept()
            with link:
                link.settimeout(SECONDS)
                while not is_whole(self.heard):
                    more = link.recv(1 << 16)
                    if not more:
                        return
                    self.heard += more
                link.sendall(self.reply)
        except OSError:
            pass  # nobody called, or who called has nothing to ask

    def close(self):
        """Returns the received bytes, once the connection has ended."""
        self.thread.join(5)
        self.listener.close()
        return self.heard


def is_whole(request):
    """Returns whether a request has its body."""
    head, end, body = request.partition(b"\r\n\r\n")
    length = head.partition(b"Content-Length: ")[2].partition(b"\r\n")[0]
    return bool(end) and len(body) >= int(length or 0)


def bytes_of(text):
    """Returns the bytes that a text with `\\r` and `\\n` stands for."""
    return text.replace("\\r", "\r").replace("\\n", "\n").encode()


KINDS = {
    "policies": Policies,
    "decisions": Decisions,
    "decisions_under_schema": DecisionsUnderSchema,
    "requests": Requests,
    "checks": Checks,
    "stored": Stored,
    "runs": Runs,
    "explanations": Runs,
    "explained_runs": ExplainedRuns,
    "loads": Runs,
    "merge": Merges,
    "pull": Pulls,
    "exchange": Exchanges,
}
