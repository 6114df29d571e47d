#!/usr/bin/env python3
"""Serves many clients at once over real sockets: quick ones beside slow, idle, silent, resetting and half-closed ones.

    tests/faults/many_connections.py PROGRAM

- Idle and slow clients hold up nobody: 1,000 idle ones, those that send a byte at a time or take no reply. A site whose
  clients are idle uses no processor time.
- Requests that come in one piece are answered in order, without a further byte of the client. A client that ended its
  side, or reads late, gets all replies. Resets in mid-reply and mid-body end only their connections.
- Limits: `--clients` connections are served at once, and others wait. If one waits, the one that is idle longest, for a
  second at least, makes room; one with a request under way does not. `--idle` closes a connection without a byte for so
  long; a request that is not whole after ten seconds ends its connection, unless it is long and comes fast enough. With
  `--clients 1 --idle 0` none of these acts. `--connections` ends the site once so many were accepted and are gone.
- A site that cannot open a file serves the clients that it has, does not spin, and serves the next one once another is
  idle for a second, or gone. A client that sent in time is answered although the site stood still meanwhile.
- A refusal arrives, without a reset, although its client still sends and others come and go; what it sends is discarded
  for a second at most, and meanwhile others are served.
- The log has a line for each reply, whole before the reply is sent, in the order of the site's steps. Three sites that
  exchange while 51 clients put, delete and decide have, each, the replies and the state of a new site that gets the same
  requests one by one in the order of the log.
- Memory: 64 clients that send 8 MB each take at most 120 MB beside the store.

Slow cases run beside the others. The last line is `N passed, M failed`.
"""
import concurrent.futures
import contextlib
import fcntl
import json
import os
import random
import resource
import select
import signal
import socket
import struct
import subprocess
import sys
import threading
import time

sys.dont_write_bytecode = True
sys.path.insert(0, os.path.dirname(os.path.dirname(os.path.abspath(__file__))))

import tried  # noqa: E402
from rows.sites import HOST, PAUSE, Processes, connected, listening, message, policy_path, request  # noqa: E402

USES = {"principalTypes": ["User"], "resourceTypes": ["Doc"]}
TYPES = {"User": {"memberOfTypes": ["Group"]}, "Group": {}, "Doc": {}}
SCHEMA = json.dumps({"": {"entityTypes": TYPES, "actions": {"view": {"appliesTo": USES}}}})
PERMIT = b"permit(principal, action, resource);"
# in seconds: how long a reply may take that nothing holds up, on a machine with other work
SOON = 30
# in seconds: how long a closed connection stays open to discard what its client sends
LINGERS = 1
# in seconds: the time of a request under way, after which its connection is closed, and the latest close seen
REQUEST, REQUEST_AT_LAST = 10, 14
# the bytes of the longest body, and the memory that clients may take, beside the store
LONGEST, MOST_MEMORY = 8_388_608, 120_000_000
# the idle connections, and the number of files that a process with them needs
IDLE, FILES = 1000, 1100
# the memory of a pipe, in bytes, that gets a log which is not read
PIPE = 4096
GET_LARGE = request("GET", "/v1/policies/large")
ABSENT = b'{"error":{"code":60,"place":null,"within":null}}'
ABSENT_REPLY = (404, ABSENT)
# a policy of almost the greatest size, and how often a client asks for it that is to get more than its system keeps
LARGE, MANY = PERMIT + b"//".ljust(260_000, b"x"), 24


class Fault(Exception):
    """A difference from what is expected of a site."""


def same(what, expected, got):
    """Raises `Fault` if two values differ."""
    if expected != got:
        raise Fault(f"{what}: expected {shown(expected)}, got {shown(got)}")


def shown(value):
    """Returns a value as a text that is not too long."""
    text = repr(value)
    return text if len(text) <= 400 else f"{text[:200]} .. {text[-200:]}"


# ---- sites and clients


class Client:
    """A connection to a site, with what came on it beyond the last reply."""

    def __init__(self, port):
        self.link, self.came = connected(port), b""
        self.link.settimeout(SOON)

    def send(self, *pieces):
        """Sends these bytes in one piece."""
        self.link.sendall(b"".join(pieces))

    def more(self):
        """Waits for bytes. Fails if the connection ends."""
        part = self.link.recv(1 << 20)
        if not part:
            raise Fault(f"expected a reply, got the end of the connection behind {shown(self.came)}")
        self.came += part

    def reply(self):
        """Returns the status and the body of the next reply."""
        while (at := self.came.find(b"\r\n\r\n")) < 0:
            self.more()
        head, begin = self.came[:at], at + 4
        end = begin + int(head.split(b"Content-Length: ")[1].split(b"\r\n")[0])
        parts, size = [self.came], len(self.came)
        while size < end:
            parts.append(self.link.recv(1 << 20))
            size += len(parts[-1])
            if not parts[-1]:
                raise Fault(f"expected {end} bytes of a reply, got {size}")
        whole = b"".join(parts)
        self.came = whole[end:]
        return int(head[9:12]), whole[begin:end]

    def ask(self, method, path, body=None):
        """Returns the reply to a request."""
        self.send(request(method, path, body))
        return self.reply()

    def asks_rightly(self, what):
        """Checks that a request is answered."""
        same(what, ABSENT_REPLY, self.ask("GET", "/v1/policies/absent"))

    def put(self, policy, text=PERMIT):
        """Puts a policy. Returns the count of its stamp."""
        status, body = self.ask("PUT", policy_path(policy), text)
        same(f"the status of a put, {body[:200]!r}", 200, status)
        return json.loads(body)["count"]

    def is_silent(self, seconds):
        """Returns whether nothing more comes for so long, not even the end."""
        return not select.select([self.link], [], [], seconds)[0]

    def end_side(self):
        """Ends the client's side."""
        self.link.shutdown(socket.SHUT_WR)

    def rest(self):
        """Returns the bytes up to the end of the connection, and whether it was reset."""
        parts, is_reset = [self.came], False
        try:
            while part := self.link.recv(1 << 20):
                parts.append(part)
        except ConnectionResetError:
            is_reset = True
        return b"".join(parts), is_reset

    def ends(self, what):
        """Checks that the connection ends, without a byte and without a reset."""
        same(what, (b"", False), self.rest())

    def reset(self):
        """Resets the connection."""
        self.link.setsockopt(socket.SOL_SOCKET, socket.SO_LINGER, struct.pack("ii", 1, 0))
        self.link.close()

    def close(self):
        self.link.close()


class Served:
    """A served site."""

    def __init__(self, room, name, *words):
        self.processes = room.processes
        self.process, self.port = listening(room.processes, room.program, room.schema, name, *words)
        self.files = self.open_files()

    def client(self):
        return Client(self.port)

    def clients(self, count):
        """Opens so many connections."""
        return [self.client() for _ in range(count)]

    def open_files(self):
        """Returns the number of open files."""
        return len(os.listdir(f"/proc/{self.process.pid}/fd"))

    def has_files(self, most, what):
        """Checks that it soon has at most so many open files."""
        until = time.monotonic() + SOON
        while (count := self.open_files()) > most and time.monotonic() < until:
            time.sleep(0.01)
        if count > most:
            raise Fault(f"{what}: expected at most {most} open files, got {count}")

    def processor_time(self):
        """Returns the processor seconds that it has used."""
        with open(f"/proc/{self.process.pid}/stat", encoding="utf-8") as file:
            fields = file.read().rpartition(")")[2].split()
        return (int(fields[11]) + int(fields[12])) / os.sysconf("SC_CLK_TCK")

    def sleeps(self, what, seconds=1.0):
        """Checks that it uses next to no processor time for so long."""
        before = self.processor_time()
        time.sleep(seconds)
        taken = self.processor_time() - before
        if taken > seconds / 10:
            raise Fault(f"{what}: expected at most {seconds / 10} processor seconds in {seconds}, got {taken:.2f}")

    def memory(self, row):
        """Returns its resident memory (`VmRSS`), or the greatest so far (`VmHWM`), in bytes."""
        with open(f"/proc/{self.process.pid}/status", encoding="utf-8") as file:
            return next(1024 * int(line.split()[1]) for line in file if line.startswith(row))

    def runs_on(self):
        """Checks that it has not ended."""
        same("the status of the site", None, self.process.poll())

    def ended(self):
        """Waits for its end. Returns its status, and what it wrote on standard error."""
        with contextlib.suppress(subprocess.TimeoutExpired):
            self.process.wait(SOON)
        return self.processes.end(self.process)


class Room:
    """A folder with a schema, and the sites that were started."""

    def __init__(self, program, folder):
        self.program, self.folder, self.schema = program, folder, f"{folder}/schema"
        self.processes = Processes()
        with open(self.schema, "w", encoding="utf-8") as file:
            file.write(SCHEMA)

    def site(self, *words, name="1"):
        return Served(self, name, *words)


# ---- clients that are idle, slow or silent


def beside_idle_ones(room):
    """A client works beside 1,000 idle ones, each of which is answered later."""
    most = resource.getrlimit(resource.RLIMIT_NOFILE)[1]
    if most < FILES:
        raise Fault(f"expected a limit of at least {FILES} open files, got {most}")
    site = room.site("--clients", "1024")
    idle = site.clients(IDLE)
    ask_all("a client that is idle later", idle[::2])
    site.sleeps("a site with idle clients")
    worker, began = site.client(), time.monotonic()
    for number in range(50):
        worker.asks_rightly(f"request {number} beside idle clients")
    took = time.monotonic() - began
    ask_all("a client that was idle", idle)
    for client in (*idle, worker):
        client.close()
    site.has_files(site.files, "after all are gone")
    return f"50 replies in {took:.2f} seconds"


def ask_all(what, clients):
    """Checks that a request of each client is answered, all sent before the first reply is read."""
    for client in clients:
        client.send(request("GET", "/v1/policies/absent"))
    for client in clients:
        same(what, ABSENT_REPLY, client.reply())


def byte_by_byte(room):
    """Clients send a request and a put a byte at a time, and between two bytes others are answered."""
    site = room.site()
    slow, quick = site.clients(3), site.clients(2)
    texts = [request("GET", "/v1/policies/absent") + request("PUT", f"/v1/policies/slow{at}", PERMIT) for at in range(len(slow))]
    for at in range(max(map(len, texts))):
        for client, text in zip(slow, texts):
            client.send(text[at : at + 1])
        if at % 8 == 0:
            ask_all(f"a quick client after byte {at}", quick)
        time.sleep(PAUSE)
    counts = set()
    for client in slow:
        same("a slow client", ABSENT_REPLY, client.reply())
        status, body = client.reply()
        same("a slow put", 200, status)
        counts.add(json.loads(body)["count"])
    same("the counts of the slow puts", set(range(1, len(slow) + 1)), counts)
    return f"{len(slow)} slow clients, and quick replies between their bytes"


def together(room):
    """Requests in one piece: 32 of them at each of eight clients; and long ones, of which a read takes a part."""
    site = room.site()
    clients = site.clients(8)
    for at, client in enumerate(clients):
        made = []
        for n in range(8):
            path, text = policy_path(f"t{at}-{n}"), f'permit(principal == User::"u{at}-{n}", action, resource);'
            made += [("PUT", path, text.encode(), None), ("GET", path, None, text), ("DELETE", path, None, None), ("GET", path, None, "")]
        client.send(*(request(*it[:3]) for it in made))
        client.wanted = made
    for client in clients:
        for method, path, _, text in client.wanted:
            status, body = client.reply()
            same(f"{method} {path}", (404 if text == "" else 200, text or None), (status, json.loads(body).get("text")))
    for size in (10_000, 16_384, 30_000, 70_000):
        long = request("POST", "/v1/authorize", asking("u", f"d{size}").ljust(size))
        for client in clients:
            client.send(*[long] * 3)
        for client in clients:
            for _ in range(3):
                same(f"one of three requests of {size} bytes in one piece", (200, "Deny"), decision(client.reply()))
    site.sleeps("a site that has answered all")
    return "in order"


def asking(user, document):
    """Returns the body of a request whether a user may view a document."""
    return json.dumps({"principal": f'User::"{user}"', "action": 'Action::"view"', "resource": f'Doc::"{document}"'}).encode()


def decision(reply):
    """Returns the status and the decision of a reply."""
    return reply[0], json.loads(reply[1]).get("decision")


def with_large(site):
    """Puts a large policy at a site, and has a client that works on. Returns the client, and the reply to a request for the
    policy."""
    worker = site.client()
    worker.put("large", LARGE)
    worker.send(GET_LARGE)
    while b"\r\n\r\n" not in worker.came:
        worker.more()
    head, _, _ = worker.came.partition(b"\r\n\r\n")
    status, body = worker.reply()
    same("the status and the text of a large policy", (200, LARGE), (status, json.loads(body)["text"].encode()))
    return worker, head + b"\r\n\r\n" + body


def takes_no_reply(room):
    """A client asks for more than its system keeps, and takes nothing; others are served, and it is closed by `--idle 4`.
    One that takes its replies in many small parts gets all."""
    site = room.site("--idle", "4")
    worker, large = with_large(site)
    worker.close()
    greedy, slow = small_reader(site.port, 8192), small_reader(site.port, 65_536)
    for client in (greedy, slow):
        client.send(GET_LARGE * MANY)
    began = time.monotonic()
    while (now := time.monotonic() - began) < 6:
        other = site.client()
        other.asks_rightly("a client beside one that takes no reply")
        other.close()
        while len(slow.came) < len(large) * MANY * now / 7:
            slow.more()
        time.sleep(0.02)
    site.has_files(site.files + 1, "after a client took no reply for its time, and for a second more")
    slow.end_side()
    same("the replies that are taken slowly", (large * MANY, False), slow.rest())
    came, _ = greedy.rest()
    if len(came) >= len(large) * MANY or not (large * MANY).startswith(came):
        raise Fault(f"expected a part of {MANY} replies of {len(large)} bytes, got {len(came)} bytes: {shown(came)}")
    site.client().asks_rightly("a client after one that took no reply")
    return f"closed after {len(came)} of {len(large) * MANY} bytes"


def small_reader(port, size):
    """Returns a client whose system keeps about so many bytes that come."""
    client = Client.__new__(Client)
    client.link, client.came = socket.socket(), b""
    client.link.setsockopt(socket.SOL_SOCKET, socket.SO_RCVBUF, size)
    client.link.settimeout(SOON)
    client.link.connect((HOST, port))
    return client


def silent_ones(room):
    """`--idle 1` closes the clients that send nothing, or a part of a request, and no others."""
    site = room.site("--idle", "1")
    texts = (b"", request("GET", "/v1/policies/absent"), b"GET /v1/pol", request("PUT", "/v1/policies/p", PERMIT)[:-1])
    silent, working, began, ends = [], site.client(), [], {}
    for text in texts:
        began.append(time.monotonic())
        silent.append(site.client())
        silent[-1].send(text)
    same("the reply to one that is silent later", ABSENT_REPLY, silent[1].reply())
    until = time.monotonic() + SOON
    while len(ends) < len(silent) and time.monotonic() < until:
        working.asks_rightly("a client beside silent ones")
        for at, client in enumerate(silent):
            if at not in ends and not client.is_silent(0):
                client.ends("a silent client")
                ends[at] = time.monotonic() - began[at]
        time.sleep(0.05)
    same("which silent clients are closed, after a second", [True] * 4, [ends.get(at, 0) > 1 for at in range(len(silent))])
    working.asks_rightly("a client that was not silent")
    same("the policy of the put that was cut off", ABSENT_REPLY, working.ask("GET", "/v1/policies/p"))
    return f"closed after {min(ends.values()):.1f} to {max(ends.values()):.1f} seconds"


# ---- clients that end or reset


def half_closed(room):
    """Clients that end their side get all replies, also a large one that they read late."""
    site = room.site()
    worker, large = with_large(site)
    clients = site.clients(8)
    absent = request("GET", "/v1/policies/absent")
    for at, client in enumerate(clients):
        tail = b"" if at % 2 else b"PUT /v1/policies/p HTTP/1.1\r\nContent-Length: 40\r\n\r\npermit"
        client.send(absent * at, GET_LARGE, tail)
        client.end_side()
    time.sleep(0.3)
    for at, client in enumerate(clients):
        for number in range(at):
            same(f"reply {number} of client {at}", ABSENT_REPLY, client.reply())
        same(f"the large reply of client {at}, and the end", (large, False), client.rest())
        client.close()
    same("the policy that was cut off", ABSENT_REPLY, worker.ask("GET", "/v1/policies/p"))
    worker.close()
    site.has_files(site.files, "after all are gone")
    return f"{len(clients)} clients"


def resets(room):
    """Clients reset before a request, in a head, in a body, and in a reply; others go on, and no body that was cut off
    takes effect."""
    site = room.site()
    worker, large = with_large(site)
    state = worker.ask("GET", "/v1/state")
    for turn in range(2):
        silent, head, body, unread, part = (small_reader(site.port, 8192) for _ in range(5))
        head.send(b"GET /v1/policies/absent HTT")
        body.send(request("PUT", "/v1/policies/cut", LARGE)[:-1])
        for client in (unread, part):
            client.send(GET_LARGE * MANY)
        worker.asks_rightly(f"a client before the resets, turn {turn}")
        same("the beginning of a reply", True, large.startswith(part.link.recv(1000)))
        for client in (silent, head, body, unread, part):
            client.reset()
        worker.asks_rightly(f"a client after the resets, turn {turn}")
    same("the policy that was cut off", ABSENT_REPLY, worker.ask("GET", "/v1/policies/cut"))
    same("the state after the resets", state, worker.ask("GET", "/v1/state"))
    site.has_files(site.files + 1, "after the resets")
    site.sleeps("a site after the resets")
    site.runs_on()
    return "10 resets"


def refusals_arrive(room):
    """Clients are refused while they send a megabyte more: each gets its refusal and no reset. One that goes on sending is
    dropped after a second, and holds up nobody meanwhile, nor does a number of them that is greater than that of slots."""
    site = room.site("--clients", "2")
    for head, status in ((b"PUT / HTTP/1.1\r\nContent-Length: 8388609\r\n\r\n", b"413"), (b"{}", b"400")):
        for number in range(4):
            client = site.client()
            client.send(head, b"x" * 1_000_000)
            client.end_side()
            came, is_reset = client.rest()
            same(f"refusal {number} by {status}", (status, 1, False), (came[9:12], came.count(b"HTTP/1.1 "), is_reset))
            client.close()
    stubborn = site.clients(9)
    for at, client in enumerate(stubborn):
        client.send(b"{}")
        same(f"the refusal of stubborn client {at}", b"HTTP/1.1 400 Bad Request", client.link.recv(1000)[:24])
    site.has_files(site.files + 4, "with 9 clients that stay after a refusal, of which as many as slots are kept")
    same("whether one is answered while another stays", True, any(is_answered_beside(site) for _ in range(5)))
    until = time.monotonic() + SOON
    while site.open_files() > site.files and time.monotonic() < until:
        with contextlib.suppress(OSError):
            stubborn[-1].send(b"x")
        time.sleep(0.05)
    site.has_files(site.files, "after those that stay were dropped")
    return "without resets"


def is_answered_beside(site):
    """Returns whether a client is answered before a second is over for which another stays after its refusal."""
    stubborn, began = site.client(), time.monotonic()
    stubborn.send(b"{}")
    same("a refusal", b"HTTP/1.1 400", stubborn.link.recv(1000)[:12])
    client = site.client()
    client.asks_rightly("a client beside one that stays")
    client.close()
    return time.monotonic() - began < LINGERS


# ---- slots, limits and ends


def three_at_once(room):
    """`--connections 3` ends with status 0 when three clients, at once, are gone; a fourth is not served."""
    site = room.site("--connections", "3")
    clients = site.clients(3)
    for turn in range(3):
        for at, client in enumerate(clients):
            client.asks_rightly(f"request {turn} of client {at}")
    fourth = site.client()
    fourth.send(request("GET", "/v1/policies/absent"))
    for client in (clients[1], clients[0]):
        client.close()
        clients[2].asks_rightly("the last client")
    same("a fourth client gets no reply", True, fourth.is_silent(0.3))
    site.sleeps("a site that accepts no more")
    site.runs_on()
    clients[2].close()
    same("the end of the site", (0, ""), site.ended())
    same("what the fourth client gets", b"", fourth.rest()[0])
    return "ended with 0"


def wait_for_a_slot(room):
    """With `--clients 2` and two requests under way others wait, and are served in their order as soon as one goes."""
    site = room.site("--clients", "2")
    text = request("GET", "/v1/policies/absent")
    busy, waiting = site.clients(2), []
    for client in busy:
        client.send(text[:10])
    for _ in range(3):
        time.sleep(0.05)
        waiting.append(site.client())
        waiting[-1].send(text)
    for client in waiting:
        same("one that waits while requests are under way", True, client.is_silent(0.5))
    site.sleeps("a site for which some wait", 0.5)
    for at, client in enumerate(waiting):
        gone = busy[0] if at == 0 else waiting[at - 1]
        if at == 0:
            gone.send(text[10:])
            same("the request that was under way", ABSENT_REPLY, gone.reply())
        gone.close()
        same(f"the one that waited, {at}", ABSENT_REPLY, client.reply())
    busy[1].send(text[10:])
    same("the other request that was under way", ABSENT_REPLY, busy[1].reply())
    return "served"


def idle_longest_goes(room):
    """With all slots taken the connection that is idle longest makes room for one that waits, once it is idle for a
    second; also if all are idle for longer."""
    site = room.site("--clients", "3")
    clients = site.clients(3)
    sent = {}
    for at in (0, 1, 2, 0):
        sent[at] = time.monotonic()
        clients[at].asks_rightly(f"client {at}")
        time.sleep(0.2)
    last = site.client()
    last.send(request("GET", "/v1/policies/absent"))
    same("the reply of the client that waited", ABSENT_REPLY, last.reply())
    took = time.monotonic() - sent[1]
    if took < 1:
        raise Fault(f"expected a reply once another client was idle for a second, got it after {took:.2f}")
    clients[1].ends("the client that was idle longest")
    for client in (clients[2], clients[0], last):
        client.asks_rightly("a client that was not idle longest")
        time.sleep(0.05)
    time.sleep(1.2)
    site.client().asks_rightly("a client that comes when all are idle")
    clients[2].ends("the client that was idle longest of all that were idle for a second")
    clients[0].asks_rightly("a client that was not idle longest of all that were idle for a second")
    return f"after {took:.1f} seconds without a byte"


def one_after_another(room):
    """`--clients 1 --idle 0` serves one client after another, however long the first is idle, or its request takes."""
    site = room.site("--clients", "1", "--idle", "0")
    clients = []
    for _ in range(3):
        clients.append(site.client())
        clients[-1].send(request("GET", "/v1/policies/absent"))
        time.sleep(0.05)
    for at, client in enumerate(clients):
        same(f"the reply of client {at}", ABSENT_REPLY, client.reply())
        for later in clients[at + 1 :]:
            same(f"a client behind client {at} gets nothing", True, later.is_silent(1.0 if at == 0 else 0.2))
        client.asks_rightly(f"client {at} again")
        client.close()
    return "in their order"


def slow_requests(room):
    """A head or a short body that is not whole after ten seconds ends its connection, although its bytes come, also with
    `--idle 0`. A long body that comes fast enough goes on, as does one that waits for a permit to be long, and an idle
    connection. With `--clients 1 --idle 0` a head may take longer."""
    site, alone = room.site("--idle", "0"), room.site("--clients", "1", "--idle", "0")
    idle, patient = site.client(), alone.client()
    idle.asks_rightly("a client that is idle later")
    (head, body), began = site.clients(2), time.monotonic()
    head.send(b"GET /")
    body.send(b"POST /v1/authorize HTTP/1.1\r\nContent-Length: 40000\r\n\r\n")
    patient.send(request("GET", "/v1/policies/absent")[:10])
    long, longs = request("POST", "/v1/authorize", asking("u", "d").ljust(240_000)), site.clients(4)
    for client in longs:
        client.send(long[:200_000])
    time.sleep(0.5)
    fifth = site.client()
    fifth.send(request("POST", "/v1/authorize", asking("u", "d").ljust(100_000)))
    ends, sent = {}, 200_000
    while (now := time.monotonic() - began) < REQUEST_AT_LAST and len(ends) < 2 or now < REQUEST + 1.5:
        for name, client in (("head", head), ("body", body)):
            if name not in ends and client.is_silent(0):
                client.send(b"x")
            elif name not in ends:
                client.ends(f"a {name} that is not whole")
                ends[name] = now
        for client in longs:
            client.send(long[sent : sent + 500])
        sent += 500
        same("one that waits for a permit", True, fifth.is_silent(0))
        time.sleep(0.25)
    for name in ("head", "body"):
        if not REQUEST - 0.5 < ends.get(name, 0) < REQUEST_AT_LAST:
            raise Fault(f"expected the end of a {name} that is not whole after {REQUEST} seconds, got it after {ends.get(name)}")
    for client in longs:
        client.send(long[sent:])
        same("a long body that came fast enough", (200, "Deny"), decision(client.reply()))
    same("one that waited for a permit", (200, "Deny"), decision(fifth.reply()))
    idle.asks_rightly("an idle client")
    patient.send(request("GET", "/v1/policies/absent")[10:])
    same("a head that takes long at a site for one client", ABSENT_REPLY, patient.reply())
    return f"closed after {ends['head']:.1f} and {ends['body']:.1f} seconds"


def no_file_more(room):
    """A site that cannot open a file serves those that it has, sleeps and warns. It serves the next one once a client goes,
    or was idle for a second: the one idle longest makes room."""
    site = room.site()
    clients = site.clients(2)
    for client in clients:
        client.asks_rightly("a client before the limit")
    limits = resource.prlimit(site.process.pid, resource.RLIMIT_NOFILE)
    taken = {int(it) for it in os.listdir(f"/proc/{site.process.pid}/fd")}
    resource.prlimit(site.process.pid, resource.RLIMIT_NOFILE, (min(set(range(len(taken) + 1)) - taken), limits[1]))
    waiting = site.client()
    waiting.send(request("GET", "/v1/policies/absent"))
    site.sleeps("a site that cannot open a file", 0.7)
    for turn in range(20):
        for client in clients:
            client.asks_rightly(f"request {turn} while no file can be opened")
    same("one that waits for a file", True, waiting.is_silent(0.2))
    clients[0].close()
    same("the one that waited for a file", ABSENT_REPLY, waiting.reply())
    last = site.client()
    last.send(request("GET", "/v1/policies/absent"))
    same("one that waits while others are idle", ABSENT_REPLY, last.reply())
    clients[1].ends("the client that was idle longest")
    waiting.asks_rightly("a client that was not idle longest")
    site.runs_on()
    # a client that is accepted ends the failures that are warned of once; the system then refuses even if nobody waits
    told, warning = site.processes.end(site.process)[1], f"warning: accept failed, trying again: {HOST}:{site.port}"
    if told not in ("\n".join([warning] * count) for count in (1, 2, 3)):
        raise Fault(f"expected one to three warnings, got {shown(told)}")
    return "served later"


def stopped(room):
    """A client whose bytes came in time is answered, although the site stood still until its limit was over."""
    site = room.site("--idle", "2")
    quick, silent = site.clients(2)
    for client in (quick, silent):
        client.asks_rightly("a client before the stop")
    os.kill(site.process.pid, signal.SIGSTOP)
    time.sleep(0.2)
    quick.send(request("GET", "/v1/policies/absent"))
    time.sleep(2.5)
    os.kill(site.process.pid, signal.SIGCONT)
    same("a client that sent while the site stood still", ABSENT_REPLY, quick.reply())
    silent.ends("a client that sent nothing")
    return "answered"


def refused_beside_others(room):
    """A refused client that still sends is not reset because others come and go."""
    site = room.site("--clients", "8")
    refused, until, others = site.client(), time.monotonic() + 0.5, 0
    refused.send(b"{}")
    same("the status of a refusal", 400, refused.reply()[0])
    while time.monotonic() < until:
        other = site.client()
        other.asks_rightly("a client beside one that is refused")
        other.close()
        refused.send(b"x")
        others += 1
    refused.ends("a client that is refused")
    if others < 20:
        raise Fault(f"expected at least 20 others, got {others}")
    return f"beside {others} others"


# ---- the log


def lines_come_first(room):
    """With a log that nobody reads, a pipe, no more replies come than it has whole lines. Once it is read, all come."""
    pipe = f"{room.folder}/pipe"
    os.mkfifo(pipe)
    log = os.open(pipe, os.O_RDONLY | os.O_NONBLOCK)
    fcntl.fcntl(log, fcntl.F_SETPIPE_SZ, PIPE)
    site = room.site("--log", pipe)
    clients, targets = site.clients(8), [f"/v1/policies/l{number}" for number in range(40)]
    for client in clients:
        client.send(*(request("GET", target) for target in targets))
    while not all(client.is_silent(0.2) for client in clients):
        for client in clients:
            while select.select([client.link], [], [], 0)[0]:
                client.more()
    came, lines = sum(client.came.count(ABSENT) for client in clients), os.read(log, PIPE)
    if not 0 < came <= lines.count(b"\n"):
        raise Fault(f"expected as many replies as lines of a full log, {lines.count(10)}, or fewer, got {came}")
    os.set_blocking(log, True)
    while lines.count(b"\n") < len(clients) * len(targets):
        lines += os.read(log, PIPE)
    for client in clients:
        for target in targets:
            same(target, ABSENT_REPLY, client.reply())
    told = sorted(json.loads(line)["target"] for line in lines.splitlines())
    same("the targets of the log", sorted(targets * len(clients)), told)
    os.close(log)
    return f"{came} replies, then {len(told)}"


class Asker(threading.Thread):
    """A client of its own, which makes its requests one after another and keeps each with its reply, by what the log's
    line of it says."""

    def __init__(self, site, asks):
        super().__init__()
        self.client, self.asks, self.done, self.fault = site.client(), asks, {}, None

    def run(self):
        try:
            for method, path, body in self.asks:
                self.done[key_of(method, path, body)] = (method, path, body), self.client.ask(method, path, body)
        except (Fault, OSError) as fault:
            self.fault = fault


def key_of(method, path, body):
    """Returns what tells a request from the others of a site: its document if it asks for a decision, else its path."""
    return method, json.loads(body)["resource"] if path == "/v1/authorize" else path


def asks_of(chance, name, puts):
    """Returns the requests of a client: decisions, and puts and deletions too if it `puts`."""
    asks = []
    for number in range(15):
        user, it = f"u{chance.randrange(5)}", f"{name}-{number}"
        asks.append(("POST", "/v1/authorize", asking(user, it)))
        if puts:
            effect = chance.choice(("permit", "permit", "forbid"))
            text = f'{effect}(principal == User::"u{chance.randrange(5)}", action, resource);'
            asks.append(("PUT", policy_path(it), text.encode()))
        if puts and number > 2:
            asks.append(("DELETE", policy_path(f"{name}-{number - 3}"), None))
    return asks


class Exchange:
    """A client of each of several sites, which brings one up to date from another, and keeps what it asked of each."""

    def __init__(self, sites):
        self.clients, self.done = [site.client() for site in sites], [[] for _ in sites]

    def ask(self, at, method, path, body=None):
        """Returns the body of a reply of a site."""
        reply = self.clients[at].ask(method, path, body)
        self.done[at].append(((method, path, body), reply))
        same(f"the status of {path}, {reply[1][:200]!r}", 200, reply[0])
        return reply[1]

    def bring(self, to, source):
        """Brings a site up to date from another."""
        delta = self.ask(source, "POST", "/v1/delta", self.ask(to, "GET", "/v1/summary"))
        self.ask(to, "POST", "/v1/merge", delta)

    def round(self):
        """Brings each site up to date from each other one."""
        for to in range(len(self.clients)):
            for source in range(len(self.clients)):
                if to != source:
                    self.bring(to, source)

    def states(self):
        """Returns the state of each site."""
        return [self.ask(at, "GET", "/v1/state") for at in range(len(self.clients))]


def in_log_order(log, asked, exchanged):
    """Returns the requests of a site with their replies, in the order of its log.

    The exchanges' requests have no lines of their own, so those are taken in the order in which they were sent.
    """
    left, found = iter(exchanged), []
    for line in lines_of(log):
        key = line["method"], line.get("resource", line["target"])
        found.append(asked.pop(key) if key in asked else next(left))
        (method, path, _), (status, body) = found[-1]
        same("a line of the log", (method, path, status), (line["method"], line["target"], line["status"]))
        if method in ("PUT", "DELETE"):
            same(f"the stamp of a line, {path}", json.loads(body), line["stamp"])
    same("requests without a line", ([], []), (list(asked), list(left)))
    return found


def lines_of(path):
    """Returns the whole lines of a log."""
    with open(path, "rb") as file:
        return [json.loads(line) for line in file.read().split(b"\n")[:-1]]


def exchanging_sites(room):
    """Three sites exchange while 51 clients put, delete and decide. Each site gave the replies, and has the state, of a
    new site that gets the same requests one by one in the order of its log."""
    chance, names = random.Random(3), ("a", "b", "c")
    logs = [f"{room.folder}/log-{name}" for name in names]
    sites = [room.site("--log", log, name=name) for name, log in zip(names, logs)]
    askers = [[Asker(site, asks_of(chance, f"{name}{at}", at < 4)) for at in range(17)] for name, site in zip(names, sites)]
    exchange = Exchange(sites)
    for asker in sum(askers, []):
        asker.start()
    while any(asker.is_alive() for asker in sum(askers, [])):
        exchange.round()
    for asker in sum(askers, []):
        asker.join()
        same("the fault of a client", None, asker.fault)
    exchange.round()
    exchange.round()
    states = exchange.states()
    same("how many states the three sites have", 1, len(set(states)))
    count = 0
    for at, name in enumerate(names):
        asked = {key: it for asker in askers[at] for key, it in asker.done.items()}
        twin = room.site(name=name).client()
        for ask, reply in in_log_order(logs[at], asked, exchange.done[at]):
            same(f"{ask[0]} {ask[1]} at site {name}, in the log's order", twin.ask(*ask), reply)
            count += 1
    merges = sum(ask[1] == "/v1/merge" for done in exchange.done for ask, _ in done)
    return f"{count} requests, {merges} of them merges"


# ---- memory


class Sender:
    """A client that sends a request as the site takes it, and holds back the last byte."""

    def __init__(self, port, text):
        self.client, self.text, self.sent, self.is_held = Client(port), memoryview(text), 0, True
        self.client.link.setblocking(False)

    def go_on(self):
        """Sends what is taken at once. Returns how many bytes."""
        before, end = self.sent, len(self.text) - self.is_held
        with contextlib.suppress(BlockingIOError):
            while self.sent < end:
                self.sent += self.client.link.send(self.text[self.sent : min(end, self.sent + 262_144)])
        return self.sent - before


def large_bodies(room):
    """64 clients send 8 MB each: the site's memory stays bounded while no body is whole. Then eight are answered, and the
    others reset."""
    site = room.site()
    client = site.client()
    client.asks_rightly("a client before large bodies")
    client.close()
    before = site.memory("VmRSS")
    text = request("POST", "/v1/authorize", b"x" * LONGEST)
    senders, moved = [Sender(site.port, text) for _ in range(64)], time.monotonic()
    while time.monotonic() < moved + 0.7:
        if any([sender.go_on() for sender in senders]):
            moved = time.monotonic()
        else:
            time.sleep(0.01)
    site.sleeps("a site with large bodies that are not whole", 0.5)
    while_held = site.memory("VmHWM") - before
    # those that are at their end, and some for which there is room then
    rest = sorted(senders, key=lambda it: -it.sent)
    for sender in rest[8:]:
        sender.client.reset()
    until = time.monotonic() + 2 * SOON
    while any(sender.sent < len(text) for sender in rest[:8]) and time.monotonic() < until:
        for sender in rest[:8]:
            sender.is_held = False
            sender.go_on()
        time.sleep(0.001)
    for at, sender in enumerate(rest[:8]):
        same(f"the bytes that client {at} has sent", len(text), sender.sent)
        sender.client.link.settimeout(SOON)
        status, body = sender.client.reply()
        if status != 422:
            raise Fault(f"client {at}: expected status 422, got {status} {body!r}")
    most = site.memory("VmHWM") - before
    if most > MOST_MEMORY:
        raise Fault(f"expected at most {MOST_MEMORY} bytes more, got {while_held} while no body was whole, and {most} in all")
    return f"{while_held / 1e6:.0f} MB while no body was whole, {most / 1e6:.0f} MB at most"


# the slow ones run beside the others
SLOW = (
    ("requests that are not whole after ten seconds", slow_requests),
    ("a client that takes no reply, with --idle 4", takes_no_reply),
)
CASES = (
    ("1,000 idle clients and one that works", beside_idle_ones),
    ("clients that send a byte at a time beside quick ones", byte_by_byte),
    ("requests in one piece", together),
    ("silent clients, with --idle 1", silent_ones),
    ("half-closed clients", half_closed),
    ("resets in mid-reply and mid-body", resets),
    ("refusals arrive", refusals_arrive),
    ("--connections 3 with three at once", three_at_once),
    ("more clients than slots", wait_for_a_slot),
    ("one waits, and the one idle longest goes", idle_longest_goes),
    ("--clients 1 --idle 0", one_after_another),
    ("no file more", no_file_more),
    ("a site that stood still", stopped),
    ("a refused client beside others that come and go", refused_beside_others),
    ("a log that is full", lines_come_first),
    ("three sites that exchange", exchanging_sites),
    ("64 clients that send 8 MB each", large_bodies),
)


def outcome(case, program, folder):
    """Returns the outcome of a case in a folder of its own, and whether it is right."""
    os.mkdir(folder)
    room = Room(program, folder)
    try:
        return case(room), True
    except (Fault, OSError, LookupError, ValueError) as fault:
        return f"FAILED: {fault or type(fault).__name__}", False
    finally:
        room.processes.close()


def rows(program, folder):
    most = resource.getrlimit(resource.RLIMIT_NOFILE)[1]
    resource.setrlimit(resource.RLIMIT_NOFILE, (most, most))
    with concurrent.futures.ThreadPoolExecutor() as pool:
        slow = [(name, pool.submit(outcome, case, program, f"{folder}/slow{at}")) for at, (name, case) in enumerate(SLOW)]
        for at, (name, case) in enumerate(CASES):
            yield name, *outcome(case, program, f"{folder}/{at}")
        for name, it in slow:
            yield name, *it.result()


if __name__ == "__main__":
    sys.exit(tried.main(sys.argv[1:], __doc__, rows))
