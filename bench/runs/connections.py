"""Measures a served site with many connections at once: requests a second, and how long a request takes, by the clock, so on
a quiet machine; and the instructions of a request.

  python3 bench/runs connections times [CLIENTS ..]         keep-alive connections (default: 1, 8, 50, 1000)
  python3 bench/runs connections new [CLIENTS ..]           the same, with a new connection for each request
  python3 bench/runs connections instructions [CLIENTS ..]  instructions of a request, keep-alive, one client after another
  python3 bench/runs connections one                        microseconds of a decision of one client, without other clients

The site has 1,000 policies and 1,000 entities. Nine requests of ten are decisions, the tenth is a put of an entity. At full
load each client sends its next request when it has its reply: this gives the requests a second. At half load as many
clients send half as many requests a second, at times that are fixed beforehand: this gives the median and the 99th
percentile, from that time to the end of the reply. The clients are processes beside the site, one for each other processor.
Needs valgrind for `instructions`. PROGRAM names another binary, which must serve many connections at once.

A plain engine behind the same loop does not exist yet, so there is no column for it, nor for nginx in front of a site.
"""
import collections
import multiprocessing
import os
import queue as queues
import select
import socket
import statistics
import sys
import tempfile
import time
from page import asking, putting, state
from running import COUNTING, Link, Served, collected, whole

PROGRAM, WHAT, SIZES = whole(), sys.argv[1] if sys.argv[1:] else "", [int(it) for it in sys.argv[2:]]
SIZES = SIZES or [1, 8, 50, 1000]
POLICIES = ENTITIES = 1000
# the seconds of a run, and of its beginning that is not counted
SECONDS, BEGINNING = 4.0, 0.5
SITE = ("--state", "state", "--clients", "1024")


def made(number):
    """Returns the request of this number: each tenth is a put."""
    return putting(number % ENTITIES) if number % 10 == 9 else asking(number % ENTITIES)


class Client:
    """A connection that has one request under way at a time."""

    def __init__(self, port, is_kept):
        self.port, self.is_kept, self.link = port, is_kept, None

    def ask(self, request, began):
        """Sends a request, over a new connection if the last one is not kept."""
        if self.link is None:
            self.link = socket.create_connection(("127.0.0.1", self.port))
            self.link.setsockopt(socket.IPPROTO_TCP, socket.TCP_NODELAY, 1)
        self.came, self.began = b"", began
        self.link.sendall(request)

    def is_done(self):
        """Takes what came. Returns whether it is the whole reply."""
        part = self.link.recv(65536)
        self.came += part
        at = self.came.find(b"\r\n\r\n")
        size = at + 4 + int(self.came[:at].split(b"Content-Length: ")[1].split(b"\r\n")[0]) if at >= 0 else 0
        if not part or at >= 0 and not self.came.startswith(b"HTTP/1.1 200 "):
            sys.exit(f"expected a reply with status 200, got {self.came[:200]!r}")
        return 0 < size <= len(self.came)

    def leave(self):
        """Ends the connection, unless it is kept."""
        if not self.is_kept:
            self.link.close()
            self.link = None


class Load:
    """Clients of a process, and the seconds that each of their requests took."""

    def __init__(self, port, count, is_kept, first):
        self.free = collections.deque(Client(port, is_kept) for _ in range(count))
        self.poll, self.busy, self.took, self.next = select.epoll(), {}, [], first

    def send(self, began):
        """Sends the next request, which was to be sent at this time."""
        client = self.free.popleft()
        client.ask(made(self.next), began)
        self.next += 1
        self.busy[client.link.fileno()] = client
        self.poll.register(client.link, select.EPOLLIN)

    def receive(self, seconds):
        """Takes what comes in so many seconds."""
        for at, _ in self.poll.poll(seconds):
            client = self.busy[at]
            if client.is_done():
                self.took.append((client.began, time.monotonic() - client.began))
                self.poll.unregister(at)
                del self.busy[at]
                client.leave()
                self.free.append(client)

    def run(self, begin, rate):
        """Sends requests from a time on: as many as the clients can, or so many a second."""
        sent, end = 0, begin + SECONDS
        while (now := time.monotonic()) < end or self.busy:
            while self.free and now < end and (rate is None or begin + sent / rate <= now):
                self.send(now if rate is None else begin + sent / rate)
                sent += 1
            due = begin + sent / rate - now if rate and self.free else 1.0
            self.receive(max(0.0, min(due, 1.0)))
        return [took for began, took in self.took if began >= begin + BEGINNING]


def loaded(port, clients, is_kept, rate=None):
    """Returns the seconds that each request took, of so many clients in several processes."""
    count = max(1, min(clients, len(os.sched_getaffinity(0)) - 1))
    shares = [clients // count + (at < clients % count) for at in range(count)]
    begin, queue = time.monotonic() + 0.5, multiprocessing.Queue()

    def work(at):
        queue.put(Load(port, shares[at], is_kept, at * 1_000_000).run(begin, rate and rate / count))

    workers = [multiprocessing.Process(target=work, args=(at,), daemon=True) for at in range(count)]
    for it in workers:
        it.start()
    found = []
    for _ in workers:
        try:
            found += queue.get(timeout=10 * SECONDS)
        except queues.Empty:
            sys.exit("expected the times of each process of clients, got none")
    for it in workers:
        it.join()
    if not found:
        sys.exit(f"expected replies within {SECONDS} seconds, got none")
    return found


def microseconds(seconds, part):
    """Returns the time in microseconds below which this part of the requests are."""
    return sorted(seconds)[min(len(seconds) - 1, int(part * len(seconds)))] * 1e6


def times(room, is_kept):
    print(f"{'clients':>7} {'a second':>9} {'half load: median, us':>21} {'99 %, us':>9} {'ratio':>6} {'KiB':>7}")
    for clients in SIZES:
        with Served([PROGRAM], room, *SITE) as site:
            rate = len(loaded(site.port, clients, is_kept)) / (SECONDS - BEGINNING)
            half = loaded(site.port, clients, is_kept, rate / 2)
            middle, most = microseconds(half, 0.5), microseconds(half, 0.99)
            print(f"{clients:>7} {rate:>9,.0f} {middle:>21,.0f} {most:>9,.0f} {most / middle:>6.1f} {site.peak():>7}", flush=True)


def counted(room, clients, requests):
    """Returns the instructions of a site that answers so many requests, by its clients in turn."""
    with Served([*COUNTING, PROGRAM], room, *SITE) as site:
        links = [Link(site.port) for _ in range(clients)]
        for number in range(requests):
            [(status, body)] = links[number % clients].ask(made(number))
            if status != 200:
                sys.exit(f"expected status 200, got {status}: {body!r}")
        for link in links:
            link.close()
        site.child.terminate()
        site.child.wait()
        return collected(site.told())


def instructions(room):
    print(f"{'clients':>7} {'a request, Ir':>14}")
    for clients in SIZES:
        few, many = (counted(room, clients, clients + more) for more in (500, 1500))
        print(f"{clients:>7} {(many - few) / 1000:>14,.0f}", flush=True)


def one(room):
    with Served([PROGRAM], room, *SITE) as site:
        link, found = Link(site.port), []
        for number in range(20_000):
            began = time.perf_counter()
            link.ask(asking(number % ENTITIES))
            found.append(time.perf_counter() - began)
        link.close()
    print(f"a decision of one client: {statistics.median(found) * 1e6:.1f} us, {microseconds(found, 0.99):.1f} us for 99 %")


MEASURES = {
    "times": lambda room: times(room, True),
    "new": lambda room: times(room, False),
    "instructions": instructions,
    "one": one,
}
if WHAT not in MEASURES:
    sys.exit("usage: python3 bench/runs connections times | new | instructions | one")
with tempfile.TemporaryDirectory() as room:
    begun = state(PROGRAM, room, POLICIES, ENTITIES)
    with open(f"{room}/state", "wb") as file:
        file.write(begun)
    MEASURES[WHAT](room)
