#!/usr/bin/env python3
"""Makes each read and each write on the connections of a served site fail in turn, one on each connection.

    tests/faults/failing_connections.py PROGRAM

The script sends two streams of two requests each, whole, to one site that keeps running: on one connection after
another the 1st, 2nd, .. read or write fails, until a connection has no failure. Reads and writes move one byte each, a
few bytes, all bytes, or the first read gives just the first request. A twin site, on whose connections nothing fails,
gets exactly the requests that the site executed, and so gives the expected replies (tests/rows/streams.txt tests their
bytes):

- If a read fails, the requests that were read whole are executed, and their replies are written whole.
- If a write fails, the output is what the device took before: whole replies and a first part of one more, whose request
  is the last one executed. All requests that came before the last read have been answered.
- After a failure nothing is read or written. Both sites then have the same state, over a new connection.
- Without a failure the client gets all that was written, and no reset: what it still sends is read and discarded. Such
  reads are not counted. Nor is a call that would block.

After each kind of failures the site has as many open files as before its first connection. The same holds for streams
that are cut off, rejected or ended by a request, with a stated number of reads of 7 bytes. For some failures the output
is stated, for some streams the number of unread bytes. A read or write that a signal interrupts is made again. The
reads and writes of `pull` fail in turn, too: it reports each failure, and writes no state.

Some connections fail before they are established, several in a row. They do not count as served, only the first of a
row is warned of, and the next client is served. If the client aborted the connection, or a signal interrupted the call,
there is no warning. A site that cannot open a file while a client waits neither spins nor ends, and serves that client
later.

If a signal interrupts its waits, the site goes on. If a wait fails, it ends with status 3 and reports its address; what
was answered before has been sent.

tests/faults/fail.c, loaded before the C library, makes a call fail. Needs `cc`. The last line is `N passed, M failed`, of the
kinds of failures and the stated ones.
"""
import collections
import errno
import mmap
import os
import resource
import signal
import socket
import struct
import subprocess
import sys
import time

sys.dont_write_bytecode = True
sys.path.insert(0, os.path.dirname(os.path.dirname(os.path.abspath(__file__))))

import tried  # noqa: E402
from rows.commands import Peer  # noqa: E402
from rows.sites import HOST, PATIENCE, Processes, Site, connected, listening, request, sent, to_end  # noqa: E402

TOP = os.path.dirname(os.path.dirname(os.path.dirname(os.path.abspath(__file__))))
PUT = request("PUT", "/v1/policies/p", b"permit(principal, action, resource);")
DELETE = b"DELETE /v1/policies/p HTTP/1.0\r\n\r\n"
STREAMS = {
    "a summary and a put": (request("GET", "/v1/summary"), PUT),
    "a put and a deletion": (PUT, DELETE),
}
STATE = request("GET", "/v1/state")
NO_POLICY = request("GET", "/v1/policies/a")
NO_POLICY_REPLY = (
    b"HTTP/1.1 404 Not Found\r\nContent-Type: application/json\r\nContent-Length: 48\r\n\r\n"
    b'{"error":{"code":60,"place":null,"within":null}}'
)
# a connection each, at a site with nothing stored: the requests, which call fails at what sizes of calls, what goes out,
# and how many bytes are unread
STATED = {
    "the second read of 64 bytes fails, within a put": (
        (NO_POLICY, PUT),
        {"most_read": 64, "failing_read": 2},
        NO_POLICY_REPLY,
        54,
    ),
    "the second write of 100 bytes fails, before a put is read": (
        (STATE, PUT),
        {"most_read": 64, "most_written": 100, "failing_write": 2},
        b"HTTP/1.1 200 OK\r\nContent-Type: application/json\r\nContent-Length: 117\r\n\r\n"
        b'{"entries":[],"kind":"state"',
        49,
    ),
    "the second write of 100 bytes fails, once a put is done": (
        (PUT, NO_POLICY, STATE),
        {"most_read": 64, "most_written": 100, "failing_write": 2},
        b"HTTP/1.1 200 OK\r\nContent-Type: application/json\r\nContent-Length: 40\r\n\r\n"
        b'{"count":1,"impossible":true,',
        16,
    ),
}
GET_A = b"GET /a HTTP/1.1\r\n\r\n"
ENDING = b"GET /e HTTP/1.0\r\n\r\n"
CUT_OFF = b"PUT /b HTTP/1.1\r\nContent-Length: 30\r\n\r\nabcdefghij"
# the parts of a stream that are answered, each a request or a rejected beginning; the rest of the stream; and the number
# of reads of 7 bytes
SHORT = (
    ((b"GET /a HTTP/1.1\r\nHost: h\r\n\r\n", request("PUT", "/b", b"xyz")), b"", 11),
    ((ENDING,), b"GET /f HTTP/1.1\r\n\r\n", 3),
    (
        (
            b"GET /a HTTP/1.1\r\nHost: h\r\n\r\n",
            request("PUT", "/b", b"xyz"),
            b"POST /c HTTP/1.1\r\nCONTENT-LENGTH: 00\r\n\r\n",
            b"DELETE /d HTTP/1.1\r\nContent-Length: 1\r\n\r\n.",
            ENDING,
        ),
        b"GET /f HTTP/1.1\r\n\r\n",
        25,
    ),
    ((), CUT_OFF, 8),
    ((GET_A,), CUT_OFF, 11),
    ((b"GET / HTTP/1.2",), b"\r\n\r\n", 2),
    ((GET_A, b"{"), b"} / HTTP/1.1\r\n\r\n", 3),
    ((b"POST / HTTP/1.1\r\nContent-Length: 1\r\nContent-Length: 1\r\n\r\n",), b"x", 9),
    ((b"POST / HTTP/1.1\r\n\r\n",), b"", 3),
    ((b"PUT / HTTP/1.1\r\nContent-Length: 8388609\r\n\r\n",), b"", 7),
    ((GET_A, b"GET / HTTP/1.1\r\nTransfer-Encoding: chunked\r\n\r\n"), b"", 10),
    ((), b"\r\n\r\n", 2),
    ((), b"", 1),
)
SEVENS = {"most_read": 7, "most_written": 50}
# streams that are read in pieces of 7 bytes, what fails, and how many bytes are left unread
UNREAD = (
    (b"GET /a HTTP/1.1\r\nHost: h\r\n\r\nGET /b HTTP/1.1\r\nHost: h\r\n\r\n", {"failing_write": 1}, 28),
    (GET_A + ENDING + b"GET /f HTTP/1.1\r\n\r\nGET /g HTTP/1.1\r\n\r\n", {}, 34),
    (b"GET / HTTP/1.1\r\nTransfer-Encoding: chunked\r\n\r\n5\r\nabcde\r\n0\r\n\r\n", {}, 12),
    (b"{} and more that is never read", {}, 23),
    (b"PUT / HTTP/1.1\r\nContent-Length: 8388609\r\n\r\nabcdefghijklmnopqrstuvwxyz", {}, 20),
    (GET_A + b"GET /b HTTP/1.1\r\n\r\nGET /c", {}, 0),
)
LABEL = b"44136fa355b3678a1146ad16f7e8649e94fb4fc21fe77e8310c060f61caaff8a"
NO_NEWS = b'{"entries":[],"kind":"delta","schema":"%s","version":2}' % LABEL
# how many connections fail in a row before each one that a site serves, and by which error; 0 is the usual one, EMFILE
UNACCEPTED = (((1,), 0), ((4,), 0), ((2, 0, 1), 0), ((3,), errno.ECONNABORTED), ((3,), errno.EINTR))
# those that are no failures of the site
NO_FAILURES = (errno.ECONNABORTED, errno.EINTR)
WARNING = "warning: accept failed, trying again: "
# the errors of a wait that end a site
ENDING_WAITS = (errno.EBADF, errno.ENOMEM)
# a stream with more calls than this is reported as a fault
MOST = 10_000
# in seconds: how long a closed connection may stay open, to discard what its client still sends
LINGERS = 3

# the memory that tests/faults/fail.c shares: the first ten fields are the plan, the others its report
Plan = collections.namedtuple(
    "Plan",
    "failing_read failing_write most_read most_written failing_accepts failing_waits"
    " read_error write_error accept_error wait_error"
    " reads writes given given_last taken failed later",
    defaults=[0] * 17,
)
PLAIN = Plan()


class Fault(Exception):
    """A difference from what is expected of a connection."""


class Shared:
    """A plan in the file that tests/faults/fail.c reads and writes."""

    FORM = struct.Struct(f"{len(Plan._fields)}q")
    # the number of output bytes after it
    ROOM = 8192

    def __init__(self, path):
        with open(path, "w+b") as file:
            file.write(bytes(self.FORM.size + self.ROOM))
            file.flush()
            self.memory = mmap.mmap(file.fileno(), 0)

    def ask(self, plan):
        """Makes calls of the next connections fail by a plan."""
        self.FORM.pack_into(self.memory, 0, *plan)

    def told(self):
        """Returns the plan, and its report of the last connection."""
        return Plan(*self.FORM.unpack_from(self.memory))

    def out(self):
        """Returns the output on the last connection."""
        return self.memory[self.FORM.size : self.FORM.size + self.told().taken]


def answered(port, stream):
    """Returns the reply to a stream, and whether the connection was reset."""
    with connected(port) as link:
        came, is_reset = b"", False
        try:
            link.sendall(stream)
            link.shutdown(socket.SHUT_WR)
        except TimeoutError:
            raise
        except OSError:
            is_reset = True
        try:
            while part := link.recv(65536):
                came += part
        except ConnectionResetError:
            is_reset = True
        return came, is_reset


def open_files(process):
    """Returns the numbers of the open files of a process."""
    return {int(it) for it in os.listdir(f"/proc/{process.pid}/fd")}


def whole(requests, size):
    """Returns how many of the requests are complete in this many bytes of their stream."""
    count = end = 0
    for one in requests:
        end += len(one)
        count += end <= size
    return count


class Twins:
    """Two sites of one name: at the first calls fail, the second gets the requests that the first has executed."""

    def __init__(self, program, folder):
        library, plan, self.schema = (f"{folder}/{name}" for name in ("fail.so", "plan", "schema"))
        subprocess.run(["cc", "-O2", "-shared", "-fPIC", "-o", library, f"{TOP}/tests/faults/fail.c"], check=True)
        with open(self.schema, "wb") as file:
            file.write(b"{}")
        self.program, self.folder, self.shared = program, folder, Shared(plan)
        self.told, self.out = PLAIN, b""
        self.failing, self.plain = Processes(LD_PRELOAD=library, FAILING=plan), Processes()
        # for sites beside the two, so that none but them meets what is to fail there
        self.others_shared = Shared(f"{folder}/others_plan")
        self.others = Processes(LD_PRELOAD=library, FAILING=f"{folder}/others_plan")
        self.begin()

    def begin(self):
        """Starts both with empty stores."""
        self.shared.ask(PLAIN)
        self.site = Site(self.failing, self.program, self.schema, "1")
        self.twin = Site(self.plain, self.program, self.schema, "1")
        self.files = len(open_files(self.site.process))

    def begin_anew(self):
        """Restarts both, so that a fault does not affect other kinds."""
        self.site.end()
        self.twin.end()
        self.begin()

    def close(self):
        """Ends both."""
        for processes in (self.failing, self.plain, self.others):
            processes.close()

    def files_now(self):
        """Returns the number of open files of the first site, once its connections have ended."""
        sent(self.site.port, STATE)
        until = time.monotonic() + LINGERS
        while (count := len(open_files(self.site.process))) > self.files and time.monotonic() < until:
            time.sleep(0.01)
        return count

    def wanted(self, requests, told):
        """Returns the expected output, by what the device gave and took, once the twin has executed what the site has."""
        out, done = b"", 0
        for one in requests[: whole(requests, told.given)]:
            out, done = out + sent(self.twin.port, one), done + 1
            if told.failing_write and told.failed and len(out) > told.taken:
                break
        else:
            if told.failing_write and told.failed:
                raise Fault("expected the failed write to be of a reply, got a write after all replies")
            return out
        if whole(requests, told.given - told.given_last) >= done:
            raise Fault("expected a reply before the next read, got a read")
        return out[: told.taken]

    def tried(self, requests, plan, rest=b""):
        """Sends a stream to the site under a plan, and returns whether a call failed. Raises `Fault`.

        The rest of the stream gets no reply. The report of the device and the output are kept.
        """
        self.shared.ask(plan)
        came, is_reset = answered(self.site.port, b"".join(requests) + rest)
        told, out = self.told, self.out = self.shared.told(), self.shared.out()
        self.shared.ask(PLAIN)
        wanted = self.wanted(requests, told)
        if out != wanted:
            raise Fault(f"expected output {wanted!r}, got {out!r}")
        # if a call fails and bytes are left unread, the connection is reset, and bytes on their way may be lost
        if not out.startswith(came) or not (told.failed or (came, is_reset) == (out, False)):
            raise Fault(f"expected the client to get {out!r}, got {came!r}{' and a reset' if is_reset else ''}")
        if told.later:
            raise Fault(f"expected no calls after the failed one, got {told.later}")
        if self.site.process.poll() is not None:
            raise Fault("expected a running site, got one that has ended")
        state, other = sent(self.site.port, STATE), sent(self.twin.port, STATE)
        if not state or state != other:
            raise Fault(f"expected the state {other!r}, got {state!r}")
        return bool(told.failed)


def failures(twins, requests, call, sizes, rest=b""):
    """Makes each of these calls fail in turn, and returns their number. Raises `Fault`."""
    for number in range(1, MOST):
        try:
            failed = twins.tried(requests, PLAIN._replace(**{call: number}, **sizes), rest)
        except (Fault, OSError) as fault:
            raise Fault(f"number {number}: {fault or type(fault).__name__}") from fault
        if not failed:
            break
    else:
        raise Fault(f"expected at most {MOST} calls, got more")
    if twins.files_now() != twins.files:
        raise Fault(f"expected {twins.files} open files, got {twins.files_now()}")
    return number - 1


def kinds():
    """Yields the kinds of failures: what each is called, its stream, the call that fails, and the sizes of calls."""
    for stream, requests in STREAMS.items():
        for name, sizes in (
            ("one byte a call", {"most_read": 1, "most_written": 1}),
            ("one byte a read, three a write", {"most_read": 1, "most_written": 3}),
            ("few bytes a call", {"most_read": 7, "most_written": 50}),
            ("all at once", {}),
            ("the first request by the first read", {"most_read": len(requests[0])}),
        ):
            for call in ("failing_read", "failing_write"):
                yield f"{stream}, {name}, {call.removeprefix('failing_')}s that fail", requests, call, sizes


def stated(twins, requests, plan, out, unread):
    """Makes a stated call fail at two new sites. Raises `Fault`."""
    twins.begin_anew()
    if not twins.tried(requests, PLAIN._replace(**plan)):
        raise Fault("expected a failed call, got none")
    if twins.out != out:
        raise Fault(f"expected output {out!r}, got {twins.out!r}")
    left = len(b"".join(requests)) - twins.told.given
    if left != unread:
        raise Fault(f"expected {unread} unread bytes, got {left}")
    return "as stated"


def short(twins, requests, rest, reads):
    """Makes each read and each write fail of a stream that may be cut off, rejected, or ended by a request. Raises `Fault`.

    There are as many reads as stated, and for each reply a write for each of its pieces of 50 bytes.
    """
    sizes = [len(sent(twins.twin.port, one)) for one in requests]
    wanted = reads, sum(-(-size // SEVENS["most_written"]) for size in sizes)
    came = tuple(failures(twins, requests, call, SEVENS, rest) for call in ("failing_read", "failing_write"))
    if came != wanted:
        raise Fault(f"expected {wanted} reads and writes, got {came}")
    return "{} reads, {} writes".format(*came)


def unread(twins, stream, plan, left):
    """Checks how much of a stream is left unread, and that all that was written arrives if no call fails. Raises `Fault`."""
    twins.shared.ask(PLAIN._replace(**SEVENS)._replace(**plan))
    came = answered(twins.site.port, stream)
    told, out = twins.shared.told(), twins.shared.out()
    twins.shared.ask(PLAIN)
    if len(stream) - told.given != left:
        raise Fault(f"expected {left} unread bytes, got {len(stream) - told.given}")
    if not told.failed and came != (out, False):
        raise Fault(f"expected the client to get {out!r}, got {came[0]!r}{' and a reset' if came[1] else ''}")
    return f"{left} bytes unread"


def interrupted(twins, requests, call, error):
    """Has a signal interrupt each of these calls in turn, which changes nothing. Raises `Fault`."""
    for number in range(1, MOST):
        twins.shared.ask(PLAIN._replace(**{call: number, error: errno.EINTR}, **SEVENS))
        came = answered(twins.site.port, b"".join(requests))
        told = twins.shared.told()
        twins.shared.ask(PLAIN)
        wanted = b"".join(sent(twins.twin.port, one) for one in requests)
        if came != (wanted, False):
            raise Fault(f"number {number}: expected {wanted!r}, got {came[0]!r}{' and a reset' if came[1] else ''}")
        if not told.failed:
            return number - 1
    raise Fault(f"expected at most {MOST} calls, got more")


def pulled(twins, call):
    """Makes each of these calls of `pull` fail in turn: one for each piece of 7 bytes of the request or the reply.
    Raises `Fault`."""
    reply = b"HTTP/1.1 200 OK\r\nContent-Length: %d\r\n\r\n" % len(NO_NEWS) + NO_NEWS
    for number in range(1, MOST):
        twins.shared.ask(PLAIN._replace(most_read=7, most_written=7, **{call: number}))
        peer = Peer(reply)
        state = f"{twins.folder}/state"
        words = ("--schema", twins.schema, "--site", "1", "--from", peer.address, "--state", state)
        how = {"env": twins.failing.environment, "stdin": subprocess.DEVNULL, "capture_output": True, "timeout": 240}
        ran = subprocess.run([twins.program, "pull", *words], check=False, **how)
        heard, told = peer.close(), twins.shared.told()
        twins.shared.ask(PLAIN)
        came = ran.returncode, ran.stdout, ran.stderr
        if not told.failed:
            pieces = -(-len(heard if call == "failing_write" else reply) // 7)
            if came != (0, b'{"taken":0}\n', b"") or number - 1 != pieces:
                raise Fault(f"expected {pieces} failing calls, got {number - 1}, and the outcome {came}")
            os.remove(state)
            return number - 1
        if came != (3, b"", b"fault: %s\n" % peer.address.encode()) or told.later or os.path.exists(state):
            raise Fault(f"number {number}: expected status 3, its error and no later call, got {came} and {told.later} later calls")
    raise Fault(f"expected at most {MOST} calls, got more")


def unaccepted(twins, rows, error):
    """Makes so many connections fail in a row before each one that a site serves.
    Raises `Fault`."""
    twins.others_shared.ask(PLAIN._replace(failing_accepts=rows[0], accept_error=error))
    process, port = listening(twins.others, twins.program, twins.schema, "1", "--connections", str(len(rows)))
    came = []
    try:
        for more in (*rows[1:], 0):
            with connected(port) as link, link.makefile("rb") as incoming:
                link.sendall(NO_POLICY)
                came.append(incoming.read(len(NO_POLICY_REPLY)))
                # no other client waits, so those that fail are before the next one
                twins.others_shared.ask(PLAIN._replace(failing_accepts=more, accept_error=error))
        process.wait(PATIENCE)
    except (OSError, subprocess.TimeoutExpired) as fault:
        came.append(fault)
    end = twins.others.end(process)
    warned = "\n".join(f"{WARNING}{HOST}:{port}" for row in rows if row and error not in NO_FAILURES)
    if (came, end) != ([NO_POLICY_REPLY] * len(rows), (0, warned)):
        raise Fault(f"expected {len(rows)} replies and the end {(0, warned)}, got {came} and {end}")
    return f"{len(rows)} served"


def interrupted_waits(twins):
    """Has signals interrupt the waits of a site, before a client comes and while one is idle. Raises `Fault`."""
    plan = PLAIN._replace(failing_waits=5)
    twins.others_shared.ask(plan)
    process, port = listening(twins.others, twins.program, twins.schema, "1", "--connections", "1")
    came = []
    with connected(port) as link, link.makefile("rb") as incoming:
        for _ in range(3):
            link.sendall(NO_POLICY)
            came.append(incoming.read(len(NO_POLICY_REPLY)))
            twins.others_shared.ask(plan)
            # a stopped wait goes on as an interrupted one
            process.send_signal(signal.SIGSTOP)
            process.send_signal(signal.SIGCONT)
            until = time.monotonic() + PATIENCE
            while twins.others_shared.told().failing_waits:
                if time.monotonic() > until:
                    raise Fault(f"expected further waits, got {twins.others_shared.told()}")
                time.sleep(0.01)
    process.wait(PATIENCE)
    end = twins.others.end(process)
    if (came, end) != ([NO_POLICY_REPLY] * 3, (0, "")):
        raise Fault(f"expected three replies and the end {(0, '')}, got {came} and {end}")
    return "served"


def failed_wait(twins, error):
    """Makes the waits of a site fail, before its first client and behind a reply. Raises `Fault`."""
    for is_first in (True, False):
        # calls that only look, after a wait, fail too, without an effect
        plan = PLAIN._replace(failing_waits=9, wait_error=error)
        twins.others_shared.ask(plan if is_first else PLAIN)
        process, port = listening(twins.others, twins.program, twins.schema, "1")
        came = NO_POLICY_REPLY
        if not is_first:
            with connected(port) as link:
                link.sendall(NO_POLICY)
                came = link.recv(len(NO_POLICY_REPLY), socket.MSG_WAITALL)
                # it waits by now, for what follows
                time.sleep(0.3)
                twins.others_shared.ask(plan)
                link.sendall(NO_POLICY)
                came = came and to_end(link)
        try:
            process.wait(LINGERS)
        except subprocess.TimeoutExpired:
            pass  # its status says so
        end = twins.others.end(process)
        if (came, end) != (NO_POLICY_REPLY, (3, f"fault: {HOST}:{port}")):
            raise Fault(f"expected a reply and the end {(3, f'fault: {HOST}:{port}')}, got {came!r} and {end}")
    return "ended"


def processor_time(process):
    """Returns the processor seconds that a process has used."""
    with open(f"/proc/{process.pid}/stat", encoding="utf-8") as file:
        fields = file.read().rpartition(")")[2].split()
    return (int(fields[11]) + int(fields[12])) / os.sysconf("SC_CLK_TCK")


def without_files(twins):
    """Starts a site that cannot open a file, and lets a client wait; then it can again. Raises `Fault`."""
    process, port = listening(twins.plain, twins.program, twins.schema, "1")
    limits = resource.prlimit(process.pid, resource.RLIMIT_NOFILE)
    taken = open_files(process)
    no_more = min(set(range(len(taken) + 1)) - taken)
    resource.prlimit(process.pid, resource.RLIMIT_NOFILE, (no_more, limits[1]))
    try:
        with connected(port) as link:
            link.sendall(NO_POLICY)
            began = processor_time(process)
            time.sleep(2)
            taken = processor_time(process) - began
            resource.prlimit(process.pid, resource.RLIMIT_NOFILE, limits)
            link.shutdown(socket.SHUT_WR)
            came = to_end(link)
    except OSError as fault:
        raise Fault(f"expected a reply, got {type(fault).__name__} and the end {twins.plain.end(process)}") from fault
    _, told = twins.plain.end(process)
    if taken > 0.2 or came != NO_POLICY_REPLY or told != f"{WARNING}{HOST}:{port}":
        raise Fault(f"expected at most 0.2 processor seconds, a reply and one warning, got {taken}, {came!r} and {told!r}")
    return "served once it may open files"


def all_kinds():
    """Yields each test: its name, and a function."""
    for name, *kind in kinds():
        yield name, lambda twins, kind=kind: failures(twins, *kind)
    for kind in SHORT:
        name = b"".join(kind[0]) + kind[1]
        yield f"{name.decode()!r}, in pieces of 7 and 50 bytes", lambda twins, kind=kind: short(twins, *kind)
    for kind in UNREAD:
        yield f"{kind[0].decode()!r}, in pieces of 7 bytes", lambda twins, kind=kind: unread(twins, *kind)
    for call in ("failing_read", "failing_write"):
        name = f"{call.removeprefix('failing_')}s of `pull` that fail, 7 bytes a call"
        yield name, lambda twins, call=call: pulled(twins, call)
    for name, kind in STATED.items():
        yield name, lambda twins, kind=kind: stated(twins, *kind)
    for call, error in (("failing_read", "read_error"), ("failing_write", "write_error")):
        name = f"{call.removeprefix('failing_')}s that a signal interrupts, 7 and 50 bytes a call"
        yield name, lambda twins, it=(call, error): interrupted(twins, STREAMS["a put and a deletion"], *it)
    for rows, error in UNACCEPTED:
        name = f"{', '.join(map(str, rows))} that fail before they are established, before each connection of {len(rows)}"
        name += f", by {errno.errorcode[error]}" if error else ""
        yield name, lambda twins, it=(rows, error): unaccepted(twins, *it)
    yield "waits that a signal interrupts", interrupted_waits
    for error in ENDING_WAITS:
        yield f"a wait that fails by {errno.errorcode[error]}", lambda twins, error=error: failed_wait(twins, error)
    yield "two seconds without a file to open, and a client that waits", without_files


def rows(program, folder):
    twins = Twins(program, folder)
    try:
        for name, tries in all_kinds():
            try:
                came, is_right = tries(twins), True
            except (Fault, OSError, subprocess.TimeoutExpired) as fault:
                came, is_right = f"FAILED: {fault or type(fault).__name__}", False
                twins.begin_anew()
            yield name, came, is_right
    finally:
        twins.close()


if __name__ == "__main__":
    sys.exit(tried.main(sys.argv[1:], __doc__, rows))
