"""Runs programs and counts their cost, and serves sites, for the measures.

Standard library alone. Counting needs valgrind, TIMING GNU time.
"""
import os
import re
import socket
import subprocess
import sys
import tempfile
import time

# with these arguments before its own, a run reports its instructions, which do not depend on the machine's load
COUNTING = ("valgrind", "--tool=callgrind", "--callgrind-out-file=/dev/null")
# and with these its memory; the system includes that of its parent at the start
TIMING = ("/usr/bin/time", "-f", "%M")


TOP = os.path.dirname(os.path.dirname(os.path.dirname(os.path.abspath(__file__))))


class Program(str):
    """The path of a program."""

    def printed(self, *words):
        """Returns the standard output of a run with these arguments."""
        return subprocess.run([self, *words], capture_output=True, text=True, check=False).stdout


def named():
    """Returns the program that PROGRAM names, or None."""
    return Program(os.path.realpath(os.environ["PROGRAM"])) if os.environ.get("PROGRAM") else None


def build(*words):
    """Proves and builds by tools/build/build.py."""
    subprocess.run([sys.executable, f"{TOP}/tools/build/build.py", *words], check=True)


def whole():
    """Returns the program `cedar_site`, as the gate built it; proves and builds it if it is absent."""
    built = Program(f"{TOP}/crates/cedar_site/out/cedar_site")
    if named() is None and not os.access(built, os.X_OK):
        build("cedar_site")
    return named() or built


def part(name):
    """Returns a program of bench/programs; proves and builds it unless it was built from these sources."""
    if named() is None:
        build("--if-needed", f"bench/programs/{name}")
    return named() or Program(f"{TOP}/bench/out/{name}")


def counted(program, *words):
    """Returns the instructions of a run."""
    return collected(Ended([*COUNTING, program, *words]).err)


def memory(program, *words):
    """Returns the greatest resident memory of a run, in KiB."""
    return resident(Ended([*TIMING, program, *words]).err)


def collected(report):
    """Returns the instructions that a run reported."""
    return int(re.search(r"Collected *: *(\d+)", report)[1])


def resident(report):
    """Returns the greatest resident memory that a run reported, in KiB."""
    return int(report.split()[-1])


def waited(child):
    """Waits for the end of a child. Returns its status, and its seconds of processor time.

    Other work on the machine changes these less than seconds by the clock.
    """
    _, status, used = os.wait4(child.pid, 0)
    child.returncode = os.waitstatus_to_exitcode(status)
    return child.returncode, used.ru_utime


class Ended:
    """A run that ended: its status, its seconds of processor time, its standard output and its standard error."""

    def __init__(self, words, room=None):
        with tempfile.TemporaryFile() as out, tempfile.TemporaryFile() as err:
            child = subprocess.Popen(words, cwd=room, stdin=subprocess.DEVNULL, stdout=out, stderr=err)
            self.status, self.seconds = waited(child)
            out.seek(0)
            err.seek(0)
            self.out, self.err = out.read(), err.read().decode(errors="replace")


def request(method, path, body=b""):
    """Returns the bytes of a request."""
    return f"{method} {path} HTTP/1.1\r\nContent-Length: {len(body)}\r\n\r\n".encode() + body


class Link:
    """A keep-alive connection."""

    def __init__(self, port):
        self.stream, self.buffer = socket.create_connection(("127.0.0.1", port), timeout=600), b""
        self.stream.setsockopt(socket.IPPROTO_TCP, socket.TCP_NODELAY, 1)

    def reply(self):
        """Returns the status and the body of the next reply. Fails if the connection ends before it."""
        while True:
            at = self.buffer.find(b"\r\n\r\n")
            if at >= 0:
                head, begin = self.buffer[:at], at + 4
                end = begin + int(head.split(b"Content-Length: ")[1].split(b"\r\n")[0])
                if len(self.buffer) >= end:
                    body, self.buffer = self.buffer[begin:end], self.buffer[end:]
                    return int(head[9:12]), body
            came = self.stream.recv(1 << 16)
            if not came:
                raise ConnectionResetError("expected a reply, got the end of the connection")
            self.buffer += came

    def ask(self, *requests):
        """Returns the replies to requests that are sent together."""
        self.stream.sendall(b"".join(requests))
        return [self.reply() for _ in requests]

    def close(self):
        self.stream.close()


def free_port():
    with socket.socket() as it:
        it.bind(("127.0.0.1", 0))
        return it.getsockname()[1]


class Served:
    """Site 1, served on loopback under the file `schema` of a folder; `words` are further arguments of the command.

    `took` is the number of seconds until it listened. `listens` is false if it ended before that.
    """

    def __init__(self, command, room, *words, **how):
        self.port, self.err = free_port(), tempfile.TemporaryFile()
        serve = ["serve", "--schema", "schema", "--site", "1", "--listen", f"127.0.0.1:{self.port}", *words]
        began = time.perf_counter()
        self.child = subprocess.Popen([*command, *serve], cwd=room, stdout=subprocess.PIPE, stderr=self.err, **how)
        self.listens = self.child.stdout.readline().startswith(b"listening ")
        self.took = time.perf_counter() - began

    def peak(self):
        """Returns its greatest resident memory so far, in KiB."""
        with open(f"/proc/{self.child.pid}/status", encoding="utf-8") as file:
            return next(int(line.split()[1]) for line in file if line.startswith("VmHWM"))

    def ended(self):
        """Waits for its end. Returns its status, and its seconds of processor time."""
        return waited(self.child)

    def kill(self):
        """Ends it, if it has not ended."""
        if self.child.poll() is None:
            self.child.kill()
            self.child.wait()

    def told(self):
        """Ends it, if it has not ended. Returns its standard error."""
        self.kill()
        self.err.seek(0)
        return self.err.read().decode(errors="replace")

    def close(self):
        self.kill()
        self.child.stdout.close()
        self.err.close()

    def __enter__(self):
        return self

    def __exit__(self, *_):
        self.close()
