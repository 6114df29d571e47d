r"""Measures HTTP over memory and over loopback, without a site: by the program bench/programs/stream_measures.

python3 bench/runs http memory [REQUESTS]     instructions of a GET with five fields, and requests a second
python3 bench/runs http loopback [REQUESTS]   requests a second on one keep-alive connection, one by one and 32 together
python3 bench/runs http slow                  instructions of a head of 16,384 bytes, of a body of 65,536 after a head of
                                            4,096 and of one of 8,388,608, each at once and, except the longest, byte
                                            by byte
"""
import subprocess
import sys
import time
from running import COUNTING, Link, collected, free_port, part

PROGRAM = part("stream_measures")
FIELDS = ("Host: 127.0.0.1:7000", "User-Agent: bench", "Accept: */*", "Accept-Encoding: gzip", "Connection: keep-alive")
REQUEST = "\r\n".join(("GET /v1/policies/p HTTP/1.1", *FIELDS, "", "")).encode()
REPLY = b"HTTP/1.1 200 OK\r\nContent-Type: application/json\r\nContent-Length: 14\r\n\r\n/v1/policies/p"
# texts for the program: a head of 16,384 bytes with one field and with 64, and two bodies
ONE_FIELD = r"GET / HTTP/1.1\r\nh: " + "a" * 16361 + r"\r\n\r\n"
FIELDS_64 = r"GET / HTTP/1.1\r\n" + ("h: " + "a" * 251 + r"\r\n") * 63 + "h: " + "a" * 233 + r"\r\n\r\n"
BEHIND = r"PUT / HTTP/1.1\r\nContent-Length: 65536\r\nh: " + "a" * 4050 + r"\r\n\r\n" + r"\k" * 64
BODY = r"PUT / HTTP/1.1\r\nContent-Length: 8388608\r\n\r\n" + r"\k" * 8192
ROWS = (
    ("head of one field, at once", "whole", ONE_FIELD), ("head of one field, byte by byte", "slow", ONE_FIELD),
    ("head of 64 fields, at once", "whole", FIELDS_64), ("head of 64 fields, byte by byte", "slow", FIELDS_64),
    ("body of 65,536 bytes behind a head of 4,096, at once", "whole", BEHIND),
    ("body of 65,536 bytes behind a head of 4,096, byte by byte", "slow", BEHIND),
    ("body of 8,388,608 bytes, at once, including the making of its bytes and of the reply", "whole", BODY),
)


def counted(row):
    """Returns the instructions of a run over one line of input."""
    ran = subprocess.run([*COUNTING, PROGRAM], input=row + "\n", text=True, capture_output=True, check=False)
    return collected(ran.stderr)


def seconds(count):
    """Returns the seconds of serving so many requests over memory."""
    began = time.monotonic()
    output = subprocess.run([PROGRAM], input=f"many {count}\n", text=True, capture_output=True, check=True).stdout
    if f"{count} calls" not in output or "ended: true" not in output:
        sys.exit(f"expected {count} calls, got: {output}")
    return time.monotonic() - began


def over_memory(requests):
    # includes making the stream
    print(f"instructions a request: {(counted('many 1500') - counted('many 500')) / 1000:.0f}")
    seconds(1000)
    took = min(seconds(requests) for _ in range(3)) - min(seconds(0) for _ in range(3))
    print(f"over memory: {requests / took:,.0f} requests a second")


def asked(port, requests, together):
    """Returns the number of requests that are answered in a second on one connection, so many sent together."""
    stream = Link(port).stream
    began = time.monotonic()
    for _ in range(requests // together):
        stream.sendall(REQUEST * together)
        left = len(REPLY) * together
        while left:
            came = stream.recv(left)
            if not came:
                sys.exit("expected a reply, got the end of the connection")
            left -= len(came)
    took = time.monotonic() - began
    stream.close()
    return requests / took


def loopback(requests):
    port, requests = free_port(), requests // 32 * 32
    server = subprocess.Popen([PROGRAM, "listen", f"127.0.0.1:{port}", "2"], stdout=subprocess.PIPE)
    try:
        server.stdout.readline()
        print(f"over loopback, one by one: {asked(port, requests, 1):,.0f} requests a second")
        print(f"over loopback, 32 together: {asked(port, requests, 32):,.0f} requests a second")
        server.wait(10)
    finally:
        server.kill()


def slow():
    none = counted("whole ")
    for name, word, text in ROWS:
        print(f"{name}: {counted(f'{word} {text}') - none} instructions", flush=True)


WHAT, COUNT = sys.argv[1] if sys.argv[1:] else "", int(sys.argv[2]) if sys.argv[2:] else 0
if WHAT == "memory":
    over_memory(COUNT or 400_000)
elif WHAT == "loopback":
    loopback(COUNT or 64_000)
elif WHAT == "slow":
    slow()
else:
    sys.exit("usage: python3 bench/runs http memory | loopback | slow")
