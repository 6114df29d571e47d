#!/usr/bin/env python3
"""Measures one authorize in the process and over loopback HTTP.

    embedding/cost.py PROGRAM        (after tests/embedding.py, which builds the library)

Prints microseconds, the best of five rounds: with 10 and with 10,000 policies from C, and with 10 from Python, and over HTTP
on one connection, from C and from Python. Standard library alone.
"""
import argparse
import http.client
import json
import os
import socket
import subprocess
import sys
import tempfile
import time

HERE = os.path.dirname(os.path.abspath(__file__))
OUT = f"{HERE}/out"
sys.dont_write_bytecode = True
sys.path.insert(0, f"{HERE}/python")
from weirbowl import Site, request  # noqa: E402

SCHEMA = {"": {"entityTypes": {"User": {}, "Photo": {}}, "actions": {"view": {"appliesTo": {"principalTypes": ["User"], "resourceTypes": ["Photo"]}}}}}
ASKED = request(("User", "u1"), ("Action", "view"), ("Photo", "p1"))


def best(call, calls):
    """Returns the microseconds of a call, the best of five rounds."""
    rounds = []
    for _ in range(5):
        began = time.perf_counter()
        for _ in range(calls):
            call()
        rounds.append((time.perf_counter() - began) / calls * 1e6)
    return min(rounds)


def main(program):
    def told(*words):
        return float(subprocess.run(words, check=True, capture_output=True, text=True).stdout)

    for name, more in (("cost", [f"{OUT}/libweirbowl.a"]), ("loopback", [])):
        subprocess.run(["cc", "-std=gnu11", "-O2", f"-I{HERE}/include", "-o", f"{OUT}/{name}", f"{HERE}/c/{name}.c", *more], check=True)
    with tempfile.TemporaryDirectory() as folder:
        files = {name: f"{folder}/{name}" for name in ("schema", "request", "10", "10000")}
        for name, value in (("schema", SCHEMA), ("request", ASKED)):
            with open(files[name], "w", encoding="utf-8") as file:
                json.dump(value, file)
        for count in (10, 10000):
            with Site(SCHEMA, "made") as site:
                for n in range(count):
                    site.put_policy(f"p{n}", f'permit(principal == User::"u{n}", action, resource);')
                with open(files[str(count)], "wb") as file:
                    file.write(site.state())
        for count in ("10", "10000"):
            print(f"C, {count} policies: {told(f'{OUT}/cost', files['schema'], files[count], files['request'], '100000'):.2f}")
        with Site(SCHEMA, "cost") as site, open(files["10"], "rb") as state:
            site.merge(state.read())
            line = json.dumps(ASKED).encode()
            print(f"Python, JSON as bytes: {best(lambda: site.authorize(line), 20000):.2f}")
            print(f"Python, JSON as a dict: {best(lambda: site.authorize(ASKED), 20000):.2f}")
        with socket.socket() as free:
            free.bind(("127.0.0.1", 0))
            port = free.getsockname()[1]
        words = [program, "serve", "--schema", files["schema"], "--site", "cost", "--state", files["10"], "--listen", f"127.0.0.1:{port}"]
        with subprocess.Popen([*words, "--connections", "2"], stdout=subprocess.DEVNULL) as served:
            time.sleep(1)
            print(f"HTTP, client in C: {told(f'{OUT}/loopback', str(port), files['request'], '20000'):.2f}")
            link = http.client.HTTPConnection("127.0.0.1", port)
            link.connect()
            link.sock.setsockopt(socket.IPPROTO_TCP, socket.TCP_NODELAY, 1)

            def ask():
                link.request("POST", "/v1/authorize", line)
                link.getresponse().read()

            print(f"HTTP, client in Python: {best(ask, 4000):.2f}")
            link.close()
            served.wait(20)


if __name__ == "__main__":
    words = argparse.ArgumentParser(description=__doc__, formatter_class=argparse.RawDescriptionHelpFormatter)
    words.add_argument("program", metavar="PROGRAM", help="the built program")
    main(os.path.abspath(words.parse_args().program))
