#!/usr/bin/env python3
"""Asks the twelve requests of examples/tinytodo, and compares the answers with answers.txt, which was worked out by hand.

    [PROGRAM=FILE] examples/tinytodo.py

Each policy has to pass the check under the schema first. Each request is asked twice: of the files, and of a site that begins
with the state that the files are loaded into. The last line is `N passed, M failed`. PROGRAM names another binary than the built
one. Standard library alone.
"""
import argparse
import http.client
import os
import socket
import subprocess
import sys
import tempfile

HERE = os.path.dirname(os.path.abspath(__file__))
PROGRAM = os.path.realpath(os.environ.get("PROGRAM") or f"{HERE}/../crates/cedar_site/out/cedar_site")
FOLDER = f"{HERE}/tinytodo"
SCHEMA = ("--schema", "schema.json")
FILES = ("--policies", "policies.cedar", "--entities", "entities.json")
POLICIES = ("anyone-creates", "owner", "shared", "editors", "admins", "interns")


def told(*words):
    """Returns the status of a command, and both of its streams."""
    done = subprocess.run([PROGRAM, *words], cwd=FOLDER, capture_output=True, text=True, timeout=120, check=False)
    return done.returncode, done.stdout, done.stderr


def answers():
    """Yields the requests, each with its answer."""
    with open(f"{FOLDER}/answers.txt", encoding="utf-8") as file:
        for line in file:
            name, _, answer = line.partition(" ")
            yield f"requests/{name}.json", answer


def of_files():
    """Yields the commands over the files: the name, the expected outcome and the actual one of each."""
    verdicts = "".join(f'{{"id":"{it}","verdict":"accepted"}}\n' for it in POLICIES)
    yield "check", (0, verdicts, ""), told("check", *SCHEMA, "policies.cedar")
    for request, answer in answers():
        yield request, (0, answer, ""), told("decide", *SCHEMA, *FILES, "--request", request)


def free_address():
    """Returns a free address of this machine."""
    with socket.socket() as it:
        it.bind(("127.0.0.1", 0))
        return f"127.0.0.1:{it.getsockname()[1]}"


def authorized(address, request):
    """Returns the status and the answer of a site to a request."""
    with open(f"{FOLDER}/{request}", "rb") as file:
        body = file.read()
    connection = http.client.HTTPConnection(address, timeout=120)
    connection.request("POST", "/v1/authorize", body, {"Connection": "close"})
    reply = connection.getresponse()
    status, answer = reply.status, reply.read().decode()
    connection.close()
    return status, f"{answer}\n"


def of_a_site():
    """Yields the same for a site that starts with the state of the files."""
    status, state, faults = told("load", *SCHEMA, "--site", "files", *FILES)
    yield "load", (0, ""), (status, faults)
    with tempfile.NamedTemporaryFile("w", suffix=".json") as file:
        file.write(state)
        file.flush()
        address, asked = free_address(), list(answers())
        words = ("serve", *SCHEMA, "--site", "todo", "--listen", address, "--state", file.name)
        with subprocess.Popen([PROGRAM, *words, "--connections", str(len(asked))], cwd=FOLDER, stdout=subprocess.PIPE) as site:
            line = site.stdout.readline().decode()
            yield "the site's first line", f"listening {address}\n", line
            if not line:
                return
            for request, answer in asked:
                yield f"{request} of a site", (200, answer), authorized(address, request)
            yield "the site's end", 0, site.wait(20)


def main():
    argparse.ArgumentParser(description=__doc__, formatter_class=argparse.RawDescriptionHelpFormatter).parse_args()
    passed = failed = 0
    for ask in (of_files, of_a_site):
        for name, wanted, came in ask():
            passed, failed = passed + (came == wanted), failed + (came != wanted)
            if came != wanted:
                print(f"{name}: expected {wanted!r}, got {came!r}")
    print(f"{passed} passed, {failed} failed")
    return 1 if failed else 0


if __name__ == "__main__":
    sys.exit(main())
