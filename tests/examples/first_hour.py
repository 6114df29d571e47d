#!/usr/bin/env python3
"""Types the commands of README.md, docs/operating.md and examples/tinytodo/README.md, block by block, and compares their output with what the page says.

    [PROGRAM=FILE] tests/examples/first_hour.py

A block is a part of a page that is indented by four spaces. Those that begin with a command are typed into one shell a page,
in a copy of examples/. `cedar_site` is the built program, or the one that PROGRAM names. Ports are replaced by free ones.
Served sites go to the background; all end before one starts at an address where another listens. Each
command must end with status 0, and each block must print its texts of WANTED, in order. The last line is `N passed, M
failed`. Without bash, curl, sha256sum or timeout the script is skipped, and says so. Standard library alone.
"""
import argparse
import os
import re
import shutil
import signal
import socket
import subprocess
import sys
import tempfile
import time

TOP = os.path.dirname(os.path.dirname(os.path.dirname(os.path.abspath(__file__))))
PROGRAM = os.path.abspath(os.environ.get("PROGRAM", f"{TOP}/crates/cedar_site/out/cedar_site"))
# each page, and the folder of its shell
PAGES = (
    ("README.md", "."),
    ("docs/operating.md", "."),
    ("examples/tinytodo/README.md", "examples/tinytodo"),
)
TYPED = re.compile(r"(cd|sed|tail|cedar_site (check|decide|load|serve|exchange|pull|merge|drill)|\./cedar_site|curl) |\w+=http")
# the expected output of a block, in this order, by its first words
WANTED = {
    "cd examples/photos": [r'\{"cycle":\[\],"decision":"Allow","errors":\[\],"reason":\["family-sees-summer"\]\}'],
    "cd ../clinic": ["listening ", r'\{"taken":1\}'],
    "cedar_site serve": ["listening "],
    "cedar_site load --schema schema.json --site files --policies policies.cedar \\\n"
    "    --entities entities.json > begun.json\ncedar_site serve": ["listening "],
    "at=": [r'"count":1,.*"site":"0"', "permit", r'"decision":', r'"kind":"state"', r'\{"taken":0\}'],
    "tail": [r'"method":"GET","target":"/v1/summary","status":200', r'"target":"/v1/merge","status":200'],
    "cedar_site serve --schema schema.json --site 1 --listen 127.0.0.1:7000 &": [
        "listening ", "listening ", r'\{"taken":1\}', r'\{"taken":0\}', r"(?P<sum>[0-9a-f]{64})", r"(?P=sum)"],
    "cedar_site pull --schema schema.json --site 2": [r'\{"taken":\d+\}'],
    "cedar_site pull --schema schema.json --site 3": [r'\{"taken":1\}', "listening ", r'\{"taken":0\}', r'\{"taken":0\}'],
    "sed": ["listening "],
    "cedar_site check --schema schema.json policies.cedar\ncedar_site decide": [r'"decision":"Deny".*"reason":\["interns"\]'],
    "cedar_site drill": [r'"decision"|"stamp"|"count"'],
}
# the ports of a block's sites
SERVED = re.compile(r"serve [^&]*?--listen 127\.0\.0\.1:(\d+)")
END = "==== end of a block"
# the time limit of the run
MOST_SECONDS = 900


def free_port():
    """Returns a free port of 127.0.0.1."""
    with socket.socket() as it:
        it.bind(("127.0.0.1", 0))
        return it.getsockname()[1]


def blocks_of(page):
    """Returns the blocks of a page that begin with a command."""
    with open(f"{TOP}/{page}", encoding="utf-8") as file:
        text = file.read()
    found = re.findall(r"(?m)(?:^(?:    .*)?\n)*^    .*\n", text)
    blocks = [re.sub(r"(?m)^    ", "", it).strip("\n") for it in found]
    return [it for it in blocks if TYPED.match(it) and " SCHEMA " not in it]


def of_block(table, block):
    """Returns the value of the longest key of a table with which a block begins, or None."""
    fits = [it for it in table if block.startswith(it)]
    return table[max(fits, key=len)] if fits else None


def is_listening(port):
    with socket.socket() as it:
        return it.connect_ex(("127.0.0.1", port)) == 0


class Shell:
    """A shell that reports each command that fails."""

    def __init__(self, folder, room):
        self.ports = {str(port): str(free_port()) for port in range(7000, 7005)}
        path = f"{room}:{os.environ['PATH']}"
        self.process = subprocess.Popen(
            ["bash", "--norc"], cwd=folder, env={**os.environ, "PATH": path}, text=True, bufsize=1,
            stdin=subprocess.PIPE, stdout=subprocess.PIPE, stderr=subprocess.STDOUT)
        self.type("set -E -o pipefail; trap 'echo FAILED: $BASH_COMMAND' ERR")

    def type(self, text):
        """Types a text. Returns its output."""
        for page_port, port in self.ports.items():
            text = text.replace(f"127.0.0.1:{page_port}", f"127.0.0.1:{port}")
        self.process.stdin.write(f"{text}\necho; echo '{END}'\n")
        said = []
        for line in self.process.stdout:
            # a site in the background may have written part of a line
            front, end, behind = line.partition(END)
            said.append(front + behind)
            if end:
                break
        return "".join(said)

    def wait_for(self, block):
        """Waits until the sites of a block listen."""
        for page_port in SERVED.findall(block):
            for _ in range(200):
                if is_listening(int(self.ports[page_port])):
                    break
                time.sleep(0.05)

    def is_taken(self, block):
        """Returns whether a block serves a site where one of an earlier block listens."""
        return any(is_listening(int(self.ports[it])) for it in SERVED.findall(block))

    def end_sites(self):
        self.type("for job in $(jobs -p); do kill $job; wait $job 2>/dev/null || true; done 2>/dev/null")

    def end(self):
        self.end_sites()
        self.process.stdin.close()
        self.process.wait(10)


def as_typed(block):
    """Returns the commands of a block as they are typed: sites in the background."""
    text = re.sub(r"(\.\./\.\./|\./)cedar_site(?= )", "cedar_site", block).replace("cedar_site --unproved", "cedar_site")
    return re.sub(r"(?m)^(cedar_site serve [^&\n]*[^&\s])$", r"\1 &", text)


def parts_of(block):
    """Returns the part of a block that serves sites, and the part to type once they listen."""
    lines = as_typed(block).split("\n")
    last = max([at for at, line in enumerate(lines) if line.startswith("cedar_site serve")], default=-1)
    return "\n".join(lines[:last + 1]), "\n".join(lines[last + 1:])


def tried(shell, block):
    """Returns the output of a block if it is not as expected, else None."""
    serving, rest = parts_of(block)
    if shell.is_taken(serving):
        shell.end_sites()
    said = shell.type(serving)
    shell.wait_for(block)
    said += shell.type(rest)
    wanted = "(?s)" + ".*?".join(of_block(WANTED, block) or [])
    if "FAILED" in said or not re.search(wanted, said):
        return said
    return None


def main():
    argparse.ArgumentParser(description=__doc__, formatter_class=argparse.RawDescriptionHelpFormatter).parse_args()
    signal.alarm(MOST_SECONDS)
    missing = [it for it in ("bash", "curl", "sha256sum", "timeout") if shutil.which(it) is None]
    if missing:
        print(f"skipped: the first hour (no {missing[0]})")
        print("0 passed, 0 failed")
        return 0
    passed = failed = 0
    with tempfile.TemporaryDirectory() as room:
        os.mkdir(f"{room}/bin")
        os.symlink(PROGRAM, f"{room}/bin/cedar_site")
        for page, start in PAGES:
            shutil.copytree(f"{TOP}/examples", f"{room}/{page}/examples")
            shell = Shell(f"{room}/{page}/{start}", f"{room}/bin")
            for block in blocks_of(page):
                wrong = tried(shell, block)
                passed, failed = passed + (wrong is None), failed + (wrong is not None)
                if wrong is not None:
                    print(f"{page}:\n{block}\nexpected status 0 of each command and {of_block(WANTED, block) or []}, got\n{wrong}")
            shell.end()
    print(f"{passed} passed, {failed} failed")
    return 1 if failed else 0


if __name__ == "__main__":
    sys.exit(main())
