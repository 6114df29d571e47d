#!/usr/bin/env python3
"""Runs what the units of examples/systemd would run, in a folder of its own, without systemd.

    [PROGRAM=FILE] tests/examples/units.py

A site without a schema leaves no state behind; it starts once the schema is there, also over an empty file, each time under
another name of at most 32 bytes, however long the instance's is; a limit of file size or a gone reader of its log does not end
it. The exchange keeps the state and fails if the peer does not answer. If `systemd-analyze` is installed, it accepts the units,
each with an exposure of at most 3.0; else this is skipped, and named. The last line is `N passed, M failed`. Standard
library alone.
"""
import argparse
import http.client
import json
import os
import re
import resource
import shlex
import shutil
import signal
import socket
import subprocess
import sys
import tempfile
import time

TOP = os.path.dirname(os.path.dirname(os.path.dirname(os.path.abspath(__file__))))
PROGRAM = os.path.abspath(os.environ.get("PROGRAM", f"{TOP}/crates/cedar_site/out/cedar_site"))
UNITS, SCHEMA = f"{TOP}/examples/systemd", f"{TOP}/examples/clinic/schema.json"
POLICY = b"permit(principal, action, resource);"
# the greatest exposure that systemd-analyze may find, in tenths
MOST_EXPOSED = 30
results = []


def check(name, holds, otherwise=""):
    results.append(bool(holds))
    print(f"{name}: {'passed' if holds else f'failed: {otherwise}'}", flush=True)


def free_port():
    with socket.socket() as it:
        it.bind(("127.0.0.1", 0))
        return it.getsockname()[1]


class Machine:
    """The folders that the units name, in a folder of its own."""

    def __init__(self, room):
        self.folders = {"/usr/local/bin/": f"{room}/bin/", "/etc/weirbowl/": f"{room}/etc/", "/var/lib/weirbowl/": f"{room}/lib/"}
        self.sites = []
        for folder in self.folders.values():
            os.mkdir(folder)
        self.bin, self.etc, self.lib = self.folders.values()
        os.symlink(PROGRAM, f"{self.bin}cedar_site")
        for name in os.listdir(UNITS):
            if "." not in name:
                shutil.copy(f"{UNITS}/{name}", self.bin)

    def words(self, line, instance, settings):
        """Returns the words of a command line of a unit, as systemd expands it."""
        for theirs, ours in self.folders.items():
            line = line.replace(theirs, ours)
        line = re.sub(r"%(.)", lambda it: {"i": instance, "%": "%"}[it[1]], line)
        return [re.sub(r"\$(?:\{(\w+)\}|\$)", lambda it: settings[it[1]] if it[1] else "$", word) for word in shlex.split(line)]

    def run(self, unit, instance, settings, **how):
        """Runs the commands of a unit in turn, and leaves the last one running. Returns it, or the first that failed."""
        with open(f"{UNITS}/{unit}", encoding="utf-8") as file:
            lines = re.findall(r"(?m)^ExecStart(?:Pre)?=(.*)$", file.read())
        environment = {**os.environ, "PATH": f"{self.bin}:{os.environ['PATH']}", **settings}
        for number, line in enumerate(lines, 1):
            words = self.words(line.lstrip("-"), instance, settings)
            process = subprocess.Popen(words, env=environment, stdout=subprocess.PIPE, stderr=subprocess.PIPE, **how)
            self.sites.append(process)
            # systemd ignores the status of a line that begins with `-`
            if number < len(lines) and process.wait() and not line.startswith("-"):
                break
        return process

    def end(self):
        for it in self.sites:
            it.kill()
            it.wait()


def asked(port, method, path, body=None):
    """Returns the status and the body of a reply, or None and nothing if the connection ends without one."""
    link = http.client.HTTPConnection("127.0.0.1", port, timeout=30)
    try:
        link.request(method, path, body)
        reply = link.getresponse()
        return reply.status, reply.read()
    except (http.client.BadStatusLine, ConnectionError):
        return None, b""
    finally:
        link.close()


def served(machine, instance, settings, **how):
    """Starts a site. Returns its process, its port and the name that a change gets."""
    process = machine.run("cedar-site@.service", instance, settings, **how)
    first, port = process.stdout.readline(), int(settings["LISTEN"].rpartition(":")[2])
    if not first.startswith(b"listening"):
        process.wait()
        return process, port, f"none: {first + process.stderr.read()}"
    return process, port, json.loads(asked(port, "PUT", "/v1/policies/all", POLICY)[1] or b'{"site":"none"}')["site"]


def about_starts(machine, settings):
    kept = f"{machine.lib}east.json"
    process = machine.run("cedar-site@.service", "east", settings)
    status = process.wait()
    check("a site without a schema fails", status not in (0, None), f"got status {status}")
    check("it leaves no state behind", os.listdir(machine.lib) == [], f"got {os.listdir(machine.lib)}")
    shutil.copy(SCHEMA, machine.etc)
    with open(kept, "wb"):
        pass
    names = []
    for title in ("a site starts over an empty file", "it starts again"):
        process, _, name = served(machine, "east", settings)
        names.append(name)
        check(title, re.fullmatch(r"east-[0-9a-f]{12}", name), f"got the name {name}")
        process.terminate()
        process.wait()
    check("each start has another name", names[0] != names[1], f"got {names}")
    check("the state is kept in one file", os.listdir(machine.lib) == ["east.json"], f"got {os.listdir(machine.lib)}")
    for length in (20, 32, 100):
        process, _, name = served(machine, length * "n", settings)
        check(f"an instance of {length} bytes", name.startswith(19 * "n" + "-") and len(name) == 32, f"got the name {name}")
        process.terminate()
        process.wait()


def about_signals(machine, settings):
    # Python ignores both signals, and restores them in what it starts: a shell has them as they are by default
    process, port, _ = served(machine, "signals", settings)
    with open(f"/proc/{process.pid}/status", encoding="utf-8") as file:
        ignored = int(re.search(r"SigIgn:\s*(\w+)", file.read())[1], 16)
    for name in ("SIGPIPE", "SIGXFSZ"):
        check(f"{name} is ignored", ignored >> getattr(signal, name) - 1 & 1, f"got the signals {ignored:x}")
    process.stdout.close()
    check("no reply if the log's reader is gone", asked(port, "GET", "/v1/summary")[0] is None, "got a reply")
    check("the site without a reader goes on", process.poll() is None, f"got the status {process.poll()}")
    process.terminate()
    process.wait()
    log = f"{machine.lib}log"
    line = "cedar-site-start full {0}schema.json {1}full.json --listen {2} --log {3}".format(machine.etc, machine.lib, settings["LISTEN"], log)
    process = subprocess.Popen([f"{machine.bin}/{line.split()[0]}", *line.split()[1:]], env={**os.environ, "PATH": f"{machine.bin}:{os.environ['PATH']}"}, stdout=subprocess.PIPE)
    machine.sites.append(process)
    process.stdout.readline()
    resource.prlimit(process.pid, resource.RLIMIT_FSIZE, (0, resource.RLIM_INFINITY))
    check("no reply if the log may not grow", asked(port, "GET", "/v1/summary")[0] is None, "got a reply")
    resource.prlimit(process.pid, resource.RLIMIT_FSIZE, (resource.RLIM_INFINITY, resource.RLIM_INFINITY))
    check("the site goes on once it may", asked(port, "GET", "/v1/summary")[0] == 200, f"got the status {process.poll()}")
    process.terminate()
    process.wait()


def about_exchanges(machine, settings):
    site, port, _ = served(machine, "east", settings)
    kept = f"{machine.lib}east.json"

    def exchanged():
        process = machine.run("cedar-exchange@.service", "east", settings)
        return process.wait()

    status = exchanged()
    check("an exchange without its peer fails", status != 0, f"got status {status}")
    with open(kept, "rb") as file:
        text = file.read().strip()
    check("it pulls even so", text == asked(port, "GET", "/v1/state")[1].strip(), f"got {text}")
    peer, other, _ = served(machine, "west", {**settings, "LISTEN": settings["PEER"]})
    status = exchanged()
    check("an exchange with its peer", status == 0, f"got status {status}")
    check("the states are equal", asked(port, "GET", "/v1/state") == asked(other, "GET", "/v1/state"), "got two")
    site.kill()
    site.wait()
    status = exchanged()
    check("an exchange without its site fails", status != 0, f"got status {status}")


def about_systemd(room):
    if not shutil.which("systemd-analyze"):
        print("skipped: the units under systemd-analyze (not installed)")
        return
    os.mkdir(f"{room}/units")
    for name in sorted(it for it in os.listdir(UNITS) if "@." in it):
        with open(f"{UNITS}/{name}", encoding="utf-8") as file, open(f"{room}/units/{name}", "w", encoding="utf-8") as copy:
            # `verify` asks for the programs
            copy.write(file.read().replace("/usr/local/bin/", f"{room}/bin/"))
    units = sorted(f"{room}/units/{it}" for it in os.listdir(f"{room}/units"))
    done = subprocess.run(["systemd-analyze", "verify", *units], capture_output=True, text=True, check=False)
    ours = [line for line in done.stderr.split("\n") if "cedar" in line]
    check("systemd-analyze verify", not ours, "\n".join(ours))
    for path in (it for it in units if it.endswith(".service")):
        words = ["systemd-analyze", "--no-pager", "security", "--offline=true", f"--threshold={MOST_EXPOSED}", path]
        done = subprocess.run(words, capture_output=True, text=True, check=False)
        if "unrecognized option" in done.stderr:
            print("skipped: the exposure of the units (an older systemd-analyze)")
            return
        check(f"the exposure of {os.path.basename(path)}", done.returncode == 0, (done.stdout.strip() or done.stderr).split("\n")[-1])


def about_container(room):
    root = f"{room}/container"
    with open(f"{TOP}/examples/Containerfile", encoding="utf-8") as file:
        copies = re.findall(r"(?m)^COPY (--from=\S+ )?(\S+) (\S+)$", file.read())
    if os.geteuid() != 0 or not shutil.which("unshare"):
        print("skipped: the container's files (not root, or no unshare)")
        return
    for other, source, to in copies:
        target = root + (to + os.path.basename(source) if to.endswith("/") else to)
        os.makedirs(os.path.dirname(target), exist_ok=True)
        # the C library is taken from here, in place of the image's
        shutil.copy(source if other else PROGRAM, target)
    done = subprocess.run(["chroot", root, "/cedar_site", "--version"], capture_output=True, text=True, check=False)
    check("the container's files run the program", done.returncode == 0 and "cedar_site" in done.stdout, done.stdout + done.stderr)
    shutil.copy(SCHEMA, root)
    port = free_port()
    words = ["unshare", "--pid", "--fork", "--kill-child", f"--root={root}", "/cedar_site", "serve", "--schema", "/schema.json", "--site", "one"]
    process = subprocess.Popen([*words, "--listen", f"127.0.0.1:{port}", "--log", "-"], stdout=subprocess.PIPE)
    process.stdout.readline()
    process.stdout.close()
    check("process 1: no reply if the log's reader is gone", asked(port, "GET", "/v1/summary")[0] is None, "got a reply")
    check("process 1 goes on", process.poll() is None, f"got the status {process.poll()}")
    process.kill()
    process.wait()


def main():
    argparse.ArgumentParser(description=__doc__, formatter_class=argparse.RawDescriptionHelpFormatter).parse_args()
    with tempfile.TemporaryDirectory() as room:
        machine = Machine(room)
        settings = {"LISTEN": f"127.0.0.1:{free_port()}", "PEER": f"127.0.0.1:{free_port()}"}
        try:
            for about in (about_starts, about_signals, about_exchanges):
                about(machine, settings)
                machine.end()
        finally:
            machine.end()
        about_systemd(room)
        about_container(room)
    print(f"{sum(results)} passed, {len(results) - sum(results)} failed")
    return 0 if all(results) else 1


if __name__ == "__main__":
    sys.exit(main())
