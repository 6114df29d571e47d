#!/usr/bin/env python3
"""Runs sites on loopback and compares their replies with tests/examples/service_answers.txt.

    [PROGRAM=FILE] tests/examples/service.py

It tries every route, a kept connection, requests sent together, the log, clients that send garbage, cut off, stall, are
idle or wait for a slot, two sites that exchange until they are equal, `pull` and `merge`, and errors that end a command. PROGRAM names another
binary than the built one. Standard library alone.
"""
import argparse
import atexit
import hashlib
import http.client
import json
import os
import random
import resource
import shutil
import socket
import struct
import subprocess
import sys
import tempfile
import time

HERE = os.path.dirname(os.path.abspath(__file__))
TOP = os.path.dirname(os.path.dirname(HERE))
PROGRAM = os.path.realpath(os.environ.get("PROGRAM") or f"{TOP}/crates/cedar_site/out/cedar_site")
CLINIC = f"{TOP}/examples/clinic"
WORK = tempfile.mkdtemp(prefix="service-")
ASK = b"GET /v1/policies/absent HTTP/1.1\r\nHost: a\r\n\r\n"
LINE = b'{"error":{"code":60,"place":null,"within":null}}'
REPLY = b"HTTP/1.1 404 Not Found\r\nContent-Type: application/json\r\nContent-Length: 48\r\n\r\n" + LINE
wrong, servers = [], []


def same(name, wanted, came):
    if wanted != came:
        wrong.append(name)
        print(f"{name}: expected {wanted!r}, got {came!r}")


def free_port():
    with socket.socket() as probe:
        probe.bind(("127.0.0.1", 0))
        return probe.getsockname()[1]


def begin(name, *words, **how):
    """Starts a site. Returns its process and its port once it listens."""
    port = free_port()
    words = ["serve", "--schema", "schema.json", "--site", name, "--listen", f"127.0.0.1:{port}", *words]
    site = subprocess.Popen([PROGRAM, *words], cwd=CLINIC, stdout=subprocess.PIPE, stderr=subprocess.PIPE, text=True, **how)
    servers.append(site)
    told = site.stdout.readline()
    if told != f"listening 127.0.0.1:{port}\n":
        sys.exit(f"site {name}: expected `listening 127.0.0.1:{port}`, got {told!r}: {site.communicate()[1]}")
    return site, port


def end_all():
    for site in servers:
        site.kill()
        site.wait()
    shutil.rmtree(WORK, ignore_errors=True)


def text_of(path):
    with open(path, encoding="utf-8") as file:
        return file.read()


LABEL = hashlib.sha256(text_of(f"{CLINIC}/schema.json").encode()).hexdigest()


def asked(port, method, path, body=None, fields=()):
    """Returns the status and the text of the reply to one request, on a new connection."""
    link = http.client.HTTPConnection("127.0.0.1", port, timeout=120)
    try:
        link.putrequest(method, path)
        if body is not None and not fields:
            link.putheader("Content-Length", str(len(body.encode())))
        for name, value in fields:
            link.putheader(name, value)
        link.endheaders(None if body is None else body.encode())
        reply = link.getresponse()
        return reply.status, reply.read().decode()
    finally:
        link.close()


def put(port, name, text):
    return asked(port, "PUT", f"/v1/policies/{name}", text)


def post(port, path, body):
    return asked(port, "POST", path, body)


def message(kind, **parts):
    return json.dumps({"kind": kind, "schema": LABEL, "version": 2, **parts}, sort_keys=True, separators=(",", ":"))


def tombstone(name, count):
    return [{"body": None, "count": count, "name": {"policy": name}, "site": "east-9"}]


def asks_of_policies(port):
    yield put(port, "keeper", "permit(principal, action, resource) when { resource.keeper == principal };")
    yield put(port, "teams", "permit(principal is Team, action, resource);")
    yield put(port, "senior", "permit(principal, action, resource) when { principal.grade > 3 };")
    yield put(port, "short", "permit(principal, action);")
    yield put(port, "no%20writing%2F1", 'forbid(principal, action == Action::"write", resource);')
    yield asked(port, "GET", "/v1/policies/keeper")
    yield asked(port, "GET", "/v1/policies/no%20writing%2f1")
    yield asked(port, "DELETE", "/v1/policies/teams")
    yield asked(port, "DELETE", "/v1/policies/teams")
    yield asked(port, "GET", "/v1/policies/teams")


def asks_of_entities(port):
    def entity(text):
        return asked(port, "PUT", "/v1/entities", text)

    parents = '[{"type":"Team","id":"nurses"}]'
    yield entity(f'{{"uid":{{"type":"Staff","id":"ann"}},"attrs":{{"ward":"south"}},"parents":{parents}}}')
    keeper = '"keeper":{"type":"Staff","id":"ann"}'
    yield entity(f'{{"uid":{{"type":"Chart","id":"c1"}},"attrs":{{"ward":"north",{keeper},"sealed":false}}}}')
    yield entity('{"uid":{"type":"Staff","id":"eve"}}')
    yield entity('{"uid":')
    yield entity('{"uid":{"type":"Team","id":"a"},"parents":[{"type":"Team","id":"b"}]}')
    yield entity('{"uid":{"type":"Team","id":"b"},"parents":[{"type":"Team","id":"a"}]}')


def asks_of_answers(port):
    def request(action, **more):
        places = {"principal": 'Staff::"ann"', "action": f'Action::"{action}"', "resource": 'Chart::"c1"'}
        return json.dumps({**places, **more})

    here = {"address": "10.0.0.1"}
    yield post(port, "/v1/authorize", request("read", context=here))
    yield post(port, "/v1/authorize", request("write", context=here))
    yield post(port, "/v1/authorize", request("chart"))
    yield post(port, "/v1/authorize", "who?")
    yield post(port, "/v1/entities/delete", '{"type":"Team","id":"a"}')
    yield post(port, "/v1/entities/delete", '{"type":"Team","id":"a"}')


def asks_of_messages(port):
    yield asked(port, "GET", "/v1/summary")
    yield asked(port, "GET", "/v1/state")
    stamps = [{"count": 1, "name": {"policy": "keeper"}, "site": "north"}]
    yield post(port, "/v1/delta", message("summary", stamps=stamps))
    yield post(port, "/v1/merge", message("delta", entries=tombstone("keeper", 7)))
    yield post(port, "/v1/merge", '{"entries":[],"kind":"delta","schema":"another","version":2}')
    yield post(port, "/v1/merge", message("delta", entries=tombstone("p", 0)))
    yield asked(port, "GET", "/v1/policies/keeper")


def asks_that_are_none(port):
    yield asked(port, "GET", "/nowhere")
    yield asked(port, "PATCH", "/v1/state")
    yield asked(port, "POST", "/v1/authorize")
    chunked = "24\r\npermit(principal, action, resource);\r\n0\r\n\r\n"
    yield asked(port, "PUT", "/v1/policies/p", chunked, [("Transfer-Encoding", "chunked")])
    yield asked(port, "PUT", "/v1/policies/p", None, [("Content-Length", "9000000")])
    yield asked(port, "HEAD", "/v1/summary")


def routes(port):
    """Tries every route, in the order of the file of answers."""
    told = []
    for asks in (asks_of_policies, asks_of_entities, asks_of_answers, asks_of_messages, asks_that_are_none):
        told += [f"{status} {text.replace(LABEL, 'LABEL')}\n" for status, text in asks(port)]
    wanted = text_of(f"{HERE}/service_answers.txt").splitlines(True)
    same("the number of answers", len(wanted), len(told))
    for number, (line, came) in enumerate(zip(wanted, told), 1):
        same(f"answer {number}", line, came)


def a_kept_connection(port):
    """One connection carries three requests."""
    link = http.client.HTTPConnection("127.0.0.1", port, timeout=120)
    link.connect()
    kept = link.sock
    for name in "abc":
        link.request("GET", f"/v1/policies/{name}")
        reply = link.getresponse()
        same("a kept connection", (404, LINE), (reply.status, reply.read()))
    same("a kept connection is one", True, link.sock is kept)
    link.close()


def opened(port):
    stream = socket.create_connection(("127.0.0.1", port), timeout=120)
    stream.setsockopt(socket.IPPROTO_TCP, socket.TCP_NODELAY, 1)
    return stream


def to_end(stream):
    """Returns the bytes that come until the connection ends."""
    came = b""
    try:
        while part := stream.recv(65536):
            came += part
    except ConnectionResetError:
        pass
    return came


def sent_and_ended(port, pieces):
    """Sends these pieces and ends the stream. Returns the bytes that come back."""
    with opened(port) as stream:
        try:
            for piece in pieces:
                stream.sendall(piece)
            stream.shutdown(socket.SHUT_WR)
        except OSError:
            pass  # the site has closed already
        return to_end(stream)


def asks_rightly(port, after):
    same(f"a right request after {after}", REPLY, sent_and_ended(port, [ASK]))


def clients_that_send_together(port):
    asks_rightly(port, "nothing")
    same("a hundred requests together", REPLY * 100, sent_and_ended(port, [ASK * 100]))
    same("requests byte by byte", REPLY * 3, sent_and_ended(port, [bytes([byte]) for byte in ASK * 3]))
    with opened(port) as stream:
        stream.sendall(b"GET / HTTP/1.1\r\n" + b"a: b\r\n" * 65 + b"\r\n")
        same("65 fields", True, to_end(stream).startswith(b"HTTP/1.1 400 "))
    asks_rightly(port, "65 fields")


def clients_that_cut_off(port):
    for at in range(1, len(ASK)):
        same(f"cut off after {at} bytes", REPLY, sent_and_ended(port, [ASK + ASK[:at]]))
    asks_rightly(port, "requests that are cut off")
    with opened(port) as stream:
        stream.sendall(b"PUT /v1/policies/p HTTP/1.1\r\nContent-Length: 36\r\n\r\npermit(principal, action, resource)")
    asks_rightly(port, "a body that is cut off")
    # connections that are reset, before a request, within one and within the replies
    for sent in (b"", ASK[:20], ASK * 2000):
        stream = opened(port)
        stream.setsockopt(socket.SOL_SOCKET, socket.SO_LINGER, struct.pack("ii", 1, 0))
        try:
            stream.sendall(sent)
        except OSError:
            pass
        stream.close()
        asks_rightly(port, "a reset")


def a_client_that_stalls(port):
    """A stalled client holds up nobody, and is answered once its request is whole."""
    stalled = opened(port)
    stalled.sendall(ASK[:10])
    for _ in range(3):
        asks_rightly(port, "a client that stalls")
    stalled.sendall(ASK[10:])
    stalled.shutdown(socket.SHUT_WR)
    same("who stalled", REPLY, to_end(stalled))
    stalled.close()


def idle_clients():
    """With --idle 1 four clients that send nothing, or half a request, and one that reads its replies late hold up nobody,
    and each connection ends after about a second."""
    site, port = begin("idle", "--idle", "1")
    began = time.monotonic()
    silent = [opened(port) for _ in range(4)]
    silent[3].sendall(ASK[:10])
    late = opened(port)
    late.sendall(200 * ASK)
    asks_rightly(port, "idle clients")
    for link in silent:
        same("a client that was idle", b"", link.recv(1))
        link.close()
    same("how long they were idle", True, 1 < time.monotonic() - began < 30)
    same("a client that reads its replies late", 200 * REPLY, to_end(late))
    late.close()
    asks_rightly(port, "clients that were idle")
    same("the site after idle clients still runs", None, site.poll())


def clients_that_wait():
    """With one slot and no limit of time a client waits until the one before it ends. With two slots a third client waits
    until one of the others is idle for a second."""
    _, port = begin("one", "--clients", "1", "--idle", "0")
    stalled, waiting = opened(port), opened(port)
    waiting.sendall(ASK)
    waiting.settimeout(1.5)
    try:
        same("who waits for the one slot", None, waiting.recv(1))
    except TimeoutError:
        pass
    stalled.close()
    waiting.settimeout(120)
    waiting.shutdown(socket.SHUT_WR)
    same("who waited for the one slot", REPLY, to_end(waiting))
    _, port = begin("two", "--clients", "2")
    idle = [opened(port) for _ in range(2)]
    asks_rightly(port, "one of two idle clients made room")
    same("who was idle longest", b"", idle[0].recv(1))
    idle[1].sendall(ASK)
    idle[1].shutdown(socket.SHUT_WR)
    same("who was idle for less long", REPLY, to_end(idle[1]))


def line_of(method, target, status, **more):
    return json.dumps({"method": method, "target": target, "status": status, **more}, separators=(",", ":"), ensure_ascii=False)


def raw_status(port, head):
    """Returns the status of the reply to one head, after which the connection ends."""
    return int(sent_and_ended(port, [head + b"\r\n\r\n"]).split(b" ")[1])


def asks_of_log(port):
    """Sends requests to a site with a log. Yields the expected line of each."""
    status, stamp = put(port, "keeper", "permit(principal, action, resource) when { resource.keeper == principal };")
    yield line_of("PUT", "/v1/policies/keeper", status)[:-1] + f',"stamp":{stamp}}}'
    status, stamp = put(port, "a%0A%22b", "permit(principal, action, resource);")
    yield line_of("PUT", "/v1/policies/a%0A%22b", status)[:-1] + f',"stamp":{stamp}}}'
    names = {"principal": 'Staff::"a\\nb"', "action": 'Action::"read"', "resource": 'Chart::"é"'}
    status, answer = post(port, "/v1/authorize", json.dumps({**names, "context": {"address": "10.4.0.7"}}, indent=1))
    wanted = {"cycle": [], "decision": "Allow", "errors": [{"error": "entityDoesNotExist", "policy": "keeper"}], "reason": ['a\n"b']}
    same("a decision that is logged", (200, wanted), (status, json.loads(answer)))
    yield line_of("POST", "/v1/authorize", 200, **names)[:-1] + "," + answer[1:]
    objects = {"principal": {"type": "Staff", "id": "a\nb"}, "action": {"__entity": {"type": "Action", "id": "read"}},
               "resource": {"id": "é", "type": "Chart"}}
    status, answer = post(port, "/v1/authorize", json.dumps({**objects, "context": {"address": "10.4.0.7"}}))
    same("a decision whose uids are objects", (200, wanted), (status, json.loads(answer)))
    uids = {"principal": {"id": "a\nb", "type": "Staff"}, "action": {"id": "read", "type": "Action"}, "resource": objects["resource"]}
    yield line_of("POST", "/v1/authorize", 200, **uids)[:-1] + "," + answer[1:]
    status, _ = post(port, "/v1/authorize", "{}")
    yield line_of("POST", "/v1/authorize", status)
    yield line_of("GET", "/v1/policies/absent", asked(port, "GET", "/v1/policies/absent")[0])
    yield line_of("GET", '/"\\é?{"a":1}', raw_status(port, 'GET /"\\é?{"a":1} HTTP/1.1'.encode()))
    yield line_of(None, None, raw_status(port, b"GET /\xff HTTP/1.1"))
    yield line_of(None, None, raw_status(port, b"POST /v1/merge HTTP/1.1"))
    status, stamp = asked(port, "DELETE", "/v1/policies/keeper")
    yield line_of("DELETE", "/v1/policies/keeper", status)[:-1] + f',"stamp":{stamp}}}'


def logs():
    """With --log each reply has its line before it goes out; if a line can't be written, no reply goes out."""
    file = f"{WORK}/decisions.log"
    with open(file, "w", encoding="utf-8") as log:
        log.write("what was there\n")
    site, port = begin("logged", "--log", file)
    wanted = "what was there\n"
    for number, line in enumerate(asks_of_log(port)):
        wanted += f"{line}\n"
        same(f"the log after request {number}", wanted, text_of(file))
    same("statuses of the log", [200, 200, 200, 200, 422, 404, 404, 400, 411, 200],
         [json.loads(line)["status"] for line in wanted.splitlines()[1:]])
    site, port = begin("full", "--log", "/dev/full")
    for _ in range(2):
        same("a reply without its line", b"", sent_and_ended(port, [ASK]))
    same("the site with a full log still runs", None, site.poll())
    site, port = begin("printing", "--log", "-")
    same("a request of a site that prints its log", 404, asked(port, "GET", "/v1/policies/absent")[0])
    same("a line on standard output", line_of("GET", "/v1/policies/absent", 404) + "\n", site.stdout.readline())
    nowhere = f"{WORK}/none/decisions.log"
    words = ("serve", "--schema", "schema.json", "--site", "east", "--listen", "127.0.0.1:0", "--connections", "0")
    ends("a log that can't be opened", 3, f"fault: {nowhere}", *words, "--log", nowhere)


def cut_lines():
    """After a line that was cut, by a full disk or in an earlier run, the next one begins on a line of its own."""
    file, line = f"{WORK}/cut.log", line_of("GET", "/v1/policies/absent", 404) + "\n"
    with open(file, "w", encoding="utf-8") as log:
        log.write('{"method":"GE')
    # what ends a file is an error, and no signal
    site, port = begin("cut", "--log", file, restore_signals=False)
    same("a request behind a cut line", 404, asked(port, "GET", "/v1/policies/absent")[0])
    wanted = '{"method":"GE\n' + line
    same("the log behind a cut line", wanted, text_of(file))
    resource.prlimit(site.pid, resource.RLIMIT_FSIZE, (len(wanted) + 9, resource.RLIM_INFINITY))
    for _ in range(2):
        same("a reply whose line is cut", b"", sent_and_ended(port, [ASK]))
        same("the log that is full", wanted + line[:9], text_of(file))
    resource.prlimit(site.pid, resource.RLIMIT_FSIZE, (resource.RLIM_INFINITY, resource.RLIM_INFINITY))
    same("a request behind the full log", 404, asked(port, "GET", "/v1/policies/absent")[0])
    same("the log behind that", wanted + line[:9] + "\n" + line, text_of(file))


def garbage(port):
    chance = random.Random(7)
    for length in (1, 3, 17, 300, 5000, 70000):
        for _ in range(5):
            came = sent_and_ended(port, [chance.randbytes(length)])
            same("garbage", True, came == b"" or came.startswith(b"HTTP/1.1 400 Bad Request\r\n"))
        asks_rightly(port, "garbage")


def state(port):
    return asked(port, "GET", "/v1/state")[1]


def exchange(asks, answers):
    """Brings one site up to date from another by a summary and a delta."""
    summary = asked(asks, "GET", "/v1/summary")[1]
    return post(asks, "/v1/merge", post(answers, "/v1/delta", summary)[1])[1]


def two_sites(one, two):
    """Changes both, then exchanges until their states are equal."""
    chance = random.Random(11)
    for i in range(1, 6):
        put(one, f"p{i}", f'permit(principal == Staff::"s{i}", action, resource);')
        put(two, f"p{i + 2}", f'forbid(principal == Staff::"s{i}", action, resource);')
    for turn in range(1, 60):
        asks, answers = (one, two) if chance.random() < 0.5 else (two, one)
        if turn < 8:
            name = f"p{chance.randrange(9)}"
            put(answers, name, f'permit(principal == Staff::"t{turn}", action, resource);')
        exchange(asks, answers)
        if turn >= 8 and state(one) == state(two):
            break
    same("two sites after their turns", state(one), state(two))
    same("equal sites miss nothing", '{"taken":0}', exchange(one, two))


def ran(*words):
    """Returns the status of a command, and both of its streams."""
    done = subprocess.run([PROGRAM, *words], cwd=CLINIC, capture_output=True, timeout=120, check=False)
    return done.returncode, done.stdout.decode(), done.stderr.decode()


def pulls_and_merges(one, two):
    """Tries `pull` into a missing file, and again; `merge` of the file with itself; a site that starts with it."""
    file = f"{WORK}/state.json"

    def pulled(port):
        return ran("pull", "--schema", "schema.json", "--site", "west", "--from", f"127.0.0.1:{port}", "--state", file)[1]

    same("pull", f'{{"taken":{len(json.loads(state(one))["entries"])}}}\n', pulled(one))
    same("the state that was pulled", state(one).strip(), text_of(file).strip())
    same("pull again", '{"taken":0}\n', pulled(two))
    same("merge", state(one).strip(), ran("merge", "--schema", "schema.json", file, file)[1].strip())
    site, three = begin("west", "--state", file, "--connections", "2")
    same("a site that begins with a state", state(one), state(three))
    state(three)
    same("a site that ends after two connections", 0, site.wait(20))
    return file


def ends(name, status, line, *words):
    """Checks that a command ends with this status and, if a line is given, prints that line on standard error."""
    came, _, told = ran(*words)
    same(f"{name}: status", status, came)
    if line:
        same(name, f"{line}\n", told)


def refusal(code):
    return f'{{"error":{{"code":{code},"place":null,"within":null}}}}'


def refusals(one, file):
    """Tries commands whose input is rejected, and commands that fail."""
    other, none = f"{WORK}/other.json", f"{WORK}/none"
    kept = '{"entries":[],"kind":"state","schema":"another","version":2}'
    with open(other, "w", encoding="utf-8") as it:
        it.write(kept)
    schema = ("--schema", "schema.json")
    serve = ("serve", *schema, "--site", "east", "--connections", "0")
    nowhere = ("--listen", "127.0.0.1:0")
    ends("no connections", 0, "", *serve, *nowhere)
    for site in ("", "the north", "süd", "north/1", 33 * "n"):
        ends(f"site {site}", 2, "", "serve", *schema, "--site", site, *nowhere)
    ends("a site of 32 bytes", 0, "", "serve", *schema, "--site", 32 * "n", "--connections", "0", *nowhere)
    ends("too many connections", 2, "", "serve", *schema, "--site", "north", *nowhere, "--connections", "4294967296")
    ends("no address", 2, "", "serve", *schema, "--site", "north")
    for idle in ("86401", "1.5", "", "-1"):
        ends(f"idle for {idle}", 2, "", *serve, *nowhere, f"--idle={idle}")
    for idle in ("0", "86400"):
        ends(f"idle for {idle} seconds", 0, "", *serve, *nowhere, "--idle", idle)
    for clients in ("0", "1025", "1.5", "", "-1"):
        ends(f"{clients} clients", 2, "", *serve, *nowhere, f"--clients={clients}")
    for clients in ("1", "1024"):
        ends(f"{clients} clients at once", 0, "", *serve, *nowhere, "--clients", clients)
    ends("no file", 3, f"fault: {none}", *serve, *nowhere, "--state", none)
    ends("a state of another schema", 1, refusal(52), *serve, "--listen", "nowhere", "--state", other)
    ends("no schema", 1, refusal(20), "serve", "--schema", "policies.cedar", "--site", "east", "--listen", "nowhere")
    ends("an address that is not one", 3, "fault: nowhere", *serve, "--listen", "nowhere")
    ends("an address that is taken", 3, f"fault: 127.0.0.1:{one}", *serve, "--listen", f"127.0.0.1:{one}")
    pull = ("pull", *schema, "--site", "east")
    ends("nobody listens", 3, "fault: 127.0.0.1:1", *pull, "--from", "127.0.0.1:1", "--state", other)
    ends("pull into a refused state", 1, refusal(52), *pull, "--from", f"127.0.0.1:{one}", "--state", other)
    same("a refused state stays", kept, text_of(other))
    ends("merge with a refused state", 1, refusal(52), "merge", *schema, file, other)
    ends("merge with no file", 3, f"fault: {none}", "merge", *schema, other, none)
    ends("an argument that is not UTF-8", 2, "error: an argument is not UTF-8", "check", b"\xff")


def main():
    argparse.ArgumentParser(description=__doc__, formatter_class=argparse.RawDescriptionHelpFormatter).parse_args()
    atexit.register(end_all)
    site, one = begin("north")
    clients = (clients_that_send_together, clients_that_cut_off, a_client_that_stalls, garbage)
    for tried in (routes, a_kept_connection, *clients):
        tried(one)
    same("the site is still there", None, site.poll())
    _, two = begin("south")
    two_sites(one, two)
    refusals(one, pulls_and_merges(one, two))
    idle_clients()
    clients_that_wait()
    logs()
    cut_lines()
    print(f"service: {len(wrong)} checks failed" if wrong else "service: all checks passed")
    return 1 if wrong else 0


if __name__ == "__main__":
    sys.exit(main())
