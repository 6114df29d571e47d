#!/usr/bin/env python3
"""Tries the playground in headless Chromium, as tools/build/wasm.py laid it out in embedding/out/playground.

    tests/playground.py [--screenshots FOLDER]

It types over the texts as a user does, and reads what the page shows: decisions, errors with their places and marks, the verdicts, the picture of
the hierarchy, the environments, links, an expression of the greatest height, and two sites that exchange. The page may ask for its own files
alone, and nothing may be reported by its Content-Security-Policy or on its console.

--screenshots writes the page at three widths, light and dark, for a reader. The last line is `N passed, M failed`. Standard library alone: DevTools
over a pipe, and a server of static files on a free port.
"""
import argparse
import base64
import functools
import http.server
import json
import os
import subprocess
import sys
import tempfile
import threading
import time

TOP = os.path.dirname(os.path.dirname(os.path.abspath(__file__)))
PAGE = f"{TOP}/embedding/out/playground"
HIGHEST = 995
# two entities, each the parent of the other
CYCLE = '[{"uid":{"type":"T","id":"a"},"parents":[{"type":"T","id":"b"}]},{"uid":{"type":"T","id":"b"},"parents":[{"type":"T","id":"a"}]}]'
WAIT = 120  # seconds for the page to be ready, and for one text


class Files(http.server.SimpleHTTPRequestHandler):
    """A server of static files that remembers what it was asked for."""

    extensions_map = {**http.server.SimpleHTTPRequestHandler.extensions_map, ".mjs": "text/javascript", ".wasm": "application/wasm"}
    asked = []

    def log_message(self, *_):
        Files.asked.append(self.path.partition("?")[0])


class Browser:
    """Chromium, asked by DevTools over file descriptors 3 and 4."""

    def __init__(self, profile):
        ours, theirs = os.pipe(), os.pipe()

        def descriptors():
            os.dup2(ours[0], 3)
            os.dup2(theirs[1], 4)

        for it in (ours[0], theirs[1]):
            os.set_inheritable(it, True)
        words = ["chromium", "--headless", "--no-sandbox", "--disable-gpu", "--disable-dev-shm-usage", "--hide-scrollbars", "--remote-debugging-pipe"]
        words += [f"--user-data-dir={profile}", "about:blank"]
        how = {"stdout": subprocess.DEVNULL, "stderr": subprocess.DEVNULL, "close_fds": False}
        self.process = subprocess.Popen(words, preexec_fn=descriptors, **how)  # noqa: PLW1509
        for it in (ours[0], theirs[1]):
            os.close(it)
        self.to, self.back, self.left, self.number, self.session, self.events = ours[1], theirs[0], b"", 0, None, []

    def read(self):
        while b"\0" not in self.left:
            more = os.read(self.back, 1 << 20)
            if not more:
                raise RuntimeError("Chromium ended")
            self.left += more
        one, _, self.left = self.left.partition(b"\0")
        return json.loads(one)

    def call(self, method, **given):
        self.number += 1
        message = {"id": self.number, "method": method, "params": given, **({"sessionId": self.session} if self.session else {})}
        os.write(self.to, json.dumps(message).encode() + b"\0")
        while True:
            reply = self.read()
            if reply.get("id") == self.number:
                if "error" in reply:
                    raise RuntimeError(reply["error"])
                return reply["result"]
            self.events.append(reply)

    def js(self, text):
        result = self.call("Runtime.evaluate", expression=text, awaitPromise=True, returnByValue=True)
        if "exceptionDetails" in result:
            raise RuntimeError(result["exceptionDetails"])
        return result["result"].get("value")

    def begin(self):
        target = self.call("Target.createTarget", url="about:blank")["targetId"]
        self.session = self.call("Target.attachToTarget", targetId=target, flatten=True)["sessionId"]
        for domain in ("Runtime", "Page", "Log"):
            self.call(f"{domain}.enable")

    def until(self, condition):
        """Waits for a condition of the page."""
        began = time.monotonic()
        while not self.js(condition):
            if time.monotonic() - began > WAIT:
                raise RuntimeError(f"expected {condition}, got {self.js('document.body?.innerText')}")
            time.sleep(0.05)

    def open(self, url):
        self.call("Page.navigate", url=url)
        self.until("document.documentElement?.dataset.ready !== undefined")

    def type_in(self, selector, text):
        """Selects what a field holds, and types over it."""
        self.js(f"document.querySelector({json.dumps(selector)}).focus(), document.querySelector({json.dumps(selector)}).select()")
        self.call("Input.insertText", text=text)

    def text(self, selector):
        return self.js(f"document.querySelector({json.dumps(selector)}).innerText") or ""

    def end(self):
        self.process.terminate()
        self.process.wait()


class Count:
    def __init__(self):
        self.passed = self.failed = 0

    def check(self, title, holds, got=""):
        self.passed, self.failed = self.passed + bool(holds), self.failed + (not holds)
        print(f"{title}: {'passed' if holds else f'failed: got {got!r}'}", flush=True)

    def has(self, title, text, *parts):
        self.check(title, all(it in text for it in parts), text)


def try_decisions(page, count):
    count.has("the first example allows", page.text("#result"), "Allow", "family-sees-summer")
    count.has("its path is told", page.text("#hierarchy"), 'Bold: User::"bob" in Group::"cousins" in Group::"family"')
    count.check("its path is bold", page.js("document.querySelectorAll('path.on-path:not(.tip)').length") == 3, page.js("document.querySelectorAll('.on-path').length"))
    page.type_in("#policies", "forbid(principal, action, resource);")
    count.has("a forbid denies", page.text("#result"), "Deny", "policy0")
    page.js("document.getElementById('example').value = 'clinic', document.getElementById('example').dispatchEvent(new Event('change'))")
    count.has("the clinic allows", page.text("#result"), "Allow")
    count.has("each policy has its verdict", page.text("#verdicts"), "teams", "never satisfied", "passes", "determines it")
    count.has("the environments are listed", page.text("#environments"), 'Action::"write"', "That of the request is marked")
    count.check("that of the request is marked", page.js("document.querySelectorAll('[aria-current=true]').length") == 1)


def try_errors(page, count):
    page.type_in("#policies", "permit(principal, action, resource)\nwhen { principal.nope == 1 };\nforbid(principal, action, resource);")
    count.has("an undeclared attribute is rejected", page.text("#result"), "Rejected")
    count.has("it is told with its environment and a hint", page.text("#faults"), "error 44: ", " --> policies:2:8", "^^^^^^^^^^^^^^", "Staff, Action::", "hint: ")
    count.check("it is marked in the text", page.js("document.querySelector('#policies').previousElementSibling.querySelector('mark')?.textContent") == "principal.nope", page.text("#faults"))
    page.js("document.querySelector('#faults button').click()")
    selected = "((it) => it.value.slice(it.selectionStart, it.selectionEnd))(document.activeElement)"
    count.check("a button leads to it", page.js(selected) == "principal.nope", page.js(selected))
    page.type_in("#policies", "permit(principal, action, resource)\nwhen { 1 == };")
    count.has("an error of the grammar has its line and column", page.text("#policies-fault"), "Line 2, column 13: 11:")
    page.type_in("#policies", 'permit(principal, action, resource);')
    page.type_in("#entities", '[{ "uid": { "type": "Team", "id": "a" } }, { "uid": { "type": "Ghost", "id": "g" } }]')
    marked = page.js("document.querySelector('#entities').previousElementSibling.querySelector('mark')?.textContent")
    count.has("a rejected entity is marked", marked or page.text("#faults"), '{ "type": "Ghost", "id": "g" }')
    page.type_in("#entities", "[]")
    page.type_in("#request", '{"principal":"Staff::\\"ann\\"","action":"Action::\\"fly\\"","resource":"Chart::\\"c1\\""}')
    count.has("an undeclared action is rejected", page.text("#result"), "Rejected")
    count.check("the request is marked as wrong", page.js("document.getElementById('request').getAttribute('aria-invalid')") == "true", page.text("#faults"))
    page.type_in("#policies", "<img src=x onerror=alert(1)>")
    count.check("no text is read as HTML", page.js("document.querySelectorAll('img, main script').length") == 0)


def try_cycle(page, count):
    page.type_in("#schema", "")
    page.type_in("#policies", "permit(principal, action, resource);")
    page.type_in("#entities", CYCLE)
    page.type_in("#request", '{"principal":{"type":"T","id":"a"},"action":{"type":"Action","id":"x"},"resource":{"type":"T","id":"b"}}')
    count.has("a cycle denies", page.text("#result"), "Deny", "cycle")
    count.check("the cycle is red", page.js("document.querySelectorAll('path.on-cycle:not(.tip)').length") == 2, page.text("#hierarchy"))


def try_height(page, count):
    page.type_in("#policies", f"permit(principal, action, resource) when {{ 1{' + 1' * HIGHEST} == 4 }};")
    count.has("the highest expression", page.text("#result"), "Deny")
    page.type_in("#policies", f"permit(principal, action, resource) when {{ 1{' + 1' * 20_000} == 4 }};")
    count.has("a higher one is rejected", page.text("#result") + page.text("#faults"), "Rejected", "17")


def try_link(page, count, address):
    page.type_in("#policies", '@id("sent") permit(principal, action, resource);')
    page.type_in("#entities", "[]")
    page.js("document.getElementById('link').click()")
    page.until("document.getElementById('copied').textContent !== ''")
    link = page.js("location.hash")
    page.call("Page.navigate", url="about:blank")
    page.open(f"{address}{link}")
    count.has("a link brings the same question", page.text("#result"), "Allow", "sent")
    page.call("Page.navigate", url="about:blank")
    page.open(f"{address}#nonsense")
    count.has("a link that is none brings the first example", page.text("#result"), "Allow", "family-sees-summer")


def try_sites(page, count):
    page.js("document.getElementById('example').value = 'clinic', document.getElementById('example').dispatchEvent(new Event('change'))")
    page.js("document.getElementById('tab-sites').click()")
    put = "document.querySelectorAll('.site')[{0}].querySelector('form button').click()"
    page.js(put.format(0))
    page.type_in("section[aria-label='The site oslo'] textarea", "forbid(principal, action, resource);")
    page.js(put.format(1))
    page.js(put.format(1))
    count.has("a change at each site", page.text(".pair"), "1 by paris", "2 by oslo", "forbid")
    page.js("document.getElementById('send-left').click()")
    count.has("the greater stamp wins", page.text("#exchanged"), "oslo → paris: 1", "policy all", "1 by paris", "2 by oslo", "The stores are equal")
    page.js("document.getElementById('fill').click()")
    count.has("both are filled", page.text("#sites-note") + page.text(".pair"), "Both hold", "policy keeper", 'entity Staff::"ann"')
    page.type_in("section[aria-label='The site oslo'] textarea", "forbid(")
    page.js(put.format(1))
    count.has("a rejected change says why", page.text("section[aria-label='The site oslo'] .said"), "11: one policy is expected")
    page.js("document.getElementById('tab-decide').click()")


def about_requests(page, count):
    own = {f"/{it}" for it in os.listdir(PAGE)} | {"/"}
    count.check("the page asks for its own files alone", set(Files.asked) <= own, sorted(set(Files.asked) - own))
    told = [it["params"] for it in page.events if it.get("method") in ("Log.entryAdded", "Runtime.exceptionThrown", "Runtime.consoleAPICalled")]
    count.check("nothing is told on the console", not told, told[:3])


def screenshots(page, address, folder):
    """Writes the page at three widths, light and dark, and one with an error and the two sites."""
    os.makedirs(folder, exist_ok=True)

    def shoot(name, width, dark=False):
        page.call("Emulation.setEmulatedMedia", features=[{"name": "prefers-color-scheme", "value": "dark" if dark else "light"}])
        page.call("Emulation.setDeviceMetricsOverride", width=width, height=900, deviceScaleFactor=1, mobile=width < 600)
        page.js("scrollTo(0, 0)")
        time.sleep(0.4)
        data = page.call("Page.captureScreenshot", format="png", captureBeyondViewport=width > 1000)["data"]
        with open(f"{folder}/{name}.png", "wb") as file:
            file.write(base64.b64decode(data))

    page.call("Page.navigate", url="about:blank")
    page.open(address)
    for width in (1400, 900, 390):
        shoot(f"light_{width}", width)
    shoot("dark_1400", 1400, True)
    page.js("document.getElementById('example').value = 'documents', document.getElementById('example').dispatchEvent(new Event('change'))")
    shoot("documents_1400", 1400)
    page.js("document.getElementById('tab-sites').click(), document.getElementById('fill').click()")
    page.js("for (const it of document.querySelectorAll('.site form')) it.requestSubmit()")
    page.js("document.getElementById('exchange').click()")
    shoot("sites_1400", 1400)
    shoot("sites_390", 390)
    page.js("document.getElementById('tab-decide').click()")
    page.type_in("#policies", "permit(principal, action, resource)\nwhen { principal.nope == 1 };")
    shoot("error_1400", 1400)
    shoot("error_dark_390", 390, True)
    page.type_in("#entities", CYCLE)
    page.type_in("#policies", "permit(principal, action, resource);")
    page.type_in("#schema", "")
    shoot("cycle_dark_1400", 1400, True)


def main():
    words = argparse.ArgumentParser(description=__doc__, formatter_class=argparse.RawDescriptionHelpFormatter)
    words.add_argument("--screenshots", metavar="FOLDER", help="writes the page as pictures, for a reader")
    given = words.parse_args()
    server = http.server.ThreadingHTTPServer(("127.0.0.1", 0), functools.partial(Files, directory=PAGE))
    threading.Thread(target=server.serve_forever, daemon=True).start()
    address, count = f"http://127.0.0.1:{server.server_port}/", Count()
    with tempfile.TemporaryDirectory(ignore_cleanup_errors=True) as profile:
        page = Browser(profile)
        try:
            page.begin()
            page.open(address)
            for attempt in (try_decisions, try_errors, try_cycle, try_height):
                attempt(page, count)
            try_link(page, count, address)
            try_sites(page, count)
            about_requests(page, count)
            if given.screenshots:
                screenshots(page, address, given.screenshots)
        finally:
            page.end()
    print(f"{count.passed} passed, {count.failed} failed")
    return 1 if count.failed else 0


if __name__ == "__main__":
    sys.exit(main())
