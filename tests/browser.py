#!/usr/bin/env python3
"""Tries the engine in Node and in Chromium: embedding/js and the playground, over the modules of tools/build/wasm.py.

    tests/browser.py [--unproved]

1. weirbowl.mjs and weirbowl.d.ts agree with the crate's exports and with embedding/python: the calls, the codes with their sentences, the version.
   TypeScript's compiler reads weirbowl.d.ts, if `tsc` is installed.
2. The heap and the wide arithmetic of embedding/wasm, compiled for this machine.
3. The modules are made if they are not there for these sources (with --unproved, as the sources are): their exports, no import, and at most
   GZIP bytes with gzip.
4. Node: tests/playground.mjs; and for each module that it loads embedding/js/test.mjs, as Node compiles by itself and with its optimizing
   compiler alone, and the example.
5. 10,000 random calls of a site and 800 over texts, drawn as in tests/embedding.py, recorded with the replies of
   embedding/out/libweirbowl.so: each module replies with the same status and the same bytes.
6. tests/playground.py: the page in Chromium.

A host that is missing is skipped by name at the end. The last line is `N passed, M failed`; the status is 0 if nothing failed. Standard library
alone.
"""
import argparse
import base64
import json
import os
import random
import re
import shutil
import subprocess
import sys
import tempfile

TOP = os.path.dirname(os.path.dirname(os.path.abspath(__file__)))
sys.path[:0] = [f"{TOP}/tools/build", f"{TOP}/tests"]
import embedding  # noqa: E402
import wasm  # noqa: E402

JS, OUT = f"{TOP}/embedding/js", f"{TOP}/embedding/out"
GZIP = 400_000
FIRST = """put: {"count":2,"impossible":false,"site":"one"}
one: {"decision":"Allow","allowed":true,"reason":["team"],"errors":[],"cycle":[]}
two: Deny
two applies 2 updates
two: Allow
error 11: one policy is expected, and this does not continue it (at 24)
"""
# a program that uses all types
TYPED = """import { EngineStopped, Weirbowl, WeirbowlError, request, sentenceOf } from "weirbowl";
const engine: Weirbowl = await Weirbowl.load(fetch(Weirbowl.fileName));
const site = new engine.Site({}, "one");
try {
  const { count, impossible }: { count: number; impossible: boolean } = site.putPolicy("ann", "permit(principal, action, resource);");
  const answer = site.authorize(request(["User", "ann"], ["Action", "view"], ["Photo", "p1"], { a: 1 }));
  if (answer.allowed) console.log(answer.reason[0], answer.errors[0]?.policy, answer.cycle[0]?.type, count, impossible);
  const state: Uint8Array = site.state();
  site.merge(site.delta(site.summary())); site.merge(state);
  site[Symbol.dispose]();
} catch (error) {
  if (error instanceof WeirbowlError) console.log(error.code, error.place, error.within, error.sentence, sentenceOf(1));
  if (error instanceof EngineStopped) console.log(error.cause);
}
// @ts-expect-error
site.putPolicy(1, 2);
"""


# ---- 1. what is declared


def about_declarations(count):
    module, types = embedding.read("embedding/js/weirbowl.mjs"), embedding.read("embedding/js/weirbowl.d.ts")
    wanted = {name.removeprefix("weirbowl_") for name, _, _ in embedding.exports()}
    called = set(re.findall(r'(?:\b(?:call|textCall|enter|result)|#decided)\("(\w+)"', module)) - {"host_alloc", "host_free", "host_live", "host_refuse"}
    count.check("weirbowl.mjs calls each export", called == wanted, embedding.differing_sets(wanted, called))
    sentences = {int(a): b for a, b in re.findall(r'(?m)^  \[(\d+), "(.*)"\],$', module)}
    python = {int(a): b for a, b in re.findall(r'(?m)^    (\d+): "(.*)",$', embedding.read("embedding/python/weirbowl/__init__.py"))}
    count.check("JavaScript and Python have the same sentences", sentences == python, embedding.differing_sets(set(python.items()), set(sentences.items())))
    method = r"(?m)^ +(?:static )?(?:async |get )?(\w+)\(.*\) \{$"
    made = {it for it in re.findall(method, module.partition("/** Returns the class of the sites")[2]) if it not in ("constructor", "if", "for")}
    declared = set(re.findall(r"(?m)^  (?:static )?(?:readonly )?(\w+)(?:\(|: )", types.partition("export interface Site ")[2]))
    made |= {"Site"}
    count.check("weirbowl.d.ts declares each method", made == declared, embedding.differing_sets(made, declared))
    with open(f"{JS}/package.json", encoding="utf-8") as file:
        package = json.load(file)
    count.check("the version is that of Python", package["version"] == embedding.version_in("python/pyproject.toml"), package["version"])
    if not shutil.which("tsc"):
        count.skip("the types", "no tsc")
        return
    with tempfile.TemporaryDirectory() as folder:
        os.makedirs(f"{folder}/node_modules")
        os.symlink(JS, f"{folder}/node_modules/weirbowl")
        with open(f"{folder}/use.mts", "w", encoding="utf-8") as file:
            file.write(TYPED)
        words = ["tsc", "--noEmit", "--strict", "--target", "es2022", "--module", "nodenext", "--moduleResolution", "nodenext", "--lib", "es2022,dom"]
        count.run("the types, by tsc", [*words, f"{folder}/use.mts"])


# ---- 2. the heap


def about_heap(count):
    if not shutil.which("cc"):
        count.skip("the heap", "no C compiler")
        return
    with tempfile.TemporaryDirectory() as folder:
        words = ["cc", "-std=gnu11", "-O1", "-Wall", "-Wextra", "-Werror", "-o", f"{folder}/test", f"{TOP}/embedding/wasm/test.c"]
        if count.run("the heap compiles for this machine", words):
            count.run("the heap and the wide arithmetic", [f"{folder}/test"], "the heap and the wide arithmetic: all checks passed\n")


# ---- 3. the modules


def about_modules(count, unproved):
    """Makes the modules if needed, and looks at them. Returns their paths by name; none if they are not made."""
    words = [sys.executable, f"{TOP}/tools/build/wasm.py", "--if-needed", *["--unproved"] * unproved]
    if not count.run("the modules", words):
        return {}
    found = {it: f"{OUT}/{it}" for it in ("weirbowl.wasm", "weirbowl32.wasm") if os.path.exists(f"{OUT}/{it}")}
    names = {"memory", *(name for name, _, _ in embedding.exports()), *(f"weirbowl_host_{it}" for it in ("alloc", "free", "live", "refuse"))}
    for title, path in found.items():
        with open(path, "rb") as file:
            data = file.read()
        kinds = [kind for kind, _ in wasm.sections(data)]
        count.check(f"{title} imports nothing", wasm.IMPORTS not in kinds or dict(wasm.sections(data))[wasm.IMPORTS] == b"\0", f"got the sections {kinds}")
        count.check(f"{title} has the exports alone", wasm.exported_names(data) == names, embedding.differing_sets(names, wasm.exported_names(data)))
        size = wasm.sizes(data)
        count.check(f"{title}: {size['bytes']} bytes, {size['gzip']} with gzip", size["gzip"] <= GZIP, f"expected at most {GZIP} with gzip")
    if "weirbowl32.wasm" not in found:
        count.skip("weirbowl32.wasm", "no wasm-opt")
    return found


# ---- 4. Node


def loads(flags, path):
    """Whether Node loads a module with these flags."""
    text = "WebAssembly.compile(require('fs').readFileSync(process.argv[1])).catch(() => process.exit(1))"
    return subprocess.run(["node", *flags, "-e", text, path], capture_output=True, check=False).returncode == 0


def try_node(count, modules):
    """Runs the tests in Node. Returns the modules that it loads, each with the flags for it."""
    if not shutil.which("node"):
        count.skip("Node", "not installed")
        return {}
    count.run("Node: what the playground reads out of texts", ["node", "--test", f"{TOP}/tests/playground.mjs"])
    usable = {}
    for title, path in modules.items():
        flags = next((it for it in ([], ["--experimental-wasm-memory64"]) if loads(it, path)), None)
        if flags is None:
            count.skip(f"Node with {title}", "it has no 64-bit memories")
            continue
        usable[title] = flags
        for more in ([], ["--no-liftoff"]):
            # not by `node --test`, whose own process would have the flags and that of the tests not
            count.run(f"Node, {' '.join([title, *more])}: the tests", ["node", *flags, *more, f"{JS}/test.mjs"], WEIRBOWL_WASM=path)
        if not flags:
            count.run(f"Node, {title}: the example", ["node", f"{JS}/first.mjs"], FIRST)
    return usable


# ---- 5. the same calls as the library


def recorded(path):
    """Writes random calls and texts, with the replies of the library."""
    os.environ["WEIRBOWL_SO"] = f"{OUT}/libweirbowl.so"
    sys.dont_write_bytecode = True
    sys.path.insert(0, f"{TOP}/embedding/python")
    import weirbowl as library  # noqa: PLC0415

    schema, draw = json.dumps(embedding.SCHEMA).encode(), embedding.Draw(20_261_201)
    coded = lambda given: base64.b64encode(library._bytes(given)).decode()  # noqa: E731
    with open(path, "w", encoding="utf-8") as file:

        def put(name, values, status, body):
            file.write(json.dumps([name, [coded(it) for it in values], status, coded(body)]) + "\n")

        put("open", [schema], 0, b"")
        with library.Site(schema, "one") as site, library.Site(schema, "two") as other:
            for number in range(embedding.SITES):
                if number % 50 == 0:
                    embedding.changed(library, draw, other)
                name, values, _ = embedding.one_call(draw, other)
                put(name, values, *embedding.reply_of(library, site, name, values))
        for _ in range(embedding.TEXTS):
            texts = draw.texts()
            schema, policies, *others = texts.values()
            for name, values in (("decide", (policies, *others)), ("decide_under", texts.values()), ("explain", texts.values()), ("check", (schema, policies))):
                put(name, values, *library._text_call(name, *values))


def replay(count, usable):
    if not usable or not os.path.exists(f"{OUT}/libweirbowl.so"):
        count.skip("the calls of the library in Node", "no library: tests/embedding.py builds it" if usable else "no Node")
        return
    with tempfile.TemporaryDirectory() as folder:
        recorded(f"{folder}/calls.jsonl")
        for title, flags in usable.items():
            count.run(f"{title}: the same replies as the library's", ["node", *flags, f"{JS}/replay.mjs", f"{OUT}/{title}", f"{folder}/calls.jsonl"])


def main():
    words = argparse.ArgumentParser(description=__doc__, formatter_class=argparse.RawDescriptionHelpFormatter)
    words.add_argument("--unproved", action="store_true", help="makes the modules of the sources as they are")
    given = words.parse_args()
    count = embedding.Count()
    about_declarations(count)
    about_heap(count)
    modules = about_modules(count, given.unproved)
    replay(count, try_node(count, modules))
    if not modules:
        count.skip("the playground", "no module")
    elif not shutil.which("chromium"):
        count.skip("the playground", "no Chromium")
    else:
        count.run("the playground in Chromium", [sys.executable, f"{TOP}/tests/playground.py"])
    if count.skipped:
        print(f"skipped: {', '.join(count.skipped)}")
    print(f"{count.passed} passed, {count.failed} failed")
    return 1 if count.failed else 0


if __name__ == "__main__":
    sys.exit(main())
