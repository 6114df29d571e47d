#!/usr/bin/env python3
"""Builds the library of the crate `weirbowl` for C, Rust and Python, and tries embedding/ with it.

    tests/embedding.py [--built] [PROGRAM]

1. The header, embedding/rust and embedding/python declare the exports of the crate: the same names in the same order, with the same kinds of
   parameters and results. The codes are those of docs/codes.md, in Rust and C with its names, in Rust and Python with the same sentences.
2. The archive is built over the libraries that the gate left in crates/NAME/out/rlib, else by `rt lib`, which proves them all first; with --built
   that in embedding/out is taken as it is. embedding/out/libweirbowl.a is that archive with the three functions of the heap that it calls, and
   libweirbowl.so.1, with its name of development libweirbowl.so, shows its exports alone. Of the C library they need ALLOWED, and no more.
   embedding/out/weirbowl.pc is for pkg-config.
3. C: embedding/c/replies.c, which reads replies without the library; test.c, first.c, and refused.c, which fails each allocation in turn; test.c
   and first.c under valgrind, if it is there; first.c with the shared library by the words of pkg-config, if that is there.
4. Rust: `cargo test --offline` and the example. 5. Python: the tests and the example.
6. 10,000 random calls, the same at a site of the library and at one that PROGRAM serves, have the same status and body; then random texts for
   `decide` and `check`, the same through both.

A language whose compiler is missing, and what needs PROGRAM if it is not given, is skipped by name at the end. The last line is
`N passed, M failed`; the status is 0 if nothing failed. Standard library alone.
"""
import argparse
import http.client
import json
import os
import random
import re
import shutil
import socket
import subprocess
import sys
import tempfile
import time

TOP = os.path.dirname(os.path.dirname(os.path.abspath(__file__)))
sys.path.insert(0, f"{TOP}/tools/build")
import archive  # noqa: E402

HERE, OUT = f"{TOP}/embedding", f"{TOP}/embedding/out"
SITES, TEXTS = 10_000, 200
# what the library may call of the C library
ALLOWED = {"malloc", "realloc", "free", "memcpy", "memmove", "memset"}
# the shared library's name at run time: the number changes if a program that was linked before would not run
SONAME = "libweirbowl.so.1"
PC = """libdir={out}
includedir={include}

Name: weirbowl
Description: A replicated store of Cedar policies and entities in your process, with proved decisions
Version: {version}
Libs: -L${{libdir}} -lweirbowl
Cflags: -I${{includedir}}
"""


def read(path):
    with open(f"{TOP}/{path}", encoding="utf-8") as file:
        return file.read()


def differing_sets(expected, got):
    """Returns a message: the missing members of the expected set, and the members that are not expected."""
    return f"expected also {sorted(expected - got)}, got also {sorted(got - expected)}"


class Count:
    """What passed, what failed, and what was skipped."""

    def __init__(self):
        self.passed, self.failed, self.skipped = 0, 0, []

    def check(self, title, holds, otherwise=""):
        self.passed, self.failed = self.passed + bool(holds), self.failed + (not holds)
        print(f"{title}: {'passed' if holds else f'failed: {otherwise}'}", flush=True)
        return holds

    def run(self, title, words, expected=None, **environment):
        """Runs a command, which has to end with status 0 and to print the expected text, if any."""
        done = subprocess.run(words, env={**os.environ, **environment}, capture_output=True, text=True, errors="replace")
        right = done.returncode == 0 and (expected is None or done.stdout == expected)
        wanted = "status 0" if expected is None else f"status 0 and {expected!r}"
        return self.check(title, right, f"expected {wanted}, got status {done.returncode} and\n{done.stdout[-3000:]}{done.stderr[-3000:]}")

    def skip(self, what, why):
        self.skipped.append(f"{what} ({why})")


# ---- the exports, the header and the wrappers


def kind_of(written):
    """Returns the kind of a parameter or a result, by how Rattle, C, Rust or Python writes its type."""
    kinds = {
        "slot": {"&mut SiteSlot", "weirbowl_site *", "*mut Slot"},
        "bytes": {"const uint8_t *", "*const u8"},
        "out": {"uint8_t *", "*mut u8"},
        "length": {"size_t", "usize"},
        "u32": {"u32", "uint32_t"},
        "bool": {"bool"},
        "result": {"CallResult", "weirbowl_result"},
    }
    return next((kind for kind, words in kinds.items() if written in words), f"unknown: {written}")


def exports():
    """Returns each export of the crate with its result and the kinds of its parameters; a slice is a pointer and a length."""
    found = []
    for file in ("site_exports", "text_calls"):
        for name, given, result in re.findall(r'extern "C" fn (\w+)\(([^)]*)\) -> (\w+)', read(f"crates/weirbowl/src/{file}.rt")):
            kinds = []
            for parameter in filter(None, (it.strip() for it in given.split(","))):
                written = parameter.partition(":")[2].strip()
                # an allocator takes no bytes: C passes nothing for it
                slices = {"Global": [], "&[u8]": ["bytes", "length"], "&mut [u8]": ["out", "length"]}
                kinds += slices.get(written, [kind_of(written)])
            found.append((name, kind_of(result), kinds))
    return found


def of_header():
    text = re.sub(r"/\*.*?\*/", "", read("embedding/include/weirbowl.h"), flags=re.S)
    found = []
    for result, name, given in re.findall(r"(?m)^(\w+) (weirbowl_\w+)\(([^)]*)\);", text):
        kinds = [kind_of(re.sub(r"\w+$", "", " ".join(it.split())).strip()) for it in given.split(",")]
        found.append((name, kind_of(result), kinds))
    return found


def of_rust():
    found = []
    for name, given, result in re.findall(r"fn (weirbowl_\w+)\(([^)]*)\) -> (\w+);", read("embedding/rust/src/calls.rs")):
        found.append((name, kind_of(result), [kind_of(it.partition(":")[2].strip()) for it in given.split(",")]))
    return found


def of_python():
    kinds = {"_SLOT": ["slot"], "_BYTES": ["bytes", "length"], "_OUT": ["out", "length"]}
    results = {"ctypes.c_uint32": "u32", "ctypes.c_bool": "bool", "_CallResult": "result"}
    found = []
    for name, result, given in re.findall(r'(?m)^    "(\w+)": \(([\w.]+), \[([^\]]*)\]\),$', read("embedding/python/weirbowl/__init__.py")):
        found.append((f"weirbowl_{name}", results.get(result, result), [kind for it in re.findall(r"\*(\w+)", given) for kind in kinds[it]]))
    return found


def fields(text, pattern):
    """Returns the kinds of the fields of the structs that a pattern finds, in their order."""
    kinds = {"is_open": "bool", "address": "pointer", "status": "u32", "length": "length", "pointer": "pointer"}
    return [[kinds.get(name, name) for name in re.findall(pattern[1], body)] for body in re.findall(pattern[0], text, re.S)]


def about_declarations(count):
    wanted = exports()
    count.check("the crate has exports", len(wanted) > 10, f"expected over 10, got {len(wanted)}")
    for title, found in (("the header", of_header()), ("embedding/rust", of_rust()), ("embedding/python", of_python())):
        differing = [f"expected {a}, got {b}" for a, b in zip(wanted, found) if a != b] or [f"expected {len(wanted)} exports, got {len(found)}"]
        count.check(f"{title} declares the exports", found == wanted, differing[0])
    # the two structs, by the names of their fields in their order
    shapes = [["bool", "pointer"], ["u32", "length"]]
    rattle = [fields(read(f"crates/weirbowl/src/{it}.rt"), (r"#\[repr\(C\)\].*?struct \w+ \{(.*?)\n\}", r"(?m)^    pub (\w+):"))[0] for it in ("slot", "call_result")]
    header = fields(read("embedding/include/weirbowl.h"), (r"typedef struct \w+ \{(.*?)\}", r"(\w+);"))
    rust = fields(read("embedding/rust/src/calls.rs"), (r"#\[repr\(C\)\].*?struct \w+ \{(.*?)\n\}", r"(\w+):"))
    python = fields(read("embedding/python/weirbowl/__init__.py"), (r"_fields_ = \[(.*?)\]", r'"(\w+)"'))
    for title, found in (("the crate", rattle), ("the header", header), ("embedding/rust", rust), ("embedding/python", python)):
        count.check(f"{title}: the fields of both structs", found == shapes, f"expected {shapes}, got {found}")
    # a status of HTTP is no code of the library, which has the code 2 for itself
    found = map(int, re.findall(r"(?m)^\| (\d+) \|", read("docs/codes.md")))
    codes = {it for it in found if it == 1 or 10 <= it < 100} | {2}
    rust = {int(b): c for _, b, c in of_rust_codes()}
    python = {int(a): b for a, b in re.findall(r'(?m)^    (\d+): "(.*)",$', read("embedding/python/weirbowl/__init__.py"))}
    count.check("the codes are those of docs/codes.md", set(rust) == codes, differing_sets(codes, set(rust)))
    count.check("Rust and Python have the same sentences", rust == python, differing_sets(set(rust.items()), set(python.items())))
    versions = [version_in(it) for it in ("rust/Cargo.toml", "python/pyproject.toml")]
    count.check("Rust and Python have one version", len(set(versions)) == 1, f"got {versions}")
    names = {(code, "".join(it.capitalize() for it in words)) for code, words in named_codes()}
    found = {(int(code), name) for name, code, _ in of_rust_codes()}
    count.check("Rust has the names of docs/codes.md", found == names, differing_sets(names, found))
    names = {(code, "_".join(["weirbowl", *words]).upper()) for code, words in named_codes()}
    # the library alone has the last two
    found = {(int(code), name) for name, code in re.findall(r"\b(WEIRBOWL_\w+) = (\d+)", read("embedding/include/weirbowl.h").partition("weirbowl_code {")[2])}
    names |= {(0, "WEIRBOWL_NO_CODE"), (3, "WEIRBOWL_ALREADY_OPEN")}
    count.check("the header has the names of docs/codes.md", found == names, differing_sets(names, found))


# what the names of the codes of a section of docs/codes.md begin with, since two sections have some names in common
SECTIONS = {"Codes": [], "Policies": ["policy"], "Schemas": ["schema"], "Entities and requests": ["entity"], "Validation of policies": ["validation"],
            "Messages between sites": ["message"], "Commands at a site": ["site"]}


def named_codes():
    """Yields each code of the library, with the words of its name by docs/codes.md."""
    for part in re.split(r"(?m)^#+ ", read("docs/codes.md")):
        begins = SECTIONS.get(part.partition("\n")[0])
        for code, name in re.findall(r"(?m)^\| (\d+) \| ([^|]+?) \|", part) if begins is not None else ():
            yield int(code), [*begins, *re.findall(r"\w+", "bad site name" if code == "2" else name)]


def of_rust_codes():
    return re.findall(r'(?m)^    (\w+) = (\d+): "(.*)",$', read("embedding/rust/src/error.rs"))


# ---- the library


def build_archive(count):
    """Builds the archive of the crate. Returns its path, or None."""
    place = f"{archive.FOLDER}/out/libweirbowl.a"
    if archive.missing():
        return place if count.run("the archive, by rt lib", ["sh", "-c", f"cd {archive.FOLDER} && rt lib"]) else None
    failed = archive.build_archive(place, f"{archive.kit()}/toolchain")
    return place if count.check("the archive, proved", not failed, failed) else None


def version_in(name):
    return re.search(r'(?m)^version = "(.*)"$', read(f"embedding/{name}"))[1]


def symbols(path, *flags):
    listed = subprocess.run(["nm", *flags, path], capture_output=True, text=True, check=True).stdout
    return {it.split()[-1] for it in listed.split("\n") if it.strip() and not it.endswith(":")}


def link(count, built):
    """Makes what programs link, and looks at its symbols."""
    os.makedirs(OUT, exist_ok=True)
    whole, shared, script = f"{OUT}/libweirbowl.a", f"{OUT}/{SONAME}", f"{OUT}/exports.map"
    for path in (whole, f"{OUT}/libweirbowl.so"):
        if os.path.lexists(path):
            os.remove(path)
    lines = ["CREATE " + whole, "ADDLIB " + built, f"ADDLIB {archive.kit()}/c/liblibc_c.a", "SAVE", "END"]
    subprocess.run(["ar", "-M"], input="\n".join(lines) + "\n", text=True, check=True)
    with open(script, "w", encoding="utf-8") as file:
        file.write("WEIRBOWL_1 { global: weirbowl_*; local: *; };\n")
    cc = ["cc", "-shared", "-o", shared, "-Wl,--whole-archive", whole, "-Wl,--no-whole-archive", f"-Wl,--version-script={script}"]
    subprocess.run([*cc, f"-Wl,-soname,{SONAME}", "-Wl,--gc-sections", "-Wl,-z,defs"], check=True)
    os.symlink(SONAME, f"{OUT}/libweirbowl.so")
    with open(f"{OUT}/weirbowl.pc", "w", encoding="utf-8") as file:
        file.write(PC.format(out=OUT, include=f"{HERE}/include", version=version_in("rust/Cargo.toml")))
    names = {it[0] for it in exports()}
    shown = {it.partition("@")[0] for it in symbols(shared, "-D", "--defined-only")} - {"WEIRBOWL_1"}
    count.check("the shared library shows the exports alone", shown == names, differing_sets(names, shown))
    wanted = symbols(whole, "--undefined-only") - symbols(whole, "--defined-only")
    count.check("what is needed of the C library", wanted <= ALLOWED, f"expected at most {sorted(ALLOWED)}, got also {sorted(wanted - ALLOWED)}")
    defined = symbols(built, "--defined-only", "--extern-only")
    count.check("the archive defines the exports alone", defined == names, differing_sets(names, defined))
    print(f"bytes: {os.path.getsize(whole)} of the archive, {os.path.getsize(shared)} of the shared library", flush=True)


# ---- C, Rust, Python

FIRST_C = """put: 200 {"count":1,"impossible":false,"site":"one"}
decide at one: 200 {"cycle":[],"decision":"Allow","errors":[],"reason":["ann"]}
allowed
merge: 200 {"taken":1}
decide at two: 200 {"cycle":[],"decision":"Allow","errors":[],"reason":["ann"]}
allowed
"""


def try_pkg_config(count):
    """Links the example with the shared library, as pkg-config says, and runs it."""
    if not shutil.which("pkg-config"):
        count.skip("pkg-config", "not installed")
        return
    where = {**os.environ, "PKG_CONFIG_PATH": OUT}
    asked = subprocess.run(["pkg-config", "--cflags", "--libs", "weirbowl"], env=where, capture_output=True, text=True)
    if count.check("pkg-config", asked.returncode == 0, asked.stderr):
        words = ["cc", "-std=gnu11", f"{HERE}/c/first.c", *asked.stdout.split(), "-o", f"{OUT}/first_shared"]
        if count.run("C: first.c compiles by pkg-config", words):
            count.run("C: the example with the shared library", [f"{OUT}/first_shared"], FIRST_C, LD_LIBRARY_PATH=OUT)


def try_c(count):
    def build(name, *flags):
        words = ["cc", "-std=gnu11", "-O2", "-Wall", "-Wextra", "-Werror", f"-I{HERE}/include", "-o", f"{OUT}/{name}", f"{HERE}/c/{name}.c"]
        return count.run(f"C: {name}.c compiles", [*words, f"{OUT}/libweirbowl.a", *flags])

    if build("replies"):
        count.run("C: replies, read without the library", [f"{OUT}/replies"])
    if build("test"):
        count.run("C: the calls", [f"{OUT}/test"])
    if build("first"):
        count.run("C: the example", [f"{OUT}/first"], FIRST_C)
    if build("refused", "-Wl,--wrap=malloc,--wrap=realloc,--wrap=free"):
        count.run("C: each allocation failing in turn", [f"{OUT}/refused"])
    if shutil.which("valgrind"):
        for name in ("test", "first"):
            words = ["valgrind", "-q", "--leak-check=full", "--errors-for-leak-kinds=all", "--error-exitcode=9"]
            count.run(f"C: {name} under valgrind", [*words, f"{OUT}/{name}"])
    else:
        count.skip("valgrind", "not installed")
    try_pkg_config(count)
    if shutil.which("c++"):
        words = ["c++", "-fsyntax-only", "-Wall", "-Wextra", "-Werror", "-x", "c++", f"{HERE}/include/weirbowl.h"]
        count.run("C++: the header", words)


def try_rust(count):
    if not shutil.which("cargo") or not shutil.which("rustc"):
        count.skip("Rust", "no cargo")
        return
    manifest = ["--offline", "--quiet", "--manifest-path", f"{HERE}/rust/Cargo.toml"]
    where = {"WEIRBOWL_LIB": OUT, "CARGO_TARGET_DIR": f"{OUT}/cargo"}
    count.run("Rust: the tests", ["cargo", "test", *manifest], **where)
    count.run("Rust: the example", ["cargo", "run", "--example", "first", *manifest], **where)
    count.run("Rust: a thread with a queue", ["cargo", "run", "--example", "queue", *manifest], "ann: Allow\nbob: Deny\n", **where)
    count.run("Rust: cargo doc", ["cargo", "doc", *manifest], RUSTDOCFLAGS="-D warnings", **where)


def try_python(count):
    where = {"WEIRBOWL_SO": f"{OUT}/libweirbowl.so", "PYTHONPATH": f"{HERE}/python"}
    count.run("Python: the tests", [sys.executable, "-B", f"{HERE}/python/test_weirbowl.py"], **where)
    count.run("Python: the example", [sys.executable, "-B", f"{HERE}/python/first.py"], **where)


# ---- the library compared with the program

SCHEMA = {
    "": {
        "entityTypes": {
            "User": {"memberOfTypes": ["Team"], "shape": {"type": "Record", "attributes": {"age": {"type": "Long", "required": False}}}},
            "Team": {"memberOfTypes": ["Team"]},
            "Photo": {},
        },
        "actions": {
            "view": {"appliesTo": {"principalTypes": ["User"], "resourceTypes": ["Photo"]}},
            "edit": {"memberOf": [{"id": "view"}], "appliesTo": {"principalTypes": ["User"], "resourceTypes": ["Photo"]}},
        },
    }
}


class Draw:
    """Random calls: most are right, some are wrong in one way or another."""

    def __init__(self, seed):
        self.random = random.Random(seed)

    def of(self, *choices):
        return self.random.choice(choices)

    def uid(self):
        kind = self.of("User", "User", "User", "Team", "Team", "Photo", "Ghost")
        return {"type": kind, "id": f"{kind[0].lower()}{self.random.randrange(6)}"}

    def scope(self):
        team, user = f'Team::"t{self.random.randrange(6)}"', f'User::"u{self.random.randrange(6)}"'
        principal = self.of("principal", f"principal in {team}", f"principal == {user}", "principal is User")
        action = self.of("action", 'action == Action::"view"', 'action in [Action::"view", Action::"edit"]', 'action == Action::"fly"')
        resource = self.of("resource", f'resource == Photo::"p{self.random.randrange(6)}"')
        return f"({principal}, {action}, {resource})"

    def policy(self):
        age = self.random.randrange(100)
        when = self.of("", "", f" when {{ principal has age && principal.age > {age} }}", f" unless {{ principal in Team::\"t{age % 6}\" }}",
                       " when { principal.age > 3 }", " when { 9223372036854775807 + 1 == 0 }", " when { 1 == ", " when { 1 > true }")
        return f"{self.of('permit', 'permit', 'forbid')}{self.scope()}{when}{self.of(';', ';', ';', ';', '', '#')}"

    def id(self):
        return self.of(*(f"p{it}" for it in range(12)), "ü", 'a"b', "", "x" * 257)

    def entity(self):
        made = {"uid": self.uid(), "parents": [self.uid() for _ in range(self.random.randrange(3))]}
        if self.random.random() < 0.4:
            made["attrs"] = {self.of("age", "age", "zip"): self.of(7, 42, "old", True)}
        return self.garbled(json.dumps(made))

    def request(self):
        made = {"principal": self.uid(), "action": {"type": "Action", "id": self.of("view", "view", "edit", "fly")}, "resource": self.uid()}
        for key, type_name in (("principal", "User"), ("resource", "Photo")):
            if self.random.random() < 0.8:
                made[key] = {"type": type_name, "id": f"{type_name[0].lower()}{self.random.randrange(6)}"}
        return self.garbled(json.dumps(made))

    def texts(self):
        """Returns the texts of a decision."""
        policies = "\n".join(self.policy() for _ in range(self.of(0, 1, 1, 2, 3)))
        entities = ",".join(self.entity().decode(errors="replace") for _ in range(self.of(0, 1, 2)))
        texts = {"schema": json.dumps(SCHEMA), "policies": policies, "entities": f"[{entities}]"}
        return {**{it: self.garbled(text) for it, text in texts.items()}, "request": self.request()}

    def garbled(self, text):
        """Returns the bytes of a text, now and then with one changed or the end cut off."""
        given = bytearray(text.encode())
        if given and self.random.random() < 0.06:
            given[self.random.randrange(len(given))] = self.random.randrange(256)
        if self.random.random() < 0.03:
            given = given[: self.random.randrange(len(given) + 1)]
        return bytes(given)


class Served:
    """A site that the program serves, asked over one connection."""

    def __init__(self, program, schema, name):
        with socket.socket() as free:
            free.bind(("127.0.0.1", 0))
            self.port = free.getsockname()[1]
        words = [program, "serve", "--schema", schema, "--site", name, "--listen", f"127.0.0.1:{self.port}"]
        self.process = subprocess.Popen(words, stdout=subprocess.DEVNULL, stderr=subprocess.DEVNULL)
        self.link = http.client.HTTPConnection("127.0.0.1", self.port, timeout=120)
        for _ in range(200):
            try:
                self.link.connect()
                break
            except OSError:
                time.sleep(0.05)
        self.link.sock.setsockopt(socket.IPPROTO_TCP, socket.TCP_NODELAY, 1)

    def ask(self, method, path, body):
        self.link.request(method, path, body)
        reply = self.link.getresponse()
        return reply.status, reply.read()

    def end(self):
        self.link.close()
        self.process.terminate()
        self.process.wait()


def escaped(id):
    return "".join(f"%{byte:02x}" for byte in id.encode())


def one_call(draw, other):
    """Returns a random call: its name at the library, its values, and its method, path and body over HTTP. `other` is another site."""
    id, kind = draw.id(), draw.random.random()
    if kind < 0.40:
        asked = draw.request()
        return "authorize", (asked,), ("POST", "/v1/authorize", asked)
    if kind < 0.58:
        text = draw.garbled(draw.policy())
        return "put_policy", (id, text), ("PUT", f"/v1/policies/{escaped(id)}", text)
    if kind < 0.64:
        return "delete_policy", (id,), ("DELETE", f"/v1/policies/{escaped(id)}", None)
    if kind < 0.69:
        return "get_policy", (id,), ("GET", f"/v1/policies/{escaped(id)}", None)
    if kind < 0.82:
        entity = draw.entity()
        return "put_entity", (entity,), ("PUT", "/v1/entities", entity)
    if kind < 0.88:
        uid = draw.garbled(json.dumps(draw.uid()))
        return "delete_entity", (uid,), ("POST", "/v1/entities/delete", uid)
    if kind < 0.92:
        return draw.of(("state", (), ("GET", "/v1/state", None)), ("summary", (), ("GET", "/v1/summary", None)))
    if kind < 0.96:
        summary = draw.garbled(other._call("summary").decode())
        return "delta", (summary,), ("POST", "/v1/delta", summary)
    message = draw.garbled(other._call("state").decode())
    return "merge", (message,), ("POST", "/v1/merge", message)


def reply_of(library, site, name, values):
    """Returns the status and the body of a call at the library."""
    given = library._arguments(values)
    result = library._FUNCTIONS[name](library.ctypes.byref(site._slot), *given, site._room, len(site._room))
    if len(site._room) < result.length:
        site._room = library.ctypes.create_string_buffer(result.length)
        library._FUNCTIONS["last_body"](library.ctypes.byref(site._slot), site._room, len(site._room))
    return result.status, library.ctypes.string_at(site._room, result.length)


def changed(library, draw, other):
    """Changes the other site a little, so that it has what the first is missing."""
    for name, values in (("put_policy", (draw.id(), draw.policy())), ("put_entity", (draw.entity(),)), ("delete_policy", (draw.id(),))):
        reply_of(library, other, name, values)


def same_calls(library, program, folder, draw):
    """Returns the first call whose replies differ, or none; and how often each status came."""
    schema = f"{folder}/schema.json"
    with open(schema, "w", encoding="utf-8") as file:
        json.dump(SCHEMA, file)
    with open(schema, "rb") as file:
        text = file.read()
    served, statuses = Served(program, schema, "one"), {}
    try:
        with library.Site(text, "one") as site, library.Site(text, "two") as other:
            for number in range(SITES):
                if number % 50 == 0:
                    changed(library, draw, other)
                name, values, route = one_call(draw, other)
                got, wanted = reply_of(library, site, name, values), served.ask(*route)
                statuses[got[0]] = statuses.get(got[0], 0) + 1
                if got != wanted:
                    return f"call {number}: {name} {values}: expected {wanted}, got {got}", statuses
        return None, statuses
    finally:
        served.end()


def same_texts(library, program, folder, draw):
    """Returns the first texts whose outcomes differ, or none. The program ends with 0, or with 1 for an error or a rejected policy."""
    files = {it: f"{folder}/{it}" for it in ("schema", "policies", "entities", "request")}
    for number in range(TEXTS):
        texts = draw.texts()
        for it, path in files.items():
            with open(path, "wb") as file:
                file.write(texts[it])
        three = ["--policies", files["policies"], "--entities", files["entities"], "--request", files["request"]]
        for name, values, words in (
            ("decide", (texts["policies"], texts["entities"], texts["request"]), ["decide", *three]),
            ("decide_under", tuple(texts.values()), ["decide", "--schema", files["schema"], *three]),
            ("check", (texts["schema"], texts["policies"]), ["check", "--schema", files["schema"], files["policies"]]),
        ):
            status, body = library._text_call(name, *values)
            done = subprocess.run([program, *words], capture_output=True)
            told = (done.stdout or done.stderr).removesuffix(b"\n")
            if (told, done.returncode) != (body, 0 if status == 200 else 1):
                return f"texts {number}: {name} {values}: expected {done.returncode} {told}, got {status} {body}"
    return None


def compare(count, program):
    if program is None or not os.path.isfile(program):
        count.skip("the library compared with the program", "no program")
        return
    os.environ["WEIRBOWL_SO"] = f"{OUT}/libweirbowl.so"
    sys.dont_write_bytecode = True
    sys.path.insert(0, f"{HERE}/python")
    import weirbowl as library  # noqa: PLC0415

    with tempfile.TemporaryDirectory() as folder:
        differs, statuses = same_calls(library, program, folder, Draw(20_261_127))
        count.check(f"{SITES} random calls, through the library and the program ({statuses})", differs is None, differs)
        enough = {200, 404, 409, 422} <= set(statuses)
        count.check("these calls meet each status but 503", enough, f"expected each status, got {statuses}")
        differs = same_texts(library, program, folder, Draw(7))
        count.check(f"{3 * TEXTS} random decisions and checks over texts, through both", differs is None, differs)


def main():
    words = argparse.ArgumentParser(description=__doc__, formatter_class=argparse.RawDescriptionHelpFormatter)
    words.add_argument("--built", action="store_true", help="takes the archive of embedding/out as it is")
    words.add_argument("program", metavar="PROGRAM", nargs="?", help="the program to compare the library with")
    given = words.parse_args()
    built, count = given.built, Count()
    about_declarations(count)
    if not shutil.which("cc") or not shutil.which("ar") or not shutil.which("nm"):
        count.skip("the library", "no C compiler")
    elif (built and os.path.exists(f"{OUT}/libweirbowl.so")) or (made := build_archive(count)):
        if not built:
            link(count, made)
        try_c(count)
        try_rust(count)
        try_python(count)
        compare(count, os.path.abspath(given.program) if given.program else None)
    if count.skipped:
        print(f"skipped: {', '.join(count.skipped)}")
    print(f"{count.passed} passed, {count.failed} failed")
    return 1 if count.failed else 0


if __name__ == "__main__":
    sys.exit(main())
