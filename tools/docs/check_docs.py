#!/usr/bin/env python3
"""Compares the documents with the repository. Prints each difference; its status is 1 if there is any.

    tools/docs/check_docs.py

- README.md's picture has the layers of crates.txt. In crates.txt each crate names only crates before it; in the picture a crate's libraries are on its own
  layer or on rows below it.
- docs/proved.md has, in bold, exactly the crates of crates.txt that are not tests, and each law by its name; each name in the
  first column of a table of laws is a law.
- docs/definitions.md, docs/surface.md and the numbers of docs/reading.md are what tools/docs/made_docs.py makes of the sources.
- The promises of systems of sites or the contract of the whole program rest on each of the fourteen files of docs/reading.md.
- Each file of docs/, bench/, tools/, examples/, tests/ and of a crate's src/, specs/ and proofs/ that a document names by its path exists. Under a heading
  that names crates, so does each path that begins with specs/, proofs/, src/, must-fail/ or mutants/, in one of these crates.
- README.md has the numbers of crates of the two programs, docs/proving.md that of all crates. tools/gate/last_run.md has the number of
  must-fail edits of each crate.
- README.md has at most 80 lines, all documents together at most MOST_BYTES. Lines of documents have at most 100 characters, except tables and code.
- Lines of specs/ and src/ have at most 120 characters, except those of LONG.
- docs/codes.md has a row for each number of an arm of a `fn code`, and for each number of a rejected body (`BodyFault::Refused`); of HTTP statuses only
  for those in place of a code. A reader must judge whether a row explains its number.
- In these rows name, meaning and example of each code are those of the table that `cedar_site explain` prints from, crates/explanations/src/table.rt; both
  have the same codes.
- If a program's stdout has lines of a case and its outcome, stdin has these lines without the outcomes.
- Each name of docs/where.md exists (tools/docs/where_it_stands.py).
- The table of docs/performance.md has the rows of `bench/runs page`, in its order.
- The man page and the completions of examples/shell are what tools/docs/command_line.py makes of the program's own table.
- Each command of a document that only reads the sources, as `tools/docs/definitions.py reading ..`, ends with status 0.
Standard library alone.
"""
import argparse
import json
import os
import re
import subprocess
import sys

TOP = os.path.dirname(os.path.dirname(os.path.dirname(os.path.abspath(__file__))))
sys.path.insert(0, f"{TOP}/tools/docs")
import command_line  # noqa: E402
import made_docs  # noqa: E402
import where_it_stands  # noqa: E402

TESTS = re.compile(r"^test_")
# statuses of no error, or in addition to a code of the site
BESIDE_CODES = {"200", "409", "422", "503"}
INSIDE = re.compile(r"(?<![\w/.])((?:specs|proofs|src|must-fail|mutants)/[\w./-]*\w)(?![\w*])")
NAMED = re.compile(r"(?<![\w/.])((?:docs|bench|tools|examples|tests)/[\w./-]*\w|crates/\w+/(?:src|specs|proofs)/[\w/]+\.\w+)")

# commands that only read the sources, in seconds
READERS = re.compile(r"`(tools/docs/(?:(?:definitions|surface|where_it_stands)\.py[^`]*|made_docs\.py --[^`]*))`")

# of which docs/definitions.md has some 16,000, docs/surface.md 8,000
MOST_BYTES = 165_000
# between a case and its outcome
ARROW = "  ->  "

# longer lines of specs/ and src/: printed or parsed texts, attributes, which need one line, and an import
LONG = {
    "crates/decision_texts/src/request.rt": 1,
    "crates/entities/src/requests.rt": 1,
    "crates/explanations/src/table.rt": 12,
    "crates/type_capabilities/src/compared.rt": 2,
}


def text_of(path):
    with open(f"{TOP}/{path}", encoding="utf-8") as file:
        return file.read()


def documents():
    yield "README.md"
    yield from (f"docs/{it}" for it in sorted(os.listdir(f"{TOP}/docs")) if it.endswith(".md"))


def crates():
    lines = (it.partition("#")[0].partition(":")[0].split() for it in text_of("crates.txt").split("\n"))
    return [it[0] for it in lines if it]


def rows_of_layers():
    """Returns the layers of each row of README.md's picture, highest first."""
    known = {name for name, _, _ in made_docs.layers()} - {"base", "tests"}
    rows = ([it for it in re.split(r" {2,}", line.strip()) if it in known] for line in text_of("README.md").split("\n") if re.match(r"    \w+ ", line))
    return [it for it in rows if it]


def about_layers():
    rows = rows_of_layers()
    shown, known = [it for row in rows for it in row], [name for name, _, _ in made_docs.layers() if name not in ("base", "tests")]
    if sorted(shown) != sorted(known):
        yield f"README.md's picture: expected the layers {', '.join(known)}, got {', '.join(shown)}"
    row_of = {name: -number for number, row in enumerate(rows) for name in row}
    layer_of = {crate: name for name, _, names in made_docs.layers() for crate in names}
    before = set()
    for line in text_of("crates.txt").split("\n"):
        name, _, named = line.partition("#")[0].partition(":")
        for other in named.split():
            if other in crates() and other not in before:
                yield f"crates.txt: {name}: expected {other} before it, got it later"
            low, high = layer_of.get(other), layer_of.get(name.strip())
            if low in row_of and high in row_of and low != high and row_of[low] >= row_of[high]:
                yield f"README.md: expected {other} below {name} in the picture, got it elsewhere"
        before.add(name.strip())


def about_crates():
    product, text = {it for it in crates() if not TESTS.search(it)}, text_of("docs/proved.md")
    proved = set(re.findall(r"\*\*`?(\w+)`?\*\*", text))
    yield from (f"docs/proved.md: expected the crate {it}, got nothing" for it in sorted(product - proved))
    yield from (f"docs/proved.md: expected a crate of crates.txt, got {it}" for it in sorted(proved - product))
    words, laws = set(re.findall(r"\w+", text)), {name: crate for crate, name in made_docs.laws()}
    yield from (f"docs/proved.md: expected the law {crate}::{name}, got nothing" for name, crate in laws.items() if name not in words)
    for table in re.findall(r"(?m)^\| law \|.*\n(?:\|.*\n)+", text):
        named = (it for row in table.split("\n")[2:-1] for it in re.findall(r"`(\w+)`", row.split("|")[1]))
        yield from (f"docs/proved.md: expected a law, got {it}" for it in named if it not in laws)


def about_paths():
    known = set(crates())
    for name in documents():
        text = text_of(name)
        for path in sorted(set(NAMED.findall(text))):
            if not os.path.exists(f"{TOP}/{path}"):
                yield f"{name}: expected {path}, got no such file"
        # paths under a heading that names crates are of these
        for part in re.split(r"(?m)^#+ ", text):
            folders = [f"{TOP}/crates/{it}" for it in re.findall(r"`(\w+)`", part.partition("\n")[0]) if it in known]
            for path in sorted(set(INSIDE.findall(part))) if folders else ():
                # a word in capitals stands for any name
                if not re.search(r"/[A-Z]+$", path) and not any(os.path.exists(f"{it}/{path}{ending}") for it in folders for ending in ("", ".antt", ".rt", ".edit")):
                    yield f"{name}: expected {path} of {part.partition(chr(10))[0]}, got no such file"


def below(name, libraries, found=None):
    """Returns the crates below one, and itself."""
    found = set() if found is None else found
    if name in libraries and name not in found:
        found.add(name)
        for other in libraries[name]:
            below(other, libraries, found)
    return found


def about_numbers():
    lines = [it.partition("#")[0].partition(":") for it in text_of("crates.txt").split("\n")]
    libraries = {name.split()[0]: named.split() for name, _, named in lines if name.strip()}
    bare, whole = len(below("bare_decide", libraries)), len(below("cedar_site", libraries))
    wanted = (
        ("README.md", f"`bare_decide`: {bare} crates"),
        ("README.md", f"the whole program: {whole} crates"),
        ("docs/proving.md", f"All {len(libraries)} crates and programs"),
    )
    for name, words in wanted:
        if words not in " ".join(text_of(name).split()):
            yield f"{name}: expected the words {words!r}, got others"
    rows = dict(re.findall(r"(?m)^\| `(\w+)` \| [^|]*\| (\d*)", text_of("tools/gate/last_run.md")))
    for name in libraries:
        folder = f"{TOP}/crates/{name}/must-fail"
        edits = len([it for it in os.listdir(folder) if it.endswith(".edit")]) if os.path.isdir(folder) else 0
        if rows.get(name) != str(edits or ""):
            yield f"tools/gate/last_run.md: {name}: expected {edits} edits, got {rows.get(name)}"


def about_lines():
    if text_of("README.md").count("\n") > 80:
        yield "README.md: expected at most 80 lines, got more"
    size = sum(os.path.getsize(f"{TOP}/{name}") for name in documents())
    if size > MOST_BYTES:
        yield f"all documents together: expected at most {MOST_BYTES} bytes, got {size}"
    for name in documents():
        is_code = False
        for number, line in enumerate(text_of(name).split("\n"), 1):
            is_code ^= line.startswith("```")
            if len(line) > 100 and not is_code and not line.startswith(("|", "    ")):
                yield f"{name}:{number}: expected at most 100 characters, got {len(line)}"


def about_long_lines():
    for folder, _, names in os.walk(f"{TOP}/crates"):
        inside = os.path.relpath(folder, TOP).split(os.sep)[2:3]
        for name in sorted(names) if inside in (["src"], ["specs"]) else ():
            path = os.path.relpath(f"{folder}/{name}", TOP)
            long = sum(len(line) > 120 for line in text_of(path).split("\n"))
            if long != LONG.get(path, 0):
                yield f"{path}: expected {LONG.get(path, 0)} lines of over 120 characters, got {long}"


def about_codes():
    coded = set()
    for folder, _, names in os.walk(f"{TOP}/crates"):
        inside = os.path.relpath(folder, TOP).split(os.sep)[2:3]
        for name in names if inside == ["src"] else ():
            text = text_of(os.path.relpath(f"{folder}/{name}", TOP))
            for arms in re.findall(r"(?s)\bfn code\(.*?\n    }\n", text):
                coded |= set(re.findall(r"=> (\d+)", arms))
            coded |= set(re.findall(r"\bBodyFault::Refused\((\d+)\)", text))
    told = set(re.findall(r"(?m)^\| (\d+) \|", text_of("docs/codes.md").partition("## Statuses of the program")[0]))
    yield from (f"docs/codes.md: expected a row for {it}, got none" for it in sorted(coded - told - BESIDE_CODES, key=int))


def told_codes():
    """Yields name, meaning and example of each code, as the table of the code has them."""
    text = r'"((?:[^"\\]|\\.)*)"'
    row = r"CodeWords \{\s*code: (\d+),\s*name: TEXT,\s*meaning: TEXT,\s*example: TEXT,".replace("TEXT", text)
    for code, *texts in re.findall(row, text_of("crates/explanations/src/table.rt")):
        yield int(code), [json.loads(f'"{it}"') for it in texts]


def about_code_table():
    told, table = dict(told_codes()), {}
    for part in text_of("docs/codes.md").partition("## Statuses of the program")[0].split("| code |")[1:]:
        has_example = "example" in part.partition("\n")[0]
        for line in re.findall(r"(?m)^\| \d+ \|.*$", part):
            code, name, meaning, example, *_ = (it.strip() for it in line.strip("| ").split(" | "))
            table[int(code)] = [name, meaning, example if has_example else None]
    for code in sorted(told.keys() | table.keys()):
        ours, theirs = told.get(code), table.get(code)
        if ours is None or theirs is None:
            yield f"code {code}: expected it in docs/codes.md and in crates/explanations/src/table.rt, got it in one of them"
        elif ours[:2] != theirs[:2] or theirs[2] not in (None, ours[2]):
            yield f"docs/codes.md: code {code}: expected {ours} (crates/explanations/src/table.rt), got {theirs}"


def about_cases():
    for name in crates():
        wanted, given = f"crates/{name}/stdout", f"crates/{name}/stdin"
        if os.path.exists(f"{TOP}/{wanted}") and ARROW in text_of(wanted):
            lines = [it if it.startswith("#") or ARROW not in it else it.rpartition(ARROW)[0] for it in text_of(wanted).split("\n")]
            if lines != text_of(given).split("\n"):
                yield f"{given}: expected the output of sed '/^#/!s/^\\(.*\\)  ->  .*$/\\1/' {wanted}, got other lines"


def about_reading():
    text, (files, _), (headline, _) = text_of("docs/reading.md"), made_docs.reached(), made_docs.reached(headline=True)
    if len(made_docs.TOTALS.findall(text)) != 2:
        yield "docs/reading.md: expected twice the words `N files of specs/, N lines of definitions; N files that declare types`, got another number"
    rows = re.findall(r"(?m)^\| (crates/(\w+)/specs/\S+\.antt) \| \d+ \|", text)
    if len(rows) != 14:
        yield f"docs/reading.md: expected fourteen files, got {len(rows)}"
    for path, crate in rows:
        if not any(f"{TOP}/{path}" in it.get(crate, ()) for it in (files, headline)):
            yield f"docs/reading.md: expected a file on which the promises of systems or the whole program rest, got {path}"


def about_performance():
    ran = subprocess.run([sys.executable, f"{TOP}/bench/runs", "page", "--check"], capture_output=True, text=True, check=False)
    if ran.returncode != 0:
        yield ran.stdout.strip() or f"bench/runs page --check: expected status 0, got {ran.returncode}: {ran.stderr.strip()}"


def about_commands():
    for name in documents():
        # a word in capitals stands for any name
        for words in sorted({it.group(1) for it in re.finditer(READERS, " ".join(text_of(name).split()))}):
            if not re.search(r"\b[A-Z]{2,}\b", words):
                ran = subprocess.run([f"{TOP}/{words.split()[0]}", *words.split()[1:]], capture_output=True, text=True, check=False)
                if ran.returncode != 0:
                    yield f"{name}: expected status 0 of `{words}`, got {ran.returncode}: {(ran.stderr or ran.stdout).strip()[:200]}"


def main():
    argparse.ArgumentParser(description=__doc__, formatter_class=argparse.RawDescriptionHelpFormatter).parse_args()
    found = [*about_layers(), *about_crates(), *about_paths(), *about_numbers(), *about_lines(), *about_long_lines(), *about_codes(), *about_code_table()]
    found += [*about_cases(), *made_docs.stale(), *about_reading(), *where_it_stands.faults(), *command_line.stale(), *about_performance(), *about_commands()]
    print("\n".join(found) or "documents: all checks passed")
    return 1 if found else 0


if __name__ == "__main__":
    sys.exit(main())
