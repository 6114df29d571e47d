#!/usr/bin/env python3
"""Follows names through the definitions of specs/, and counts the paths through the graph of crates.

    tools/docs/definitions.py public [--names] [--top FOLDER] [CRATE ..]
    tools/docs/definitions.py reading [--names] [CRATE MODULE NAME ..]
    tools/docs/definitions.py paths [--total N] [--most N]

`public` finds the modules of specs/ on which public contracts rest; specs/inner/ must hold exactly the others. A public contract is a clause of a
function, method or trait, or a ghost member (`view`, `from_gives` ..), of what a crate's lib.rt exports. It prints each module outside specs/inner/
that no public contract reaches, and each inside that one reaches; the status is 1 if there is any. An `invariant` is about private fields: a module
that only invariants cite may be outside or inside. A module outside is right if one of its names is reached; --names prints its other names and
their number, without an effect on the status.

`reading` lists the definitions on which a contract rests: the files of specs/ that a reader must believe, highest first, with their lines. By default
it starts at `program::run`, the clauses of the trait `Host`, and their meaning for `SystemHost`. It follows names, from those that the contract cites
to those that their definitions cite, over the `use` lines of specs/. It omits names that no definition on the way cites (lemmas, helpers of proofs). A
file counts with the lines of its reached definitions and of the comments above them; types and traits that are declared in code count with their file.
For std and the ported libraries it only reports which are cited. It prints the files of each crate with their lines, and the files that declare types;
docs/definitions.md has these numbers (tools/docs/made_docs.py). --names prints a table with the reached names of each file.

`paths` counts the paths through the graph of crates, and fails if there are too many. A path starts at a crate and follows the libraries that
crates.txt names; a crate alone is a path. Kit 13b reads the sources of a library again on each path to it, 16 ms a path; kit 13f walks the paths when it
starts. So a crate names the highest crates that it needs, and these pass on the crates below them (docs/proving.md). It prints the total, the crates
with the most paths, and the most expensive edges that could go, since the library is also reached through another crate.

Standard library alone.
"""
import argparse
import functools
import itertools
import os
import re
import sys
import textwrap

TOP = os.path.dirname(os.path.dirname(os.path.dirname(os.path.abspath(__file__))))
START = "program"
# what the clauses of its contract cite, and what they are over: each file of its code with what is declared there
CITED = [("Events", "Runs"), ("Runs", "IsRun")]
OVER = [("host", "Host"), ("system", "SystemHost")]
HEAD = re.compile(r"^(?:(?:abbrev|unfoldable|opaque|pub|data|record|mutual|infixl|infixr|infix)\s+)*(?:\d+\s+)?(◌\S+|[^\s:(){},=]+)")
WORD = re.compile(r"[^\s(){}\[\],;.]+")
# Definitions that are believed by their type alone: a decision, or functions with the laws that settle them. Outside its module nothing
# else of one is known, since it is neither an `abbrev` nor `unfoldable`.
BY_TYPE = re.compile(r"^pub \S+ :(?:.*→)? (?:Decided|StringMeaning)\b[^→]*$", re.S)


# ---- crates


def read_crates():
    """Returns the crates of the repository in the order of crates.txt, each with the crates that it names."""
    named = {}
    with open(f"{TOP}/crates.txt", encoding="utf-8") as file:
        for line in file:
            name, _, libraries = line.partition("#")[0].partition(":")
            if name.strip():
                named[name.split()[0]] = libraries.split()
    return {name: [it for it in libraries if it in named] for name, libraries in named.items()}


def crates_in_order():
    return list(read_crates())


def crates_lowest_first(named):
    """Returns the crates, each after those that it names."""
    order = {}

    def visit(name):
        if name not in order:
            for it in named[name]:
                visit(it)
            order[name] = None

    for name in named:
        visit(name)
    return list(order)


def counts(named):
    """Returns two maps: how many paths start at a crate, and how many lead to it."""
    order = crates_lowest_first(named)
    start, end = {}, dict.fromkeys(order, 1)
    for name in order:
        start[name] = 1 + sum(start[it] for it in named[name])
    for name in reversed(order):
        for it in named[name]:
            end[it] += end[name]
    return start, end


def spared(named, start, end):
    """Returns what each edge that could go would spare, in paths, the most first."""
    below = {}
    for name in crates_lowest_first(named):
        below[name] = set(named[name]).union(*(below[it] for it in named[name]))
    edges = ((name, it) for name in named for it in named[name] if any(it in below[other] for other in named[name]))
    return sorted(((end[name] * start[it], name, it) for name, it in edges), reverse=True)


# ---- names


def opened(lines):
    """Returns the lines with the content of `module` and `mutual` blocks moved to the left, and their first lines empty."""
    found, inside, head = [], False, False
    for line in lines:
        if head or re.match(r"(pub )?module |(\w+ )*mutual$", line):
            # a module's parameters may take several lines
            head = not line.endswith(("where", "mutual"))
            inside, line = True, ""
        elif inside and line[:2].strip():
            inside = False
        found.append(line[2:] if inside else line)
    return found


@functools.lru_cache(maxsize=None)
def home_of(crate, module):
    """Returns the crate that has a module of specs/, and its name there: a crate passes another one's specs/ on under that crate's name."""
    first, _, rest = module.partition(".")
    # and that crate a third one's
    return home_of(first, rest) if rest and os.path.isdir(f"{TOP}/crates/{first}") else (crate, module)


class Module:
    """A file of specs/: what it imports, and its definitions."""

    def __init__(self, path):
        self.path, self.imports, self.items, self.by_type = path, {}, {}, set()
        with open(path, encoding="utf-8") as file:
            text = file.read()
        lines = opened(text.split("\n"))
        at, comment = 0, []
        while at < len(lines):
            line = lines[at]
            if line.startswith("--") or not line.strip():
                comment = [*comment, at] if line.startswith("--") else []
                at += 1
                continue
            if re.match(r"(unfoldable )?(pub )?(unfoldable )?(use|mod) ", line):
                end = at
                while "{" in line and "}" not in line:
                    end += 1
                    line += " " + lines[end]
                self.add_import(line)
                at, comment = end + 1, []
                continue
            end = at + 1
            while end < len(lines) and (not lines[end].strip() or lines[end][0].isspace() or lines[end].startswith(("--", "]"))):
                if lines[end].startswith("--") or not lines[end].strip() and not any(it[:1].isspace() for it in lines[end + 1 : end + 2]):
                    break
                end += 1
            self.add_item(lines, at, end, comment)
            at, comment = end, []

    def add_import(self, line):
        found = re.match(r"(?:unfoldable )?(?:pub )?(?:unfoldable )?use Rattle\.(\w+)\.specs\.([\w.]+?)(?:\.\{(.*)\})?\s*(?:as (\S+))?\s*$", line)
        if not found:
            return
        crate, module, names, alias = found.groups()
        crate, module = home_of(crate, module)
        if names is None:
            self.imports[alias or module.split(".")[-1]] = (crate, module, None)
            return
        for name in filter(None, (it.strip() for it in names.split(","))):
            real, _, shown = name.partition(" as ")
            self.imports[(shown or real).strip()] = (crate, module, real.strip())

    def add_item(self, lines, at, end, comment):
        text = "\n".join(lines[at:end])
        found = HEAD.match(lines[at])
        names = {found[1]} if found and found[1] != "unfolding" else set()
        # a type's constructors; a record's fields are reached with it, since what has a field has the record's type
        names |= set(re.findall(r"(?m)^  (?:pub )?(\S+) :", text)) if re.match(r"(pub )?data", lines[at]) else set()
        for name in names:
            if name in self.by_type:
                continue
            owner = self.items.setdefault(name, [set(), ""])
            if BY_TYPE.match(text):
                self.by_type.add(name)
            owner[0].update([*comment, *range(at, end)])
            owner[1] += text + "\n"


def imports_of(text):
    """Returns what the `ghost use` lines of a file of code bring."""
    module = Module.__new__(Module)
    module.imports = {}
    for found in re.finditer(r"ghost (use [^;]+);", text):
        module.add_import(" ".join(found[1].split()))
    return module.imports


@functools.lru_cache(maxsize=None)
def path_of(crate, module):
    """Returns the file of a module of specs/: of a lower crate, if the crate's Lib.antt passes it on."""
    path = f"{TOP}/crates/{crate}/specs/{module.replace('.', '/')}.antt"
    library = f"{TOP}/crates/{crate}/specs/Lib.antt"
    if os.path.isfile(path) or not os.path.isfile(library):
        return path
    with open(library, encoding="utf-8") as file:
        for below, passed_on in re.findall(r"(?m)^pub use Rattle\.(\w+)\.specs\.([\w.]+)$", file.read()):
            if passed_on.split(".")[-1] == module:
                return path_of(below, passed_on)
    return path


class Walk:
    """What is reached from some names."""

    def __init__(self):
        self.modules, self.reached, self.types, self.seen, self.libraries = {}, {}, {}, set(), set()

    def module(self, crate, name):
        path = path_of(crate, name)
        if path not in self.modules:
            self.modules[path] = Module(path) if os.path.isfile(path) else None
        return self.modules[path]

    def declared(self, crate, module):
        """Returns the source file of a type that is declared in code."""
        parts = module.split(".")[1:]
        for last in range(len(parts), 0, -1):
            for path in ("/".join(parts[:last]), "/".join(p for p in parts[: last - 1])):
                file = f"{TOP}/crates/{crate}/src/{path}.rt"
                if path and os.path.isfile(file):
                    self.types.setdefault(file, set()).add(next((p for p in parts if p[:1].isupper()), parts[-1]))
                    return
        self.types.setdefault(f"{TOP}/crates/{crate}/src/lib.rt", set()).add(parts[-1])

    def visit_code(self, crate, file, name):
        """Returns what is declared in a file of code, with its clauses and ghost members."""
        path = f"{TOP}/crates/{crate}/src/{file}.rt"
        self.types.setdefault(path, set()).add(name)
        with open(path, encoding="utf-8") as it:
            text = re.sub(r"(?m)//.*$", "", it.read())
        self.follow(text, imports_of(text))

    def follow(self, code, imports, here=None, but=None):
        """Returns what a piece of a definition or of a clause cites: what the imports bring, and in the module of a definition its others."""
        for word in sorted(set(WORD.findall(code)) | set(re.findall(r"◌[^\s]*◌", code)), key=lambda it: (code.find(it), it)):
            if here and word in here[2] and word != but:
                self.visit(here[0], here[1], word)
            elif word in imports:
                crate, module, real = imports[word]
                # a module under a name of its own: what stands behind its dot
                behind = re.findall(rf"(?<![\w.]){re.escape(word)}\.(\w[^\s(){{}}\[\],;.]*)", code)
                for each in [real] if real else behind:
                    self.visit(crate, module, each)
        # an operator stands between its parts; the steps of a `do` block are joined by `>>=`
        code = code.replace("←", ">>=")
        for shown, to in {**imports, **({it: (*here[:2], it) for it in here[2]} if here else {})}.items():
            if "◌" in shown and shown != but and all(part in code for part in shown.split("◌") if part):
                self.visit(to[0], to[1], to[2] or shown)

    def visit(self, crate, module, name):
        if not os.path.isdir(f"{TOP}/crates/{crate}"):
            self.libraries.add(crate)
            return
        if module.startswith("declared."):
            self.declared(crate, module)
            return
        found = self.module(crate, module)
        if found is None:
            return
        if name not in found.items:
            # a name that the module passes on
            if name in found.imports and found.imports[name] != (crate, module, name):
                to = found.imports[name]
                self.visit(to[0], to[1], to[2] or name)
            return
        if (found.path, name) in self.seen:
            return
        self.seen.add((found.path, name))
        lines, text = found.items[name]
        # a reader of what cites it reads its type in specs/inner/, and no more of that file
        is_sealed = name in found.by_type and "/specs/inner/" in found.path
        if not is_sealed:
            self.reached.setdefault(found.path, {})[name] = lines
        self.follow(re.sub(r"(?m)--.*$", "", text), found.imports, (crate, module, found.items), name)


# ---- what a reader must believe


def whole(walk):
    """Returns what the contract of the whole program rests on."""
    for file, name in OVER:
        walk.visit_code(START, file, name)
    for module, name in CITED:
        walk.visit(START, module, name)


def lowest_first(walk):
    """Returns the files, by crate and in a crate each behind those that it cites; what declares types goes before."""
    crates, behind, seen = crates_in_order(), [], set()

    def put(path):
        if path in walk.reached and path not in seen:
            seen.add(path)
            for crate, module, _ in walk.modules[path].imports.values():
                put(path_of(crate, module))
            behind.append(path)

    for path in walk.reached:
        put(path)
    return sorted([*sorted({*walk.types} - {*behind}), *behind], key=lambda path: crates.index(os.path.relpath(path, TOP).split("/")[1]))


def rows_of(walk):
    """Yields the files, highest first, each with its lines (none where it declares types) and the names that are reached."""
    for path in reversed(lowest_first(walk)):
        if path in walk.reached:
            yield os.path.relpath(path, TOP), len(set().union(*walk.reached[path].values())), sorted(walk.reached[path])
        else:
            yield os.path.relpath(path, TOP), 0, sorted(walk.types[path])


def by_crate(rows):
    """Yields an item of a list for each crate: its files of specs/ with their lines, and those that declare types."""
    for crate, group in itertools.groupby(rows, lambda row: row[0].split("/")[1]):
        group = [(path.split("/", 3)[3].rsplit(".", 1)[0], lines) for path, lines, _ in group]
        specs = ", ".join(f"{name} {lines}" for name, lines in group if lines)
        types = ", ".join(name for name, lines in group if not lines)
        text = "; types: ".join(it for it in (specs, types) if it) if specs else f"types: {types}"
        yield from textwrap.wrap(f"- `{crate}`: {text}", 100, subsequent_indent="  ", break_long_words=False, break_on_hyphens=False)


def listed(walk, names):
    """Returns the output: the totals, and the files, highest first."""
    rows = list(rows_of(walk))
    count = f"{len(walk.reached)} files of specs/, {sum(lines for _, lines, _ in rows)} lines of definitions; {len(rows) - len(walk.reached)} files that declare types."
    libraries = textwrap.wrap(f"Cited, and not listed: {', '.join(sorted(walk.libraries))}.", 100) if walk.libraries else []
    if names:
        shown = ["| file | lines | names |", "|---|---|---|"]
        shown += [f"| {path} | {lines or 'types'} | {', '.join(told)} |" for path, lines, told in rows]
    else:
        shown = by_crate(rows)
    return [count, *libraries, "", *shown]


# ---- public contracts


def block_at(text, at):
    """Returns the text between the brace at a position and the one that closes it, and the position after it."""
    depth, end = 0, at
    while end < len(text):
        if text[end] == "{":
            depth += 1
        elif text[end] == "}":
            depth -= 1
            if depth == 0:
                return text[at + 1 : end], end + 1
        end += 1
    return text[at + 1 :], len(text)


def without_comments(text):
    return re.sub(r"(?m)//.*$", "", text)


def given_out(crate):
    """Returns the names that a crate's root exports; None for a program."""
    path = f"{TOP}/crates/{crate}/src/lib.rt"
    if not os.path.isfile(path):
        return None
    with open(path, encoding="utf-8") as file:
        text = without_comments(file.read())
    names = set()
    for found in re.finditer(r"(?m)^pub use ([^;]+);", text):
        rest = found[1]
        inside = re.search(r"\{(.*)\}", rest, re.S)
        for name in (inside[1].split(",") if inside else [rest.split("::")[-1]]):
            name = name.strip().split(" as ")[0].strip()
            if name:
                names.add(name.split("::")[-1])
    names |= declared_in(text)
    for module in re.findall(r"(?m)^pub mod (\w+);", text):
        with open(f"{TOP}/crates/{crate}/src/{module}.rt", encoding="utf-8") as file:
            names |= declared_in(without_comments(file.read()))
    return names


def declared_in(text):
    """Returns the public items of a file."""
    return set(re.findall(r"(?m)^pub (?:const |extern \"C\" )?(?:fn|struct|enum|trait|const|type) (\w+)", text))


def clauses(text):
    """Yields the clauses and ghost members in a piece of code: of each its text, and whether it is an invariant."""
    for found in re.finditer(r"(?:\b(?:requires|ensures|measure)\b(?: \w+)? ?|\bghost (\w+)(?:: |\s*=\s*))(?=\{)", text):
        yield block_at(text, found.end())[0], found[1] == "invariant"


def functions(text, only_public):
    """Yields each function with its head."""
    for found in re.finditer(r"(?m)^\s*(pub(?:\(crate\))? )?(?:const |extern \"C\" )?fn (\w+)", text):
        if only_public and found[1] != "pub ":
            continue
        at = found.end()
        while at < len(text) and text[at] not in "{;":
            # a clause's braces are not the body's
            word = re.match(r"\b(?:requires|ensures|measure)\b(?: \w+)? ?(?=\{)", text[at:])
            if word and not text[at - 1].isalnum():
                at = block_at(text, at + word.end())[1]
            else:
                at += 1
        yield found[2], text[found.start() : at]


BLOCK = re.compile(r"(?m)^(?:pub(?:\(crate\))? )?(?:unsafe )?(impl|trait|struct|enum)\b([^{;]*)")


def blocks_of(text):
    """Returns the impls, traits, structs and enums of a file, each with its kind, its head and its body, and the text outside them."""
    found, at, outside = [], 0, ""
    for block in BLOCK.finditer(text):
        brace = text.find("{", block.end() - 1)
        if block.start() < at or brace < 0:
            continue
        # a `where` with clauses does not occur on these
        body, end = block_at(text, brace)
        outside, at = outside + text[at : block.start()], end
        found.append((block[1], block[2], body))
    return found, outside + text[at:]


def is_exported(kind, head, names):
    """Returns whether a block is of an exported name: of an impl of a trait, also the type must be."""
    words = set(re.findall(r"\w+", head))
    if kind == "impl" and " for " in head:
        return bool(words & names and set(re.findall(r"\w+", head.split(" for ")[1])) & names)
    return bool(words & names)


def public_clauses(text, names):
    """Yields the public clauses of a file, as `clauses` gives them."""
    found, outside = blocks_of(text)
    for kind, head, body in found:
        if names is not None and not is_exported(kind, head, names):
            continue
        # the clauses of an impl's own methods are public if the method is
        pieces = [piece for _, piece in functions(body, True)] if kind == "impl" and " for " not in head else [body]
        yield from itertools.chain(*map(clauses, pieces))
    for name, piece in functions(outside, True):
        if names is None or name in names:
            yield from clauses(piece)


def public_texts(crate, names):
    """Yields the clauses that are public, as `clauses` gives them, each with the file's imports."""
    for folder, _, files in os.walk(f"{TOP}/crates/{crate}/src"):
        for file in sorted(it for it in files if it.endswith(".rt")):
            with open(f"{folder}/{file}", encoding="utf-8") as it:
                text = re.sub(r"(?s)#\[cfg\(test\)\].*", "", without_comments(it.read()))
            imports = imports_of(text)
            yield from ((it, imports) for it in public_clauses(text, names))


def modules_of(crate):
    top = f"{TOP}/crates/{crate}/specs"
    for folder, _, files in os.walk(top):
        for file in sorted(files):
            if file.endswith(".antt") and file != "Lib.antt":
                yield f"{folder}/{file}"


# ---- commands

def both_walks():
    """Returns two walks: from what callers see, and from that and the invariants."""
    walk, whole_walk = Walk(), Walk()
    for crate in crates_in_order():
        for (text, is_invariant), imports in public_texts(crate, given_out(crate)):
            for it in [whole_walk] if is_invariant else [walk, whole_walk]:
                it.follow(re.sub(r"(?m)--.*$", "", text), imports)
    return walk, whole_walk


def run_public(words):
    global TOP
    TOP = os.path.abspath(words.top)
    walk, whole_walk = both_walks()
    status, left = 0, {}
    for path in itertools.chain(*map(modules_of, words.crates or crates_in_order())):
        short = os.path.relpath(path, TOP)
        if "/formers" in short or short.endswith("/specs/inner.antt"):
            continue
        is_inner = "/specs/inner/" in short
        reached = sorted((walk if is_inner else whole_walk).reached.get(path, {}))
        others = [] if is_inner or not reached else sorted(set(whole_walk.modules[path].items) - set(reached))
        if is_inner and reached:
            print(f"{short}: expected outside specs/inner, since public contracts rest on {', '.join(reached)}, got inside")
        elif not is_inner and not reached:
            print(f"{short}: expected in specs/inner, since no public contract rests on it, got outside")
        if is_inner == bool(reached):
            status = 1
        if others:
            left[short] = others
            if words.names:
                print(f"    {short}: {len(others)} of {len(whole_walk.modules[path].items)} names not reached: {', '.join(others)}")
    if words.names:
        print(f"{sum(map(len, left.values()))} names in {len(left)} modules outside specs/inner/ are cited by no public contract")
    return status


def lost_start(walk, start):
    """Returns why a walk cannot start at these words (a crate, a module and names), or None if it can."""
    if len(start) < 3:
        return f"expected a crate, a module and a name, got {' '.join(start)}"
    crate, module, *names = start
    found = walk.module(crate, module) if os.path.isdir(f"{TOP}/crates/{crate}") else None
    if found is None:
        return f"expected a module of a crate, got {module} of {crate}"
    lost = [it for it in names if it not in found.items and it not in found.imports]
    return f"expected names of {os.path.relpath(found.path, TOP)}, got {', '.join(lost)}" if lost else None


def run_reading(words):
    walk = Walk()
    why = lost_start(walk, words.start) if words.start else None
    if why:
        print(f"tools/docs/definitions.py: {why}", file=sys.stderr)
        return 2
    for name in words.start[2:]:
        walk.visit(words.start[0], words.start[1], name)
    if not words.start:
        whole(walk)
    print("\n".join(listed(walk, words.names)))
    return 0


def run_paths(words):
    named = read_crates()
    start, end = counts(named)
    total, dearest = sum(start.values()), sorted(start, key=start.get, reverse=True)
    print(f"paths through the graph of crates: expected at most {words.total}, got {total}")
    print(f"paths from one crate: expected at most {words.most}, got {', '.join(f'{it} {start[it]}' for it in dearest[:6])}")
    print(f"edges that could go, and the paths that each costs: {', '.join(f'{name} -> {it} {paths}' for paths, name, it in spared(named, start, end)[:6])}")
    return 1 if total > words.total or start[dearest[0]] > words.most else 0


def parser():
    """Returns the parser of the command line."""
    top = argparse.ArgumentParser(description=__doc__.split("\n", maxsplit=1)[0])
    commands = top.add_subparsers(dest="command", metavar="public | reading | paths", required=True)
    public = commands.add_parser("public", help="checks that specs/inner/ holds exactly the modules on which no public contract rests")
    public.add_argument("--names", action="store_true", help="also prints the names of the other modules that no public contract cites")
    public.add_argument("--top", metavar="FOLDER", default=TOP, help="the repository to check (default: this one)")
    public.add_argument("crates", metavar="CRATE", nargs="*", help="the crates to report (default: all)")
    public.set_defaults(run=run_public)
    reading = commands.add_parser("reading", help="lists the files of specs/ on which a contract rests, with their lines")
    reading.add_argument("--names", action="store_true", help="prints a table with the reached names of each file")
    reading.add_argument("start", metavar="CRATE MODULE NAME", nargs="*", help="the names to start at (default: the contract of the whole program)")
    reading.set_defaults(run=run_reading)
    paths = commands.add_parser("paths", help="counts the paths through the graph of crates, and fails if there are too many")
    paths.add_argument("--total", metavar="N", type=int, default=36_000, help="the most paths (default: 36000)")
    paths.add_argument("--most", metavar="N", type=int, default=12_000, help="the most paths from one crate (default: 12000)")
    paths.set_defaults(run=run_paths)
    return top


def main():
    words = parser().parse_args()
    return words.run(words)


if __name__ == "__main__":
    sys.exit(main())
