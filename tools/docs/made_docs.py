#!/usr/bin/env python3
"""Makes docs/definitions.md, docs/surface.md, the last table of docs/where.md and the numbers of docs/reading.md from the sources, and lists exports.

    tools/docs/made_docs.py [--check | --missing | --laws | --calls [CRATE ..] | --where NAME]

docs/definitions.md has each file of specs/ on which the contract of the whole program rests: the number of its lines that
it rests on (`tools/docs/definitions.py reading`), the first clause of its head comment, and its public source. docs/surface.md
has the names of tools/docs/surface.py, with the first clause of each doc comment; docs/where.md has for each of these names the module that declares it and
the crates that export it (tools/docs/exports.py). In docs/reading.md the totals and the lines
of the named files are made.

--check writes nothing: it prints the differences, and its status is 1 if there are any. --missing prints exports without
a doc comment and files of specs/ without a head comment. --laws prints the laws, which are functions that do nothing.
--calls prints what crates export: types and traits with their public methods, functions and constants, each with the
first clause of its doc comment. --where NAME prints the files of specs/ that define a name, with their sources. A source is
a heading of the Cedar reference guide 4.0 (in quotes), a file of the formal model cedar-spec (a path below cedar-lean/Cedar)
or a standard; a file that has only rules of this product has none. Standard library alone.
"""
import argparse
import functools
import itertools
import os
import re
import sys
import textwrap

HERE = os.path.dirname(os.path.abspath(__file__))
sys.path.insert(0, HERE)
import definitions as specs  # noqa: E402

TOP = specs.TOP
WIDTH = 100
TESTS = re.compile(r"^test_")
ITEM = re.compile(r"^pub (?:const )?(?P<kind>fn|struct|enum|trait|const|type) (?P<name>\w+)")
METHOD = re.compile(r"^    (?P<pub>pub )?(?:const )?fn (?P<name>\w+)")
IMPL = re.compile(r"^impl(?:<.*?>)? (?:(?P<trait>[\w:]+)(?:<.*>)? for )?(?P<type>\w+)")
# the most characters of a first clause that is printed whole
LONG = 20

STANDARD = re.compile(r"(?:RFC|FIPS) [\d-]+(?:, sections? [\d., andto]*\d)?")
# the definition of the headline over what bytes state: a crate, a module and a name
HEADLINE = ("site_theorems", "MainTheorem", "SitesAreAsStated")
# the totals of docs/reading.md, of the headline and of the whole program
TOTALS = re.compile(r"\d+(\s+files\s+of\s+specs/,\s+)\d+(\s+lines\s+of\s+definitions;\s+)\d+(\s+files\s+that\s+declare\s+types)")
# sources in this repository
OURS = re.compile(r"docs/|the (?:rules|ordinary order)\b|(?:\w+\.antt(?:,? and | of `\w+`)?)+$")
# how sources are named in short
SHORTER = (
    (r"(\"[^\"]*\")|\([^()]*\)", r"\1"),
    (r"cedar-lean/Cedar/|\.lean\b", ""),
    (r"cedar-spec, ", "cedar-spec "),
    (r"Cedar reference guide(?: 4\.0)?", "guide"),
    (r'"Grammar specification for Cedar policy syntax"', '"Grammar"'),
    (r'"Entities and context: JSON format"', '"JSON format"'),
    (r"; [^;]*\brules? of this product\b[^;]*", "; in part ours"),
    (r'guide, (?=")', ""),
    (r"cedar-spec (?=\w+/)", ""),
    (r", sections? (?=\d)", " §"),
    (r" +(?=[,;.)]| |$)", ""),
)

DEFINITIONS = """# Definitions, in the order in which to read them

Made by `tools/docs/made_docs.py` from the files of specs/ on which the contract of a whole run,
`program::run`, rests (docs/reading.md), highest crate first: each file with the number of its lines
that count, and what it defines. Its head comment names the public source, which
`made_docs.py --where NAME` prints for a name.
"""

# the part of docs/where.md that is made
WHERE = """## Where each name of the surface is

Made by `tools/docs/made_docs.py`: the names of docs/surface.md, the module that declares each, and
the crates that export it, lowest first.

| name | declared in | exported by |
|-|-|-|
"""


def text_of(path):
    with open(f"{TOP}/{path}", encoding="utf-8") as file:
        return file.read()


def cut_at(text, ends, least):
    """Returns a text up to the first of some marks that has a blank or nothing behind it, outside quotes and brackets."""
    depth, is_quoted = 0, False
    for at, letter in enumerate(text):
        is_quoted ^= letter in "`\""
        depth += not is_quoted and (letter in "({[") - (letter in ")}]")
        if letter in ends and not is_quoted and depth == 0 and at >= least and text[at + 1 : at + 2] in ("", " "):
            return text[:at]
    return text


def clause(text, most=LONG):
    """Returns the first clause of a comment, or more where that is not long, without what a signature says."""
    whole = re.sub(r" \(Cedar reference guide[^()]*\)", "", cut_at(text, ".;", 8))
    text = whole if len(whole) <= most else cut_at(whole, ":", 16)
    return re.sub(r"\[`(?:crate::|Self::)?([^`]*)`\]", r"`\1`", re.sub(r",? or `NoMemory`$|,? (?:and )?(?:takes|without) (?:no )?memory$", "", text))


def paragraph(comment):
    """Returns the first paragraph of comment lines, as one text."""
    lines = [it.strip() for it in comment]
    return " ".join(lines[: lines.index("")] if "" in lines else lines)


class Item:
    """What a crate gives out: a kind, a name, what its doc comment says, and what stands below it."""

    def __init__(self, kind, name, signature, comment):
        # what gives nothing back, changes nothing and drops nothing is a law
        says = paragraph(comment)
        is_law = kind == "fn" and not re.search(r"->|&mut", signature) and not says.startswith("Drops ")
        self.kind, self.name, self.says, self.parts = "law" if is_law else kind, name, says, []
        self.value = signature.partition("= ")[2].rstrip(";").replace("_", ",") if kind == "const" else ""


def signature(lines, at):
    """Returns the head of an item from this line on, before its clauses and its body."""
    return re.split(r"\n *(?:requires|ensures|where)\b|\{", "\n".join(lines[at : at + 12]), maxsplit=1)[0].partition(";")[0]


def items_of(path):
    """Returns the public items of a file, and the public methods of its types, each with the type's name."""
    items, methods, comment, inside = [], [], [], None
    lines = text_of(path).partition("#[cfg(test)]")[0].split("\n")
    for at, line in enumerate(lines):
        item, method, impl = ITEM.match(line), METHOD.match(line), IMPL.match(line)
        if line.strip().startswith("///"):
            comment.append(line.strip()[3:])
            continue
        if item:
            items.append(Item(item["kind"], item["name"], signature(lines, at), comment))
            inside = items[-1] if item["kind"] == "trait" else None
        elif impl:
            inside = None if impl["trait"] else impl["type"]
        elif line.startswith("}"):
            inside = None
        elif method and isinstance(inside, Item):
            inside.parts.append(Item("fn", method["name"], signature(lines, at), comment))
        elif method and inside and method["pub"]:
            methods.append((inside, Item("fn", method["name"], signature(lines, at), comment)))
        if not line.strip().startswith("#["):
            comment = []
    return items, methods


class Crate:
    """A crate: what its root says, and what it gives out."""

    def __init__(self, name):
        folder = f"crates/{name}/src"
        is_library = os.path.isfile(f"{TOP}/{folder}/lib.rt")
        root = text_of(f"{folder}/{'lib' if is_library else 'main'}.rt")
        self.name, self.items = name, []
        self.says = paragraph(it[3:] for it in re.match(r"(?://!.*\n)*", root)[0].split("\n"))
        if is_library:
            self.read(folder, root)

    def read(self, folder, root):
        opened = {"lib", *re.findall(r"(?m)^pub mod (\w+);", root)}
        named = {}
        for found in re.finditer(r"(?m)^pub use (\w+)::([^;]+);", root):
            named.setdefault(found[1], set()).update(re.findall(r"\w+", found[2]))
        methods = []
        for module in ["lib", *re.findall(r"(?m)^(?:pub )?mod (\w+);", root)]:
            items, more = items_of(f"{folder}/{module}.rt")
            self.items += [it for it in items if module in opened or it.name in named.get(module, ())]
            methods += more
        for item in self.items:
            item.parts += [it for type_name, it in methods if type_name == item.name and item.kind != "trait"]


def products():
    return [it for it in specs.crates_in_order() if not TESTS.search(it)]


def wrapped(text, depth=0):
    """Returns the lines of an item of a list."""
    indent = "  " * depth
    return textwrap.wrap(text, WIDTH, initial_indent=indent, subsequent_indent=f"{indent}  ", break_long_words=False, break_on_hyphens=False)


def layers():
    """Yields the layers of crates.txt, lowest first: the name of each, what it is for, and its crates."""
    for part in re.split(r"(?m)^# ---- ", text_of("crates.txt"))[1:]:
        name, _, what = part.partition("\n")[0].partition(": ")
        yield name, what, [it for it in re.findall(r"(?m)^(\w+):", part.partition("\n")[2]) if not TESTS.search(it)]


def calls(names):
    """Yields the lines of the exports of crates, except laws: each item with the first clause of its doc comment."""
    for crate in map(Crate, names or products()):
        yield f"{crate.name}: {clause(crate.says, 120)}"
        for item in crate.items:
            if item.kind != "law":
                yield f"  {item.name}{f' = {item.value}' if item.value else ''}: {clause(item.says, 120)}"
                yield from (f"    {it.name}: {clause(it.says, 120)}" for it in item.parts if it.kind != "law")


def laws():
    """Yields the laws, each with the name of its crate."""
    for crate in map(Crate, products()):
        yield from ((crate.name, it.name) for item in crate.items for it in [item, *item.parts] if it.kind == "law")


def modules_of(crate, folder=r"inner|formers"):
    """Yields the files of a crate's specs/ outside these folders, each with its module's name."""
    for path in specs.modules_of(crate):
        name = os.path.relpath(path, f"{TOP}/crates/{crate}/specs")[:-5]
        if not re.match(folder, name):
            yield path, name.replace("/", ".")


def source(head, told):
    """Returns the public source that a head comment names, in short, or that it has only rules of this product."""
    found = re.search(r"Sources?: (.*)", head)
    text = cut_at(found[1], ".:", 8) if found else "; ".join(dict.fromkeys(STANDARD.findall(head)))
    # a page or a file of this repository is no public source
    text = "; ".join(it for it in text.split("; ") if not OURS.match(it))
    if STANDARD.search(told) or not text and "of this product" in told:
        return ""
    for long, short in SHORTER:
        text = re.sub(long, short, text)
    return text or ("ours" if re.search(r"[Rr]ules? of this product", head) else "")


def head_of(path):
    """Returns the head comment of a file of specs/, as one text."""
    return " ".join(re.match(r"(?:--.*\n)*", text_of(os.path.relpath(path, TOP)))[0].replace("--", "").split())


@functools.lru_cache(maxsize=None)
def reached(headline=False):
    """Returns for each crate the files of specs/ on which the contract of the whole program, or the promises of systems, rest,
    in the order in which a reader meets them, each with the number of its lines that count; and the files of src/ whose types
    these name."""
    walk = specs.Walk()
    if headline:
        walk.visit(*HEADLINE)
    else:
        specs.whole(walk)
    files, types = {}, {}
    for path, lines, _ in specs.rows_of(walk):
        crate, name = path.split("/")[1], path.split("/", 3)[3].rsplit(".", 1)[0]
        if lines:
            files.setdefault(crate, {})[f"{TOP}/{path}"] = lines
        else:
            types.setdefault(crate, []).append(name)
    return files, types


def subject_of(head):
    """Returns the first clause of the head comment of a file of specs/, in short: without parentheses at its end."""
    text = clause(head)
    if len(text) > LONG:
        text = re.sub(r" \([^()]*\)$", "", re.split(r", (?!of |or )(?![^(]*\))", text)[0])
    return re.sub(r"^Defines (?:the )?(\w?)", lambda it: it[1].upper(), text)


def subject_with_source(head):
    """Returns the same, with the source of the file."""
    named = source(head, clause(head))
    return re.sub(r", sections? (?=\d)", " §", f"{subject_of(head)} ({named})" if named not in ("", "ours") else subject_of(head))


def where(name):
    """Yields the files of specs/ that define a name, each with its first clause and source."""
    walk = specs.Walk()
    for crate in products():
        for path, module in modules_of(crate, "formers"):
            if name in walk.module(crate, module).items:
                yield f"{os.path.relpath(path, TOP)}: {subject_with_source(head_of(path))}"


def definitions():
    (files, _), lines = reached(), [DEFINITIONS]
    for crate in reversed(products()):
        modules = dict(modules_of(crate))
        counted = {it: lines for it, lines in files.get(crate, {}).items() if it in modules}
        lines += [f"## `{crate}`", ""] if counted else []
        for path, number in counted.items():
            lines += wrapped(f"- {modules[path]} {number}: {subject_of(head_of(path))}.")
        lines += [""] if counted else []
    return "\n".join(lines).rstrip("\n") + "\n"


def missing():
    """Yields exports without a doc comment, and files of specs/ without a head comment."""
    for crate in map(Crate, products()):
        items = [(f"{crate.name}::{it.name}", it) for it in crate.items]
        items += [(f"{name}::{part.name}", part) for name, it in items for part in it.parts]
        yield from (name for name, it in items if not it.says)
        yield from (f"{crate.name}, specs/{module}" for path, module in modules_of(crate.name) if not head_of(path))


def purpose_of(layer):
    """Returns the purpose of a layer of crates.txt, up to its first full stop."""
    return next(what for name, what, _ in layers() if name == layer).partition(". ")[0]


def surface_page():
    import surface  # which imports this module

    return surface.page()


def reading_page():
    """Returns docs/reading.md with the numbers of the sources: its totals, and the lines of the files that it names."""
    totals = []
    for files, types in (reached(headline=True), reached()):
        lines = sum(sum(it.values()) for it in files.values())
        totals.append((sum(map(len, files.values())), lines, sum(map(len, types.values()))))
    left = iter(totals)
    text = TOTALS.sub(lambda it: "".join(f"{number}{words}" for number, words in zip(next(left), it.groups())), text_of("docs/reading.md"))
    return re.sub(r"(?m)^\| (crates/\S+\.antt) \| \d+ \|", lambda it: f"| {it[1]} | {lines_of(it[1])} |", text)


def where_page():
    """Returns docs/where.md with the table of the surface."""
    import exports  # which imports tools/docs/surface.py
    import surface

    rows = exports.where(exports.Tree(TOP), surface.SURFACE)
    table = "".join(f"| `{name}` | {home} | {', '.join(crates)} |\n" for name, home, crates in rows)
    return text_of("docs/where.md").partition(f"\n{WHERE.partition(chr(10))[0]}")[0] + f"\n{WHERE}{table}"


def lines_of(path):
    """Returns the number of lines of a file, or 0 if there is no such file."""
    return text_of(path).count("\n") if os.path.isfile(f"{TOP}/{path}") else 0


MADE = (("docs/definitions.md", definitions), ("docs/surface.md", surface_page), ("docs/where.md", where_page), ("docs/reading.md", reading_page))


def stale():
    """Yields the first line of each document that differs from the sources."""
    for path, make in MADE:
        kept, made = text_of(path).split("\n"), make().split("\n")
        for number, (old, new) in enumerate(itertools.zip_longest(kept, made), 1):
            if old != new:
                yield f"{path}:{number}: expected {new!r} (tools/docs/made_docs.py), got {old!r}"
                break


def parser():
    """Returns the parser of the command line."""
    words = argparse.ArgumentParser(description=__doc__, formatter_class=argparse.RawDescriptionHelpFormatter)
    what = words.add_mutually_exclusive_group()
    what.add_argument("--check", action="store_true", help="prints the differences between the documents and the sources")
    what.add_argument("--missing", action="store_true", help="prints exports and files of specs/ without a comment")
    what.add_argument("--laws", action="store_true", help="prints the laws")
    what.add_argument("--calls", metavar="CRATE", nargs="*", help="prints what crates export (default: all crates)")
    what.add_argument("--where", metavar="NAME", help="prints the files of specs/ that define a name")
    return words


def main():
    words = parser().parse_args()
    if words.missing:
        print("\n".join(missing()))
    elif words.calls is not None:
        print("\n".join(calls(words.calls)))
    elif words.where:
        print("\n".join(where(words.where)))
    elif words.laws:
        print("\n".join(f"{crate}::{name}" for crate, name in laws()))
    elif words.check:
        found = list(stale())
        print("\n".join(found) or "made documents: all agree with the sources")
        return 1 if found else 0
    else:
        for path, make in MADE:
            text = make()
            with open(f"{TOP}/{path}", "w", encoding="utf-8") as file:
                file.write(text)
    return 0


if __name__ == "__main__":
    sys.exit(main())
