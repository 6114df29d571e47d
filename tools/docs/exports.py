#!/usr/bin/env python3
"""Computes which names of lower crates each crate must pass on, and writes or checks the blocks that do so.

    tools/docs/exports.py [--check | --counts | --where]

In crates.txt a crate names only the highest crates that it needs, since each edge multiplies the paths through the graph (tools/docs/definitions.py paths).
These pass on what others need of the crates below them: by `pub use LOWER::{..}` in src/lib.rt, `pub use Rattle.LOWER.specs as LOWER` in specs/Lib.antt,
`pub use Rattle.LOWER.proofs as of_LOWER` in proofs/Lib.antt. A crate passes on

- a name of code exactly if a crate above, a mutant of one, or a program of bench/ names it through this crate, or if tools/docs/surface.py promises it;
- the specs/ or proofs/ of a lower crate exactly if a crate above names one of their modules through this crate.

A name comes from the crate that it comes from today; a new one from the first library, in the order of crates.txt, that declares it, else passes it on,
else has it below.
In src/lib.rt what is passed on stands behind the crate's own names: what its own layer declares under `// of this layer`, all else under
`// of lower layers`; in the Libs likewise, behind the crate's own modules.

Without an option it writes the blocks, which `rt fmt` lays out. --check prints each block that differs, each path that leads nowhere, each name that a
crate takes from its own root though a lower crate declares it, and each name, or specs/ or proofs/ of a lower crate, that a crate reaches by two paths;
the status is 1 if there is any. --counts prints how much each crate passes on. --where prints for each name of the surface the module that declares it and
the crates that export it. Standard library alone.
"""
import argparse
import functools
import os
import re
import sys

TOP = os.path.dirname(os.path.dirname(os.path.dirname(os.path.abspath(__file__))))
OF_LAYER, OF_LOWER = "of this layer", "of lower layers"
ITEM = re.compile(r"(?m)^(pub(?:\([a-z]+\))? )?(?:(?:const|unsafe|extern|ghost) +)*(?:fn|struct|enum|trait|const|type|static|union) (\w+)")
MOD = re.compile(r"(?m)^(pub(?:\([a-z]+\))? )?mod (\w+);")
USE = re.compile(r"(?m)^([ \t]*)((?:pub(?:\([a-z]+\))? )?)use ([^;]+);")
ANTT = re.compile(r"Rattle\.(\w+)\.(specs|proofs)((?:\.[^\s.{}();,]+)*)")
INLINE = re.compile(r"(?<![\w:.'])([a-z]\w*)((?:::\w+)+)")


def text_of(path):
    with open(path, encoding="utf-8") as file:
        return file.read()


def blank(found):
    return re.sub(r"[^\n]", " ", found[0])


def masked(code):
    """Returns a text of code with blanks in place of comments, strings and characters, at the same offsets."""
    return re.sub(r"//[^\n]*|b?\"(?:\\.|[^\"\\])*\"|b?'(?:\\[^\n']+|[^\\'\n])'", blank, code)


def leaves(tree, front=()):
    """Yields the paths of a `use` tree, each with its alias or None."""
    tree = " ".join(tree.split())
    found = re.match(r"((?:\w+::)*)\{(.*)\}$", tree)
    if not found:
        path, _, alias = tree.partition(" as ")
        words = path.strip().split("::")
        yield (*front, *([] if words == ["self"] else words)), alias.strip() or None
        return
    front = (*front, *filter(None, found[1].split("::")))
    depth, piece = 0, ""
    for letter in found[2] + ",":
        depth += (letter == "{") - (letter == "}")
        if letter == "," and depth == 0:
            if piece.strip():
                yield from leaves(piece.strip(), front)
            piece = ""
        else:
            piece += letter


class Use:
    """A `use` item of code: where it stands, how visible it is, and its paths."""

    def __init__(self, found):
        self.start, self.end, self.indent, self.seen = found.start(), found.end(), found[1], found[2]
        self.leaves = list(leaves(found[3]))


def uses_of(mask):
    return [Use(it) for it in USE.finditer(mask)]


class Crate:
    """A crate: the libraries that it names, its files, and what its root declares and passes on."""

    def __init__(self, top, name, libraries, layer):
        self.name, self.libraries, self.layer, self.folder = name, libraries, layer, f"{top}/crates/{name}"
        self.is_library = os.path.isfile(f"{self.folder}/src/lib.rt")
        self.root = f"{self.folder}/src/{'lib' if self.is_library else 'main'}.rt"
        self.code, self.specs, self.proofs = self.files("src", ".rt"), self.files("specs", ".antt"), self.files("proofs", ".antt")
        self.modules = {}
        for path, text in self.code.items():
            words = tuple(os.path.relpath(path, f"{self.folder}/src")[:-3].split("/"))
            words = () if path == self.root else words[:-1] if words[-1] == "mod" else words
            mask = masked(text)
            self.modules[words] = {
                "path": path, "mask": mask, "uses": uses_of(mask), "items": {it[2]: (it[1] or "").strip() == "pub" for it in ITEM.finditer(mask)},
                "mods": {it[2]: (it[1] or "").strip() == "pub" for it in MOD.finditer(mask)},
            }

    def files(self, kind, ending):
        found = {}
        for folder, _, names in sorted(os.walk(f"{self.folder}/{kind}")):
            for name in sorted(names):
                if name.endswith(ending):
                    found[f"{folder}/{name}"] = text_of(f"{folder}/{name}")
        return found

    def lib(self, kind):
        """Returns the text of specs/Lib or proofs/Lib."""
        return (self.specs if kind == "specs" else self.proofs).get(f"{self.folder}/{kind}/Lib.antt", "")

    def passing(self, line):
        """Returns the name and the path behind `Rattle.` of a line of a Lib that passes on what is of a lower crate, or None."""
        found = re.match(r"(?:unfoldable )?pub use Rattle\.([^\s{}]+)(?: as (\S+))?$", line)
        return (found[2] or found[1].split(".")[-1], found[1]) if found and found[1].split(".")[0] != self.name else None

    def libs(self, kind):
        """Returns what specs/Lib or proofs/Lib passes on of lower crates: a map from the name to the path behind `Rattle.`."""
        return dict(filter(None, map(self.passing, self.lib(kind).split("\n"))))

    def has(self, kind, words):
        """Returns whether a path behind `Rattle.NAME.specs` or `.proofs` is one of this crate's own modules."""
        if not words or words[0] in ("declared", "contracts"):
            return True
        folder = f"{self.folder}/{kind}/{words[0]}"
        if os.path.isfile(f"{folder}.antt") or os.path.isdir(folder):
            return True
        # what the check makes for proofs: the goals of a function without a folder, the ends of values
        return kind == "proofs" and ((words[0],) in self.modules or "+" in words[0])


class Tree:
    """A checkout: its crates, lowest first, and what their paths lead to."""

    def __init__(self, top=TOP):
        self.top, self.crates, layer = top, {}, "base"
        for line in text_of(f"{top}/crates.txt").split("\n"):
            if line.startswith("# ---- "):
                layer = line[7:].partition(":")[0].strip()
            name, _, libraries = line.partition("#")[0].partition(":")
            if name.strip():
                word = name.split()[0]
                self.crates[word] = Crate(top, word, libraries.split(), layer)

    @functools.lru_cache(maxsize=None)
    def below(self, name):
        found = set()
        for it in self.crates[name].libraries:
            if it in self.crates:
                found |= {it} | self.below(it)
        return found

    def passes(self, name, word):
        """Returns the path that a crate's root passes on by this name, or None: `(crate, .., item)`, or of its own modules."""
        for use in self.crates[name].modules[()]["uses"]:
            if use.seen.strip() == "pub":
                for path, alias in use.leaves:
                    if (alias or path[-1]) == word:
                        return path
        return None

    def at_root(self, name, word):
        """Returns what a word means at the root of a crate: `("mod", crate, module)`, `("item", crate, module, word)` or None if it is of no crate here."""
        crate = self.crates[name]
        root = crate.modules[()]
        if word in root["mods"]:
            return ("mod", name, (word,))
        if word in root["items"]:
            return ("item", name, (), word)
        for use in root["uses"]:
            for path, alias in use.leaves:
                if (alias or path[-1]) == word:
                    return self.resolve(name, (), path)
        return None

    def resolve(self, name, module, path):
        """Returns what a path of code means in a module of a crate, as `at_root` does."""
        head, rest = path[0], path[1:]
        if head in ("crate", "self", "super"):
            start = () if head == "crate" else module if head == "self" else module[:-1]
            return self.inside(name, start, rest)
        crate = self.crates[name]
        if head in crate.libraries and head in self.crates and head not in crate.modules[module]["mods"]:
            return self.inside(head, (), rest) if rest else ("mod", head, ())
        if head in crate.modules[module]["mods"]:
            return self.inside(name, (*module, head), rest)
        return None

    def inside(self, name, module, rest):
        """Returns what the rest of a path means inside a module."""
        if not rest:
            return ("mod", name, module)
        crate, word = self.crates[name], rest[0]
        if (*module, word) in crate.modules:
            return self.inside(name, (*module, word), rest[1:])
        content = crate.modules[module]
        if word in content["items"]:
            return ("item", name, module, word)
        for use in content["uses"]:
            for path, alias in use.leaves:
                if (alias or path[-1]) == word:
                    found = self.resolve(name, module, path)
                    if found is None:
                        # a name of std or of a library of the kit, which this crate passes on under a name of its own
                        return ("item", name, module, word)
                    if found[0] == "mod" and rest[1:]:
                        return self.inside(found[1], found[2], rest[1:])
                    return found
        return None

    def mentions(self, name):
        """Yields the paths of code in a crate and its mutants, each with its file, its module and its words, but not those by which the root passes names
        of lower crates on."""
        crate = self.crates[name]
        for module, content in crate.modules.items():
            covered = []
            for use in content["uses"]:
                covered.append((use.start, use.end))
                is_block = module == () and use.seen.strip() == "pub"
                for path, _ in use.leaves:
                    if not (is_block and path[0] in self.crates and path[0] in crate.libraries):
                        yield content["path"], module, path
            for found in INLINE.finditer(content["mask"]):
                if not any(start <= found.start() < end for start, end in covered):
                    yield content["path"], module, (found[1], *found[2].split("::")[1:])
        for folder in ("mutants", "must-fail"):
            if os.path.isdir(f"{crate.folder}/{folder}"):
                for edit in sorted(os.listdir(f"{crate.folder}/{folder}")):
                    path = f"{crate.folder}/{folder}/{edit}"
                    for line in re.findall(r"(?m)^new: (.*)$", text_of(path)) if edit.endswith(".edit") else ():
                        for use in re.findall(r"\buse ([\w:]+::\{[^}]*\}?|[\w:]+)", line):
                            for it, _ in leaves(use if use.count("{") == use.count("}") else use.rstrip(", ") + "}"):
                                yield path, (), it
                        for found in INLINE.finditer(line):
                            yield path, (), (found[1], *found[2].split("::")[1:])

    def followed(self, name, kind, words):
        """Returns the crate to which a path behind `Rattle.` leads, and its rest there."""
        if name not in self.crates or not words or self.crates[name].has(kind, words):
            return name, words
        path = self.crates[name].libs(kind).get(words[0])
        if path is None:
            return None, words
        head, *rest = path.split(".")
        return self.followed(head, kind, [*rest[1:], *words[1:]])

    def programs(self):
        """Yields the paths of code in the programs of bench/, each with its file."""
        for folder, _, names in sorted(os.walk(f"{self.top}/bench/programs")):
            for name in names:
                if name.endswith(".rt.txt"):
                    for use in uses_of(masked(text_of(f"{folder}/{name}"))):
                        yield from ((f"{folder}/{name}", path) for path, _ in use.leaves)


# ---- what must be passed on


def layer_comment(tree, name, home):
    return OF_LAYER if home and tree.crates[home].layer == tree.crates[name].layer else OF_LOWER


def is_lower(tree, name, path):
    """Returns whether a path of code at the root of a crate begins at a crate below."""
    crate = tree.crates[name]
    return path[0] in tree.crates and path[0] in crate.libraries and path[0] not in crate.modules[()]["mods"]


def passed_today(tree, name):
    """Returns the names of lower crates that a root passes on: a map from the name to the path."""
    found = {}
    for use in tree.crates[name].modules[()]["uses"]:
        for path, alias in use.leaves if use.seen.strip() == "pub" else ():
            if is_lower(tree, name, path):
                found[alias or path[-1]] = path
    return found


def has_own(tree, name, word):
    """Returns whether a crate gives out a name that it does not pass on from a lower crate."""
    root = tree.crates[name].modules[()]
    if root["mods"].get(word) or root["items"].get(word):
        return True
    given = (leaf for use in root["uses"] if use.seen.strip() == "pub" for leaf in use.leaves)
    return any((alias or path[-1]) == word and not is_lower(tree, name, path) for path, alias in given)


def gives(tree, name, word):
    """Returns whether a crate has a name, or one below it has."""
    return has_own(tree, name, word) or any(gives(tree, it, word) for it in tree.crates[name].libraries if it in tree.crates)


def source_of(tree, name, word):
    """Returns the path by which a crate passes a name of a lower crate on, or None if no library has it."""
    today = passed_today(tree, name).get(word)
    if today:
        return today
    libraries = [it for it in tree.crates[name].libraries if it in tree.crates]
    tests = (lambda it: has_own(tree, it, word), lambda it: word in passed_today(tree, it), lambda it: gives(tree, it, word))
    first = next((it for test in tests for it in libraries if test(it)), None)
    return (first, word) if first else None


def surface():
    sys.path.insert(0, os.path.dirname(os.path.abspath(__file__)))
    import surface as promised  # which imports tools/docs/made_docs.py

    return promised.SURFACE


def wanted_code(tree, promised):
    """Returns for each crate the names that it must pass on, each with its path, and the faults of paths that lead nowhere."""
    asked, faults = {name: {} for name in tree.crates}, []
    for name, words in promised.items():
        for word in words:
            # of a method, the type
            asked[name].setdefault(word.split("::")[0], f"the surface names {name}::{word}")
    for name in tree.crates:
        for path, _, words in tree.mentions(name):
            if len(words) > 1 and is_lower(tree, name, words) and words[1] not in ("specs", "proofs", "*"):
                asked[words[0]].setdefault(words[1], f"{os.path.relpath(path, tree.top)} names {'::'.join(words)}")
            elif len(words) > 1 and words[0] == "crate" and words[1] in passed_today(tree, name):
                why = f"{os.path.relpath(path, tree.top)} names {'::'.join(words)}"
                asked[name].setdefault(words[1], why)
                faults.append(f"{why}: expected the path of a library, got that of the crate's own root")
    for path, words in tree.programs():
        if len(words) > 1 and words[0] in tree.crates:
            asked[words[0]].setdefault(words[1], f"{os.path.relpath(path, tree.top)} names {'::'.join(words)}")
    found = {name: {} for name in tree.crates}
    for name in reversed(tree.crates):
        for word, why in sorted(asked[name].items()):
            if has_own(tree, name, word):
                continue
            path = source_of(tree, name, word)
            if path is None:
                faults.append(f"{why}: expected a crate that has it, got none")
                continue
            found[name][word] = path
            asked[path[0]].setdefault(path[1], f"{name} passes {word} on")
    return found, faults


def lib_source(tree, name, kind, word):
    """Returns the path by which a Lib passes the specs/ or proofs/ of a lower crate on, or None."""
    crate, lower = tree.crates[name], word[3:] if kind == "proofs" and word.startswith("of_") else word
    if lower in crate.libraries:
        return f"{lower}.{kind}"
    today = crate.libs(kind).get(word)
    if today:
        return today
    libraries = [it for it in crate.libraries if it in tree.crates]
    tests = (lambda it: word in tree.crates[it].libs(kind), lambda it: lower in tree.below(it))
    return next((f"{it}.{kind}.{word}" for test in tests for it in libraries if test(it)), None)


def wanted_libs(tree, kind):
    """Returns for each crate what its Lib of specs/ or proofs/ must pass on, each with its path, and the faults of paths that lead nowhere."""
    asked = {name: {} for name in tree.crates}

    def ask(name, words, why):
        if words and name in tree.crates and not tree.crates[name].has(kind, words):
            asked[name].setdefault(words[0], why)
            path = lib_source(tree, name, kind, words[0])
            if path:
                head, *rest = path.split(".")
                ask(head, [*rest[1:], *words[1:]], f"{name} passes {words[0]} on")

    for name, crate in tree.crates.items():
        for path, text in {**crate.code, **crate.specs, **crate.proofs}.items():
            if not path.endswith("/Lib.antt"):
                for found in ANTT.finditer(text):
                    if found[2] == kind:
                        ask(found[1], found[3].split(".")[1:], f"{os.path.relpath(path, tree.top)} names {found[0]}")
    wanted, faults = {}, []
    for name in tree.crates:
        paths = {word: lib_source(tree, name, kind, word) for word in sorted(asked[name])}
        faults += [f"{asked[name][word]}: expected a crate that has it, got none" for word, path in paths.items() if path is None]
        wanted[name] = {word: path for word, path in paths.items() if path}
    return wanted, faults


def home_of(tree, name, kind, word, path):
    """Returns the crate that declares what is passed on."""
    if kind == "code":
        found = tree.resolve(name, (), path)
        return found[1] if found else path[0]
    lower = word[3:] if kind == "proofs" and word.startswith("of_") else word
    return lower if lower in tree.crates else path.split(".")[0]


# ---- blocks


def blocks(tree, name, kind, wanted):
    """Returns what stands under each of the two comments."""
    found = {OF_LAYER: {}, OF_LOWER: {}}
    for word, path in wanted.items():
        found[layer_comment(tree, name, home_of(tree, name, kind, word, path))][word] = path
    return found


def standing_code(tree, name):
    """Returns what stands in a root under each of the two comments, and elsewhere under None."""
    crate, found = tree.crates[name], {OF_LAYER: {}, OF_LOWER: {}, None: {}}
    text = crate.code[crate.root]
    for use in crate.modules[()]["uses"]:
        for path, alias in use.leaves if use.seen.strip() == "pub" else ():
            if is_lower(tree, name, path):
                # the comment of the paragraph
                part = text[: use.start].rpartition("\n\n")[2].partition("\n")[0].removeprefix("// ")
                there, word = found[part if part in found else None], alias or path[-1]
                there[word if word not in there else f"{word} again"] = path
    return found


def standing_libs(tree, name, kind):
    """Returns what stands in a Lib under each of the two comments, and elsewhere under None."""
    found, under = {OF_LAYER: {}, OF_LOWER: {}, None: {}}, None
    for line in tree.crates[name].lib(kind).split("\n"):
        if line.startswith("-- "):
            under = line[3:] if line[3:] in found else None
        if tree.crates[name].passing(line):
            word, path = tree.crates[name].passing(line)
            found[under][word if word not in found[under] else f"{word} again"] = path
    return found


def code_block(words):
    """Returns the lines of code that pass names on."""
    heads = {}
    for word, path in words.items():
        heads.setdefault("::".join(path[:-1]), []).append(word if path[-1] == word else f"{path[-1]} as {word}")
    rows = ((head, sorted(names)) for head, names in sorted(heads.items()))
    return "".join(f"pub use {head}::{names[0] if len(names) == 1 else '{' + ', '.join(names) + '}'};\n" for head, names in rows)


def write_code(tree, name, wanted):
    """Writes the blocks of a root behind its own names."""
    crate = tree.crates[name]
    text = crate.code[crate.root]
    pieces, at = [], 0
    for use in crate.modules[()]["uses"]:
        if use.seen.strip() == "pub" and all(is_lower(tree, name, path) for path, _ in use.leaves):
            pieces.append(text[at : use.start])
            at = use.end + 1
    text = "".join([*pieces, text[at:]])
    text = re.sub(rf"(?m)^// (?:{OF_LAYER}|{OF_LOWER})\n", "", text)
    mask = masked(text)
    ends = [it.end() for it in re.finditer(r"(?m)^(?:pub )?mod \w+;", mask)] + [it.end() for it in re.finditer(r"(?m)^pub use [^;]+;", mask)]
    end = max(ends, default=len(text.rstrip("\n")))
    made = "".join(f"\n// {comment}\n{code_block(words)}" for comment, words in wanted.items() if words)
    if made:
        text = f"{text[:end]}\n{made}{text[end:].lstrip(chr(10)) and chr(10)}{text[end:].lstrip(chr(10))}"
    text = re.sub(r"\n{3,}", "\n\n", text)
    put(crate.root, text)


def write_libs(tree, name, kind, wanted):
    """Writes the lines of a Lib behind its own modules."""
    crate = tree.crates[name]
    path = f"{crate.folder}/{kind}/Lib.antt"
    lines = [it for it in crate.lib(kind).split("\n") if not crate.passing(it)]
    lines = [it for it in lines if it[3:] not in (OF_LAYER, OF_LOWER, *OLD_COMMENTS) or not it.startswith("-- ")]
    text = "\n".join(lines).rstrip("\n") + "\n"
    for comment, words in wanted.items():
        if words:
            rows = (f"pub use Rattle.{it}" + ("" if it.split(".")[-1] == word else f" as {word}") for word, it in sorted(words.items(), key=lambda one: one[1]))
            text += f"-- {comment}\n" + "".join(f"{it}\n" for it in rows)
    if text.strip() or os.path.isfile(path):
        put(path, text.lstrip("\n"))


# the comments of these lines before they were made
OLD_COMMENTS = ("Specifications of lower crates, re-exported.", "crates below, passed on to those above")


def put(path, text):
    if not os.path.isfile(path) or text_of(path) != text:
        with open(path, "w", encoding="utf-8") as file:
            file.write(text)


def all_wanted(tree, promised):
    """Yields for each crate and each of code, specs and proofs the blocks that it must have; at the end the faults."""
    faults, made = [], []
    for kind in ("code", "specs", "proofs"):
        wanted, more = wanted_code(tree, promised) if kind == "code" else wanted_libs(tree, kind)
        faults += more
        made += [(name, kind, blocks(tree, name, kind, words)) for name, words in wanted.items() if tree.crates[name].is_library]
    return made, faults


def shown(words):
    return ", ".join(f"{it} ({'::'.join(path) if isinstance(path, tuple) else path})" for it, path in sorted(words.items())) or "nothing"


def differing(tree, made):
    """Yields where a block differs from the computed one."""
    for name, kind, wanted in made:
        standing = standing_code(tree, name) if kind == "code" else standing_libs(tree, name, kind)
        file = os.path.relpath(tree.crates[name].root if kind == "code" else f"{tree.crates[name].folder}/{kind}/Lib.antt", tree.top)
        for comment in (OF_LAYER, OF_LOWER, None):
            there, here = standing[comment].items(), wanted.get(comment, {}).items()
            more, less = dict(there - here), dict(here - there)
            if more or less:
                yield f"{file}: {comment or 'under neither comment'}: too many: {shown(more)}; missing: {shown(less)}"


# ---- one name, one path


def paths_of(tree, name):
    """Returns for each name of code, and each module of specs/ and proofs/ of a lower crate, the paths by which a crate reaches it."""
    found, crate = {}, tree.crates[name]
    for path, module, words in tree.mentions(name):
        # the root names its own modules where it gives their names out
        if path.endswith(".rt") and (words[0] in ("crate", *crate.libraries)) and words[1:2] not in (("specs",), ("proofs",)):
            what = tree.resolve(name, module, words)
            if what and what[0] == "item":
                words = words[: words.index(what[3]) + 1] if what[3] in words else words
                found.setdefault("::".join((what[1], *what[2], what[3])), set()).add("::".join(words))
    for path, text in {**crate.code, **crate.specs, **crate.proofs}.items():
        if not path.endswith("/Lib.antt"):
            for one in ANTT.finditer(text):
                home, rest = tree.followed(one[1], one[2], one[3].split(".")[1:])
                if home in tree.crates and home != name:
                    found.setdefault(f"{home}, {one[2]}/", set()).add(one[0][: len(one[0]) - len(".".join(["", *rest]))])
    return found


def doubled(tree):
    """Yields what a crate reaches by two paths."""
    for name in tree.crates:
        for what, paths in sorted(paths_of(tree, name).items()):
            if len(paths) > 1:
                yield f"{name}: expected one path to {what}, got {', '.join(sorted(paths))}"


# ---- the surface


def exporters(tree, home, module, word):
    """Returns the crates that give out a name, lowest first: at the root, or the declaring one in a public module."""
    is_open = module and tree.crates[home].modules[()]["mods"].get(module[0])
    given = (name for name in tree.crates if has_own(tree, name, word) or word in passed_today(tree, name))
    at_roots = {name for name in given if tree.at_root(name, word) == ("item", home, module, word)}
    return [name for name, crate in tree.crates.items() if crate.is_library and (name in at_roots or is_open and name == home)]


def where(tree, promised):
    """Yields each name of the surface, the module that declares it, and the crates that export it, lowest first."""
    for name, words in promised.items():
        for word in words:
            found = tree.at_root(name, word.split("::")[0])
            if found and found[0] == "item":
                yield word, "::".join((found[1], *found[2])), exporters(tree, found[1], found[2], found[3])


def main():
    words = argparse.ArgumentParser(description=__doc__, formatter_class=argparse.RawDescriptionHelpFormatter)
    what = words.add_mutually_exclusive_group()
    what.add_argument("--check", action="store_true", help="prints each block that differs, each name with two paths, each path that leads nowhere")
    what.add_argument("--counts", action="store_true", help="prints how many names of lower crates each crate passes on")
    what.add_argument("--where", action="store_true", help="prints where each name of the surface is declared and who exports it")
    words = words.parse_args()
    tree, promised = Tree(), surface()
    if words.where:
        print("\n".join(f"{word}: {home}; {', '.join(crates)}" for word, home, crates in where(tree, promised)))
        return 0
    made, faults = all_wanted(tree, promised)
    if words.counts:
        counted = [(name, kind, sum(map(len, wanted.values()))) for name, kind, wanted in made]
        for name in tree.crates:
            row = {kind: number for it, kind, number in counted if it == name}
            if any(row.values()):
                print(f"{name}: {row['code']} names, specs/ of {row['specs']} crates, proofs/ of {row['proofs']}")
        print(f"all: {sum(it[2] for it in counted if it[1] == 'code')} names")
        return 0
    if words.check:
        found = [*faults, *differing(tree, made), *doubled(tree)]
        print("\n".join(found) or "exports: each block is as computed, and each name has one path in a crate")
        return 1 if found else 0
    for name, kind, wanted in made:
        if kind == "code":
            write_code(tree, name, wanted)
        else:
            write_libs(tree, name, kind, wanted)
    print("\n".join(faults))
    return 1 if faults else 0


if __name__ == "__main__":
    sys.exit(main())
