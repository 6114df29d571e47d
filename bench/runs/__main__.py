#!/usr/bin/env python3
"""Measures the program and its parts: instructions (by valgrind), greatest resident memory, and for some measures times.

    python3 bench/runs                    lists the measures
    python3 bench/runs NAME [SIZE ..]     runs a measure; without arguments, at its usual sizes
    python3 bench/runs NAME --help        prints what it measures, and its arguments

A measure is a module of this folder, or a function of its parts.py. The load of the machine changes times,
but not instructions. PROGRAM names another binary than the built one. Needs valgrind, and GNU time for memory.
"""
import ast
import os
import runpy
import sys

FOLDER = os.path.dirname(os.path.abspath(__file__))
sys.path[:0] = [FOLDER, f"{FOLDER}/../../tests"]
sys.dont_write_bytecode = True
import parts  # noqa: E402

# the modules of this folder that are no measure
OTHERS = {"__main__", "decisions", "parts", "running"}


def documents():
    """Returns the help of each measure, by its name."""
    found = dict(parts.DOCUMENTS)
    for file in os.listdir(FOLDER):
        name = file.removesuffix(".py")
        if file.endswith(".py") and name not in OTHERS:
            with open(f"{FOLDER}/{file}", encoding="utf-8") as source:
                found[name] = ast.get_docstring(ast.parse(source.read()))
    return dict(sorted(found.items()))


def first_sentence(document):
    """Returns the first sentence of a text."""
    return " ".join(document.partition("\n\n")[0].split()).partition(". ")[0].rstrip(".")


def main(words):
    if words in (["-h"], ["--help"]):
        print(__doc__)
        return 0
    found = documents()
    name = words[0] if words else ""
    if name not in found:
        for name, document in found.items():
            print(f"{name:<16} {first_sentence(document)}")
        return 0 if not words else 2
    if "--help" in words[1:]:
        print(found[name])
        return 0
    if name in parts.DOCUMENTS:
        parts.measure(name, words[1:])
        return 0
    sys.argv = words
    runpy.run_path(f"{FOLDER}/{name}.py", run_name="__main__")
    return 0


if __name__ == "__main__":
    sys.exit(main(sys.argv[1:]))
