#!/usr/bin/env python3
"""Checks docs/where.md: each file, name, clause and heading of its first table exists. It prints what does not; its status is 1 if anything is missing.

    tools/docs/where_it_stands.py

A row names a rule, a crate, a definition (`FILE::name`, below specs/ or specs/inner/), a function of the code (`FILE::name`, below src/), a clause of
that function's contract, and a heading of a table of tests/rows/. A row without a clause names a function whose contract has no clause with a name. A definition or a function of another crate has its
crate in front. Standard library alone.
"""
import argparse
import os
import re
import sys

TOP = os.path.dirname(os.path.dirname(os.path.dirname(os.path.abspath(__file__))))
PAGE = "docs/where.md"


def text_of(path):
    """Returns the text of a file, or None if there is no such file."""
    if not os.path.isfile(f"{TOP}/{path}"):
        return None
    with open(f"{TOP}/{path}", encoding="utf-8") as file:
        return file.read()


def place_of(crate, name):
    """Returns the crate, file and name of `FILE::name` or `CRATE::FILE::name`."""
    parts = name.split("::")
    return parts if len(parts) == 3 else [crate, *parts]


def about_definition(crate, name):
    at, file, word = place_of(crate, name)
    texts = [text_of(f"crates/{at}/{folder}/{file}.antt") for folder in ("specs", "specs/inner")]
    text = "\n".join(it for it in texts if it is not None)
    if not any(it is not None for it in texts):
        yield f"expected crates/{at}/specs/{file}.antt, got no such file"
    elif not re.search(rf"(?m)^ *(?:(?:pub|abbrev|unfoldable|data|record) )*{word}\b(?! *\}})", text):
        yield f"expected a definition of {word} in crates/{at}/specs/{file}.antt, got none"


def about_code(crate, name, clause):
    at, file, word = place_of(crate, name)
    text = text_of(f"crates/{at}/src/{file}.rt")
    if text is None:
        yield f"expected crates/{at}/src/{file}.rt, got no such file"
        return
    heads = re.findall(rf"(?ms)^ *(?:pub(?:\(crate\))? )?(?:const )?fn {word}\b(.*?)\{{$", text)
    named = {it for head in heads for it in re.findall(r"(?m)^ *ensures (\w+) \{", head)}
    if not heads:
        yield f"expected fn {word} in crates/{at}/src/{file}.rt, got none"
    elif clause and clause not in named:
        yield f"expected the clause {clause} of {word}, got {', '.join(sorted(named)) or 'no clause with a name'}"
    elif named and not clause:
        yield f"expected a clause of {word}, one of {', '.join(sorted(named))}, got none"


def about_test(test):
    table, _, heading = test.partition(": ")
    path = "crates/test_calls/stdin" if table == "rows" else f"tests/rows/{table}.txt"
    text = text_of(path)
    if text is None:
        yield f"expected {path}, got no such file"
    elif not any(heading in line for line in text.split("\n") if line.startswith("#")):
        yield f"expected the heading {heading} in {path}, got none"


def faults():
    """Yields what is missing, a line for each; also if the table has no rows."""
    first = (text_of(PAGE) or "").partition("\n## ")[0]
    rows = [[it.strip() for it in line.strip("|").split("|")] for line in first.split("\n") if re.match(r"\| .*::", line)]
    if not rows:
        yield f"{PAGE}: expected a table of rules, got none"
    for row in rows:
        if len(row) != 6:
            yield f"{PAGE}: {row[0]}: expected 6 cells, got {len(row)}"
            continue
        rule, crate, definition, code, clause, test = row
        for fault in (*about_definition(crate, definition), *about_code(crate, code, clause), *about_test(test)):
            yield f"{PAGE}: {rule}: {fault}"


def main():
    argparse.ArgumentParser(description=__doc__, formatter_class=argparse.RawDescriptionHelpFormatter).parse_args()
    found = list(faults())
    print("\n".join(found) or "docs/where.md: all checks passed")
    return 1 if found else 0


if __name__ == "__main__":
    sys.exit(main())
