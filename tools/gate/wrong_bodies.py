#!/usr/bin/env python3
"""Tries the mutants that the gate does not try: crates/NAME/mutants/*.edit, in the form of must-fail edits.

    tools/gate/wrong_bodies.py NAME ..         tries those of these crates
    tools/gate/wrong_bodies.py --changed BASE  those of each crate whose src/, specs/ or proofs/ differ from the commit BASE
    tools/gate/wrong_bodies.py --all           those of each crate
    tools/gate/wrong_bodies.py --due           proves nothing: prints which crates --all would try
    tools/gate/wrong_bodies.py --applies       proves nothing: each edit, also of must-fail/, must occur once in its file

Crate by crate, lowest first, in a copy of the crates as they are at the start, each by `rt must-fail`: over what `rt
check` kept of the crate on this machine, if it did, else over a proof from nothing. tools/gate/last_tried.md is the record,
written after each crate, and the queue: --changed and --all leave out a crate whose row has today's sum, so a run that
was killed continues where it was. These two run one check at a time, at low priority; the variable RT_JOBS sets another
number.

The status is 1 if an edit is not refused and the record has no reason for it: write the reason after the outcome. The
next runs keep the reasons, and the record's last part, on mutants that were tried alone. Standard library alone.
"""
import functools
import hashlib
import os
import re
import shutil
import signal
import subprocess
import sys
import tempfile

TOP = os.path.dirname(os.path.dirname(os.path.dirname(os.path.abspath(__file__))))
RECORD = f"{TOP}/tools/gate/last_tried.md"
PARTS = ("src", "specs", "proofs")
FOLDERS = ("must-fail", "mutants")
REFUSED = "refused"
# the part of the record that is written by hand
ALONE = "## Tried alone"
# how rt begins what it says of an edit, and the outcome of the record; the first that fits counts
OUTCOMES = (
    ("refused, as it must be (only because a proof file names", "refused only because a name is gone"),
    ("refused, as it must be (only by a limit", "refused only by a limit of the prover"),
    ("refused", REFUSED),
    ("NOT REFUSED", "not refused"),
    ("BAD EDIT", "cannot be read"),
    ("NOT TRIED", "not tried"),
)
HEAD = """# Mutants outside the gate: the last try of each crate

Written by tools/gate/wrong_bodies.py. Commit: that of the copy in which the mutants of crates/NAME/mutants were tried, with
a + if src/, specs/ or proofs/ differed from it. Sum: of the files compared, which are src/, specs/ and proofs/ of the
crate and of all crates below it, and its mutants; `tools/gate/wrong_bodies.py --due` prints the crates of which it differs
today. Refused: by the prover, at a clause or another obligation; each other mutant is listed below, with the reason.
The mutants of must-fail/ are not counted: the gate tries them.
"""


def text_of(path):
    with open(path, encoding="utf-8") as file:
        return file.read()


@functools.cache
def libraries():
    """Returns the libraries that each crate names, by its name, lowest crate first."""
    lines = (it.partition("#")[0].partition(":") for it in text_of(f"{TOP}/crates.txt").split("\n"))
    return {name.split()[0]: named.split() for name, _, named in lines if name.strip()}


def edits_of(name, folder="mutants"):
    """Returns the edits of a crate in one of its two folders, in order."""
    at = f"{TOP}/crates/{name}/{folder}"
    return [f"{at}/{it}" for it in sorted(os.listdir(at)) if it.endswith(".edit")] if os.path.isdir(at) else []


def fault_of(edit, crate):
    """Returns why an edit cannot be applied, or None: as rt reads it, line by line, each pair over what those before it left."""
    path, old, pairs, texts = "", None, 0, {}
    for line in text_of(edit).split("\n"):
        if line.startswith("file: "):
            path = line[len("file: "):].strip()
        elif line.startswith("old: "):
            old = line[len("old: "):]
        elif line.startswith("new:"):
            if not path.startswith(tuple(f"{it}/" for it in PARTS)) or not old:
                return "expected 'file:' and 'old:' before a 'new:' line, got none"
            if path not in texts:
                if not os.path.isfile(f"{crate}/{path}"):
                    return f"expected a file {path}, got none"
                texts[path] = text_of(f"{crate}/{path}")
            if texts[path].count(old) != 1:
                return f"expected its text once in {path}, got it {texts[path].count(old)} times"
            texts[path] = texts[path].replace(old, line[len("new:"):].removeprefix(" "))
            old, pairs = None, pairs + 1
    return None if pairs else "expected a pair of 'old:' and 'new:', got none"


def applies():
    """Prints why an edit of the repository cannot be applied, and how many can."""
    found, lost = 0, 0
    for name in sorted(os.listdir(f"{TOP}/crates")):
        for folder in FOLDERS:
            for edit in edits_of(name, folder):
                why = fault_of(edit, f"{TOP}/crates/{name}")
                found, lost = found + 1, lost + bool(why)
                if why:
                    print(f"{name}/{folder}/{os.path.basename(edit)}: {why}")
    print(f"{found - lost} of {found} edits occur once in their files")
    return 1 if lost else 0


def git(*words):
    return subprocess.run(["git", *words], cwd=TOP, capture_output=True, text=True, check=True).stdout.split("\n")


def changed(*base):
    """Returns the crates whose src/, specs/ or proofs/ differ from a commit, or from the last one."""
    paths = git("diff", "--name-only", *(base or ["HEAD"]), "--", "crates") + git("ls-files", "--others", "--exclude-standard", "crates")
    return {it.split("/")[1] for it in paths if it.split("/")[2:3] and it.split("/")[2] in PARTS}


def below(name):
    """Returns a crate and all crates below it."""
    found = {name}
    for it in libraries()[name]:
        found |= below(it) if it in libraries() else set()
    return found


@functools.cache
def sum_of_parts(name):
    """Returns a sum of the files of a crate's src/, specs/ and proofs/, with their paths."""
    paths = [f"{at}/{it}" for part in PARTS for at, _, names in os.walk(f"{TOP}/crates/{name}/{part}") for it in names]
    return hashlib.sha256("".join(f"{os.path.relpath(it, TOP)}\n{text_of(it)}\n" for it in sorted(paths)).encode()).hexdigest()


def sum_of(name):
    """Returns the sum of the record: of the files of a crate and of those below it, and of its mutants."""
    texts = [sum_of_parts(it) for it in sorted(below(name))] + [os.path.basename(it) + text_of(it) for it in edits_of(name)]
    return hashlib.sha256("\n".join(texts).encode()).hexdigest()[:12]


def record():
    """Returns the record: the cells of the row of each crate that was tried, and outcome and reason of each edit that was not refused."""
    text = text_of(RECORD) if os.path.isfile(RECORD) else ""
    rows = {name: [it.strip() for it in cells.split("|")] for name, cells in re.findall(r"(?m)^\| `(\w+)` \|( \w.*)\|$", text)}
    said = "|".join(it for _, it in OUTCOMES)
    return rows, {edit: (outcome, why.strip()) for edit, outcome, why in re.findall(rf"(?m)^- `(\w+/[\w.-]+)`, ({said}):(.*)$", text)}


def write_record(rows, others):
    names = [it for it in libraries() if edits_of(it)]
    lines = [HEAD, "| crate | commit | sum | mutants | tried | refused |", "|---|---|---|---|---|---|"]
    for name in names:
        commit, text, *numbers = rows.get(name, ["", "", len(edits_of(name)), 0, 0])
        lines.append(f"| `{name}` | {commit} | {text} | {' | '.join(str(it) for it in numbers)} |")
    sums = [sum(int(rows[it][at]) for it in names if it in rows) for at in (3, 4)]
    lines += [f"| all | | | {sum(len(edits_of(it)) for it in names)} | {sums[0]} | {sums[1]} |", "", "## Not refused, or not by a contract", ""]
    lines += [f"- `{it}`, {others[it][0]}: {others[it][1]}".rstrip() for it in sorted(others)] or ["None."]
    _, head, alone = (text_of(RECORD) if os.path.isfile(RECORD) else "").partition(ALONE)
    with open(f"{RECORD}.new", "w", encoding="utf-8") as file:
        file.write("\n".join([*lines, "", head + alone]).rstrip() + "\n")
    os.replace(f"{RECORD}.new", RECORD)


def link_or_copy(one, other):
    """rt replaces such a file, and never writes into it."""
    try:
        os.link(one, other)
    except OSError:
        shutil.copyfile(one, other)


def lay_out(names, room):
    """Copies all crates, with the mutants of the named ones as their must-fail edits, and what is built of them."""
    for name in sorted(os.listdir(f"{TOP}/crates")):
        for part in PARTS:
            if os.path.isdir(f"{TOP}/crates/{name}/{part}"):
                shutil.copytree(f"{TOP}/crates/{name}/{part}", f"{room}/crates/{name}/{part}")
        built = f"{TOP}/crates/{name}/out/rlib"
        if os.path.isfile(f"{built}/stamp"):
            shutil.copytree(built, f"{room}/crates/{name}/out/rlib", copy_function=link_or_copy)
        if name in names:
            os.makedirs(f"{room}/crates/{name}/must-fail")
            for edit in edits_of(name):
                shutil.copy(edit, f"{room}/crates/{name}/must-fail")
    for name in ("crates.txt", "HANDLES"):
        shutil.copy(f"{TOP}/{name}", room)
    os.mkdir(f"{room}/.git")  # the top of a repository


def outcomes_of(name, room, is_patient):
    """Tries the mutants of a crate. Returns the status of rt, and the outcome of each mutant of which rt says one."""
    words, more = (["nice", "-n", "15"], {"RT_JOBS": "1", **os.environ}) if is_patient else ([], None)
    ran = subprocess.run([*words, "rt", "must-fail", name], cwd=room, env=more, stdout=subprocess.PIPE, text=True, check=False)
    print(ran.stdout, end="", flush=True)
    said = re.findall(rf"(?m)^(?:rt: )?must-fail {name}/([\w.-]+)\.edit: (.*)$", ran.stdout)
    return ran.returncode, {edit: next((it for begin, it in OUTCOMES if what.startswith(begin)), "not tried") for edit, what in said}


def try_all(names, is_patient):
    """Tries the mutants of these crates, and writes the record after each. Returns the status to end with."""
    commit, sums = git("rev-parse", "--short=8", "HEAD")[0], {it: sum_of(it) for it in names}
    edits, dirty, faults = {it: [os.path.basename(edit)[:-len(".edit")] for edit in edits_of(it)] for it in names}, changed(), 0
    signal.signal(signal.SIGTERM, signal.default_int_handler)  # as Ctrl-C, so that rt and the copy go too
    with tempfile.TemporaryDirectory(prefix="mutants-") as room:
        lay_out(names, room)
        for name in names:
            status, found = outcomes_of(name, room, is_patient)
            outcomes = {it: "not tried" for it in edits[name]} | found
            if not found:
                print(f"{name}: expected a line of rt for each mutant, got none, and status {status}", file=sys.stderr)
                faults += 1
                continue
            rows, others = record()
            reasons = {it: why for it, (_, why) in others.items()}
            others = {it: what for it, what in others.items() if not it.startswith(f"{name}/")}
            others |= {f"{name}/{it}": (what, reasons.get(f"{name}/{it}", "")) for it, what in outcomes.items() if what != REFUSED}
            came = [*outcomes.values()]
            lost = came.count("not tried")
            counts = [len(came), len(came) - lost - came.count("cannot be read"), came.count(REFUSED)]
            rows[name] = [commit + "+" * bool(below(name) & dirty), "" if lost else sums[name], *counts]
            write_record(rows, others)
            for it, (what, why) in others.items():
                if it.startswith(f"{name}/") and not why:
                    print(f"{it}: {what}: expected a reason in tools/gate/last_tried.md, got none", file=sys.stderr)
                    faults += 1
    return 1 if faults else 0


def main(words):
    if words in (["-h"], ["--help"]):
        print(__doc__)
        return 0
    if words == ["--applies"]:
        return applies()
    with_any, is_patient = [it for it in libraries() if edits_of(it)], words[:1] in (["--all"], ["--changed"], ["--due"])
    if is_patient and len(words) == (2 if words[0] == "--changed" else 1):
        rows = record()[0]
        names = [it for it in with_any if rows.get(it, ["", ""])[1] != sum_of(it)]
        if words[0] == "--changed":
            names = [it for it in names if it in changed(words[1])]
        if words[0] == "--due":
            print("\n".join(names))
            return 0
        return try_all(names, is_patient)
    if not words or any(it.startswith("-") for it in words):
        print(__doc__, file=sys.stderr)
        return 2
    lost = [it for it in words if it not in with_any]
    if lost:
        print(f"expected mutants of each crate, got none of {', '.join(lost)}", file=sys.stderr)
        return 2
    return try_all(words, is_patient)


if __name__ == "__main__":
    sys.exit(main(sys.argv[1:]))
