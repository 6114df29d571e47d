#!/usr/bin/env python3
"""Compiles `cedar_site` as its sources are, with no proof, once, and prints the path of the program.

    tools/build/unproved.py ARGUMENTS ..

The program is kept in $XDG_CACHE_HOME/weirbowl (~/.cache/weirbowl) under a checksum of the sources and the toolchain; of
the programs there the last MOST_KEPT stay. If it has to be compiled, the files that ARGUMENTS name are looked for first
(tools/docs/command_line.py). Only `rt try` compiles without a proof, with checks at run time, and it removes the program once
that has run: so it runs a site that waits for a client, meanwhile the program gets another name. A run that is ended
leaves nothing. Standard library alone.
"""
import contextlib
import fcntl
import glob
import os
import shutil
import subprocess
import sys
import tempfile
import time

import build

sys.path.insert(0, f"{build.TOP}/tools/docs")
import command_line  # noqa: E402

TOP, PROGRAM = build.TOP, "cedar_site"
MOST_KEPT = 4
# the seconds for which the program waits for its client, and between two looks for it
WAITS, LOOKS = 3, 0.05
RUN = ["serve", "--schema", "schema.json", "--site", "unproved", "--listen", "127.0.0.1:0", "--connections", "1"]


def cache():
    """Returns the folder of the compiled programs."""
    base = os.environ.get("XDG_CACHE_HOME") or os.path.expanduser("~/.cache")
    folder = f"{base}/weirbowl"
    os.makedirs(folder, exist_ok=True)
    return folder


def checksum():
    program = build.Program(PROGRAM)
    return build.sum_of(program, build.crates_below(program), ("src",))


def is_right(path):
    """Whether a file is the whole program."""
    done = subprocess.run([path, "--version"], capture_output=True, text=True, check=False)
    return done.returncode == 0 and done.stdout.startswith(PROGRAM)


def caught(room):
    """Gives each program below a folder a second name there. Returns these names."""
    for path in glob.glob(f"{room}/rt-*/**/program", recursive=True):
        with contextlib.suppress(FileExistsError, FileNotFoundError):
            os.link(path, f"{room}/{os.stat(path).st_ino}.kept")
    return glob.glob(f"{room}/*.kept")


def compiled(room):
    """Compiles the program in a folder. Returns its path, or None and the output of `rt try`."""
    words = ["rt", "try", "--seconds", str(WAITS), "--data", f"schema.json={TOP}/examples/clinic/schema.json", "--", *RUN]
    with open(f"{room}/said", "w+", encoding="utf-8", errors="replace") as said:
        how = {"cwd": f"{TOP}/crates/{PROGRAM}", "env": {**os.environ, "TMPDIR": room}, "stdin": subprocess.DEVNULL}
        with build.ended_with_us(words, stdout=said, stderr=said, **how) as rt:
            while rt.poll() is None:
                caught(room)
                time.sleep(LOOKS)
        found = [it for it in caught(room) if is_right(it)]
        said.seek(0)
        return (found[0], "") if found else (None, said.read())


def drop_old(folder):
    """Keeps the last programs alone."""
    programs = sorted(glob.glob(f"{folder}/*/{PROGRAM}"), key=os.path.getmtime)
    for path in programs[:-MOST_KEPT]:
        shutil.rmtree(os.path.dirname(path), ignore_errors=True)


def compile_into(folder, place):
    """Compiles the program and puts it in its place. Returns the status."""
    print("cedar_site: compiling the program as its sources are, once; this takes some minutes", file=sys.stderr, flush=True)
    start = time.monotonic()
    with tempfile.TemporaryDirectory(prefix="making-", dir=folder) as room:
        path, said = compiled(room)
        if path is None:
            sys.stderr.write(said)
            print("cedar_site: expected `rt try` to compile and run the program, got the above", file=sys.stderr)
            return 1
        os.makedirs(os.path.dirname(place), exist_ok=True)
        os.chmod(path, 0o755)
        os.replace(path, place)
    drop_old(folder)
    print(f"cedar_site: compiled in {build.minutes(time.monotonic() - start)} (minutes:seconds)", file=sys.stderr, flush=True)
    return 0


def main():
    build.end_by_exit()
    folder = cache()
    place = f"{folder}/{checksum()}/{PROGRAM}"
    if not os.path.exists(place):
        if status := command_line.missing(sys.argv[1:]):
            return status
        # a second run waits for the first
        with open(f"{folder}/lock", "w", encoding="utf-8") as lock:
            fcntl.flock(lock, fcntl.LOCK_EX)
            if not os.path.exists(place) and (status := compile_into(folder, place)):
                return status
    print(place)
    return 0


if __name__ == "__main__":
    sys.exit(main())
