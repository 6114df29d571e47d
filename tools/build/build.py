#!/usr/bin/env python3
"""Proves and builds a program, by default cedar_site, and reports its progress.

    tools/build/build.py [--if-needed] [--jobs N] [PROGRAM]
    tools/build/build.py --is-built [PROGRAM]

PROGRAM is a program of crates.txt, or bench/programs/NAME, a program that only measures and that no gate proves. The
code of such a program has the additional suffix `.txt`, and its libraries.txt is its line for crates.txt.

The script copies the crates below the program, without their must-fail edits, into a separate folder. There `rt ci`
proves each from nothing, in parallel on all processors, one job each, which costs the least processor time. Both
compilers build the program, and its output for its stored arguments is compared with the stored output. The built
program goes to crates/PROGRAM/out, or to bench/out if it measures. --if-needed does nothing if the program was built from
these sources; --is-built reports only that, by its status. A run that is ended leaves nothing behind: its folder goes, and
what it started ends. Standard library alone.
"""
import argparse
import contextlib
import hashlib
import os
import shutil
import signal
import subprocess
import sys
import tempfile
import threading
import time

TOP = os.path.dirname(os.path.dirname(os.path.dirname(os.path.abspath(__file__))))
# the folder of programs that only measure, and the suffix of their code: the toolchain refuses a .rt or .antt file that
# stands outside the folders of a crate, and these are no crates, since the gate would prove them
MEASURING, AS_TEXT = "bench/programs", ".txt"
CODE = (f".rt{AS_TEXT}", f".antt{AS_TEXT}")
# the parts of a crate that a build reads: only the gate reads its must-fail edits
PARTS = ("src", "specs", "proofs", "data", "stdin", "stdout", "args", "status")


class Program:
    """A program to build: its name, the folder of its files, and the place of the built program."""

    def __init__(self, word):
        """Creates it from a crate's name, or from the folder of a program that measures."""
        word = os.path.normpath(word)
        self.measures = os.path.dirname(word) == MEASURING
        self.name = os.path.basename(word) if self.measures else word
        self.folder = f"{MEASURING}/{self.name}" if self.measures else f"crates/{self.name}"
        self.built = f"{TOP}/bench/out/{self.name}" if self.measures else f"{TOP}/{self.folder}/out/{self.name}"

    def lists(self):
        """Yields the paths of the lists of its crates."""
        yield f"{TOP}/crates.txt"
        own = f"{TOP}/{self.folder}/libraries.txt"
        if self.measures and os.path.isfile(own):
            yield own

    def folder_of(self, crate):
        """Returns the folder of a crate."""
        return self.folder if crate == self.name else f"crates/{crate}"

    def laid(self, path):
        """Returns the place of a file of the repository in the copy that is proved."""
        if not self.measures or not path.startswith(f"{self.folder}/"):
            return path
        inside = path.removeprefix(f"{self.folder}/")
        return f"crates/{self.name}/{inside.removesuffix(AS_TEXT) if inside.endswith(CODE) else inside}"


def lines_of(program):
    """Returns the line of each crate, and the libraries that it names."""
    lines = {}
    for path in program.lists():
        with open(path, encoding="utf-8") as file:
            for line in file:
                head, _, libraries = line.partition("#")[0].partition(":")
                if head.strip():
                    lines[head.split()[0]] = (line.rstrip("\n"), libraries.split())
    return lines


def crates_below(program):
    """Returns the crates below a program, and itself, lowest first, each with its line."""
    lines, found = lines_of(program), {}

    def visit(crate):
        if crate in lines and crate not in found:
            for library in lines[crate][1]:
                visit(library)
            found[crate] = lines[crate][0]

    visit(program.name)
    return found


def files_below(path):
    """Yields the path of a file, or of each file in a folder, in order."""
    if os.path.isfile(path):
        yield path
    for folder, folders, names in os.walk(path):
        folders.sort()
        yield from (f"{folder}/{name}" for name in sorted(names))


def files_of(program, crates, parts=PARTS):
    """Yields each file that the build reads, from the top of the repository, in order."""
    for crate in sorted(crates):
        for part in parts:
            for path in files_below(f"{TOP}/{program.folder_of(crate)}/{part}"):
                yield os.path.relpath(path, TOP)


def sum_of(program, crates, parts=PARTS):
    """Returns a checksum over the sources of the program: its crates' lines and files, and the toolchain."""
    found = hashlib.sha256(repr(crates).encode())
    toolchain = subprocess.run(["rt", "version"], capture_output=True, check=False).stdout
    found.update(toolchain)
    for path in files_of(program, crates, parts):
        with open(f"{TOP}/{path}", "rb") as file:
            found.update(repr((path, file.read())).encode())
    return found.hexdigest()


def lay_out(program, crates, room):
    """Copies what the build reads into a repository of its own."""
    for path in files_of(program, crates):
        to = f"{room}/{program.laid(path)}"
        os.makedirs(os.path.dirname(to), exist_ok=True)
        shutil.copyfile(f"{TOP}/{path}", to)
    shutil.copyfile(f"{TOP}/HANDLES", f"{room}/HANDLES")
    with open(f"{room}/crates.txt", "w", encoding="utf-8") as file:
        file.write("".join(f"{line}\n" for line in crates.values()))


def minutes(seconds):
    return f"{int(seconds) // 60}:{int(seconds) % 60:02}"


ENDING = (signal.SIGTERM, signal.SIGHUP, signal.SIGINT)


def end_by_exit():
    """Has the signals that end a run raise SystemExit, once, so that folders are removed."""

    def leave(number, _):
        for it in ENDING:
            signal.signal(it, signal.SIG_IGN)
        sys.exit(128 + number)

    for it in ENDING:
        signal.signal(it, leave)


@contextlib.contextmanager
def ended_with_us(words, **how):
    """Starts a command in a group of its own. If the block is left before it ended, the group is ended: asked, then by force."""
    with subprocess.Popen(words, start_new_session=True, **how) as process:
        try:
            yield process
        finally:
            if process.poll() is None:
                for number, seconds in ((signal.SIGTERM, 10), (signal.SIGKILL, None)):
                    with contextlib.suppress(ProcessLookupError, subprocess.TimeoutExpired):
                        os.killpg(process.pid, number)
                        process.wait(seconds)


class Progress:
    """Reports now and then which crates are proved and which are being proved."""

    def __init__(self, crates, room):
        self.crates, self.room, self.proved, self.began = crates, room, {}, {}
        self.start, self.over, self.last = time.monotonic(), threading.Event(), ""

    def tell(self):
        now = time.monotonic()
        for crate in self.crates:
            if crate not in self.began and os.path.isdir(f"{self.room}/crates/{crate}/out"):
                self.began[crate] = now
        going = [f"{it} ({minutes(now - self.began[it])})" for it in self.began if it not in self.proved]
        text = f"{len(self.proved)} of {len(self.crates)} crates proved; being proved: {', '.join(going) or 'the next one'}"
        if text != self.last:
            print(f"  {minutes(now - self.start):>6}  {text}", file=sys.stderr, flush=True)
            self.last = text

    def run(self, every):
        while not self.over.wait(every):
            self.tell()

    def saw(self, line):
        words = line.split()
        if len(words) == 3 and words[0] == "rt:" and words[1] in self.crates and words[2] == "proved":
            self.proved[words[1]] = True
            self.tell()


def prove(crates, room, jobs):
    """Runs the gate over the copy. Returns its status and its output."""
    progress, said = Progress(crates, room), []
    telling = threading.Thread(target=progress.run, args=(30 if sys.stderr.isatty() else 120,), daemon=True)
    telling.start()
    # What the gate leaves goes with the folder. It runs programs as nobody, who has to reach theirs.
    os.mkdir(f"{room}/tmp")
    os.chmod(room, 0o711)
    environment = {**os.environ, "RT_JOBS": str(jobs), "TMPDIR": f"{room}/tmp"}
    how = {"stdout": subprocess.PIPE, "stderr": subprocess.STDOUT, "text": True, "errors": "replace"}
    with ended_with_us(["rt", "ci"], cwd=room, env=environment, **how) as gate:
        for line in gate.stdout:
            said.append(line)
            progress.saw(line)
        status = gate.wait()
    progress.over.set()
    telling.join()
    return status, said


def is_built(program, wanted):
    """Returns whether the program exists, built from sources of this checksum."""
    if not (os.path.isfile(program.built) and os.path.isfile(f"{program.built}.from")):
        return False
    with open(f"{program.built}.from", encoding="utf-8") as file:
        return file.read().strip() == wanted


def keep(program, made, wanted):
    """Puts the built program in its place, with the checksum of its sources."""
    os.makedirs(os.path.dirname(program.built), exist_ok=True)
    shutil.copyfile(made, f"{program.built}.new")
    os.chmod(f"{program.built}.new", 0o755)
    os.replace(f"{program.built}.new", program.built)
    with open(f"{program.built}.from", "w", encoding="utf-8") as file:
        file.write(f"{wanted}\n")


def build(program, crates, wanted, jobs):
    """Proves the crates and builds the program. Returns the status."""
    name = program.name
    print(
        f"{name}: proving its {len(crates)} crates from nothing, {jobs} at a time, then building it; this happens once",
        file=sys.stderr,
    )
    before = os.times()
    start = time.monotonic()
    with tempfile.TemporaryDirectory(prefix="cedar-site-") as room:
        lay_out(program, crates, room)
        status, said = prove(crates, room, jobs)
        if status:
            sys.stderr.write("".join(said))
            print(f"{name}: expected `rt ci` to pass, got status {status}: not built", file=sys.stderr)
            return 1
        keep(program, f"{room}/crates/{name}/out/{name}", wanted)
    used = os.times()
    spent = used.children_user + used.children_system - before.children_user - before.children_system
    taken = f"{minutes(time.monotonic() - start)} by the clock, {minutes(spent)} of processor time"
    print(f"{name}: proved and built in {taken} (minutes:seconds)", file=sys.stderr)
    return 0


def parser():
    """Returns the parser of the command line."""
    words = argparse.ArgumentParser(description=__doc__, formatter_class=argparse.RawDescriptionHelpFormatter)
    words.add_argument("--if-needed", action="store_true", help="does nothing if the program was built from these sources")
    words.add_argument("--is-built", action="store_true", help="builds nothing; the status is 0 if it was built from these sources")
    words.add_argument("--jobs", metavar="N", type=int, default=len(os.sched_getaffinity(0)), help="the number of parallel proofs (default: one a processor)")
    words.add_argument("program", metavar="PROGRAM", nargs="?", default="cedar_site", help="the program to build (default: cedar_site)")
    return words


def main():
    words = parser().parse_args()
    end_by_exit()
    program = Program(words.program)
    crates = crates_below(program)
    if not crates:
        print(f"{words.program}: expected a crate of crates.txt or a program of {MEASURING}, got neither", file=sys.stderr)
        return 2
    wanted = sum_of(program, crates)
    if words.is_built:
        return 0 if is_built(program, wanted) else 1
    if words.if_needed and is_built(program, wanted):
        return 0
    return build(program, crates, wanted, words.jobs)


if __name__ == "__main__":
    sys.exit(main())
