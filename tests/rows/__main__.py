"""Runs the rows of this folder's tables through a built program, and reports each row with another outcome than expected.

    python3 tests/rows PROGRAM [TABLE ..]        all tables, or the named ones

A table tests/rows/NAME.txt (for `sites` crates/test_sites/stdout) is plain text. An empty line, or one that begins with `#`,
is a heading; every other line is `WORD TEXT  ->  EXPECTED`, split at its last arrow. (The tables `merge`, `pull`
and `exchange` have blocks of lines instead.) KINDS has the class that answers the rows of each table, and explains each word. Tables
run in parallel, as many as there are processors; the rows of a table run in order. The last line is `N passed, M
failed`; the status is 1 if a row failed. Standard library alone.
"""
import concurrent.futures
import os
import signal
import sys
import tempfile
import threading
import time

sys.dont_write_bytecode = True  # the tables' tools leave nothing beside them
TOP = os.path.dirname(os.path.dirname(os.path.dirname(os.path.abspath(__file__))))
sys.path.insert(0, f"{TOP}/tests")

from rows import commands, drills, hostile, schemas, sites, sound  # noqa: E402
import tried  # noqa: E402

KINDS = {
    **commands.KINDS,
    **drills.KINDS,
    **hostile.KINDS,
    **schemas.KINDS,
    **sites.KINDS,
    **sound.KINDS,
}
# tables outside this folder, whose rows a program of the gate also prints
ELSEWHERE = {"sites": "crates/test_sites/stdout"}
# how many characters of a text are shown
SHOWN = 200
# how long a wrong row may take, in seconds, before the rows after it are skipped: they would hang too
HANGS = 25


class Stopped(Exception):
    """The tables are to be tried no further."""


class Tables:
    """The tables that are tried, their results so far, and whether to go on."""

    def __init__(self, program, room):
        self.program, self.room = program, room
        self.stop, self.telling = threading.Event(), threading.Lock()
        self.kinds = []
        self.passed = self.failed = 0

    def tell(self, *lines):
        """Prints lines that stay together."""
        with self.telling:
            print("\n".join(lines), flush=True)

    def row_outcome(self, kind, row):
        """Returns the outcome of a row; a failed kind is reported as such."""
        try:
            return kind.row_outcome(row.word, row.text)
        except Exception as fault:  # a row that cannot be tried is a wrong one, and the others are tried
            return f"{type(fault).__name__}: {fault}"

    def try_rows(self, name, kind, rows):
        """Tries the rows of a table, in order. Returns how many were wrong, or not tried after one that hangs."""
        wrong = 0
        for tried, row in enumerate(rows, 1):
            if self.stop.is_set():
                raise Stopped
            began = time.monotonic()
            came = self.row_outcome(kind, row)
            if came != row.expected and not self.stop.is_set():
                wrong += 1
                at = first_difference(row.expected, came)
                wanted, came = cut(row.expected, at), cut(came, at)
                self.tell(f"{name}:{row.line}: {cut(row.shown())}", f"  expected: {wanted}", f"  got:      {came}")
                # only if the outcome is wrong: on a machine that stalls, a right one comes late
                if time.monotonic() - began > HANGS:
                    self.tell(f"{name}: skipping the {len(rows) - tried} rows after it, since it took over {HANGS} seconds")
                    return wrong + len(rows) - tried
        return wrong

    def try_table(self, name):
        """Tries a table, and tells how many rows it has and how long it took."""
        began = time.monotonic()
        with open(path_of(name), encoding="utf-8", newline="\n") as file:
            rows = KINDS[name].rows_of(file.read())
        room = f"{self.room}/{name}"
        os.mkdir(room)
        kind = KINDS[name](self.program, room)
        self.kinds.append(kind)
        try:
            wrong = self.try_rows(name, kind, rows)
        finally:
            kind.close()
        with self.telling:
            self.passed, self.failed = self.passed + len(rows) - wrong, self.failed + wrong
        self.tell(f"{name}: {len(rows)} rows, {wrong} wrong, {time.monotonic() - began:.1f} s")

    def end(self):
        """Stops before the next row, and ends what was started."""
        self.stop.set()
        for kind in list(self.kinds):
            kind.close()


def first_difference(one, other):
    """Returns where two texts begin to differ."""
    return len(os.path.commonprefix([one, other]))


def cut(text, at=0):
    """Returns a text that fits on a screen; of a long one, the part around a position."""
    if len(text) <= SHOWN:
        return text
    begin = max(0, min(at - SHOWN // 2, len(text) - SHOWN))
    before, behind = ".. " if begin else "", " .." if begin + SHOWN < len(text) else ""
    return f"{before}{text[begin : begin + SHOWN]}{behind} ({len(text)} characters)"


def try_all(tables, names):
    """Tries tables side by side. If one cannot be tried, or at Ctrl-C, the others end too."""
    count = len(os.sched_getaffinity(0))
    with concurrent.futures.ThreadPoolExecutor(count) as pool:
        going = [pool.submit(tables.try_table, name) for name in names]
        try:
            for one in concurrent.futures.as_completed(going):
                one.result()
        finally:
            for one in going:
                one.cancel()
            tables.end()


def path_of(name):
    """Returns the path of a table."""
    return f"{TOP}/{ELSEWHERE.get(name, f'tests/rows/{name}.txt')}"


def table_names(words):
    """Returns the named tables, or all of tests/rows/ and all with a kind, the largest first."""
    names = {os.path.basename(word).removesuffix(".txt") for word in words}
    stand = {name.removesuffix(".txt") for name in os.listdir(f"{TOP}/tests/rows") if name.endswith(".txt")} | set(ELSEWHERE)
    names = names or stand | set(KINDS)
    for name in sorted(names):
        if name not in KINDS or name not in stand:
            raise ValueError(f"expected a table with a kind of rows, got {name}")
    return sorted(names, key=lambda name: os.path.getsize(path_of(name)), reverse=True)


def main(words):
    """Tries the tables. Returns the status."""
    if words in (["-h"], ["--help"]):
        print(__doc__)
        return 0
    if not words or words[0].startswith("-"):
        print(__doc__, file=sys.stderr)
        return 2
    program = os.path.abspath(words[0])
    if not os.access(program, os.X_OK):
        print(f"rows: expected a program, got none at {program}", file=sys.stderr)
        return 2
    try:
        names = table_names(words[1:])
    except ValueError as fault:
        print(f"rows: {fault}", file=sys.stderr)
        return 2
    signal.signal(signal.SIGTERM, tried.interrupt)
    with tempfile.TemporaryDirectory(prefix="rows-") as room:
        tables = Tables(program, room)
        try_all(tables, names)
    print(f"{tables.passed} passed, {tables.failed} failed", flush=True)
    return 1 if tables.failed else 0


if __name__ == "__main__":
    try:
        sys.exit(main(sys.argv[1:]))
    except KeyboardInterrupt:
        sys.exit(130)
