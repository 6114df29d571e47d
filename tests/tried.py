"""Shared by the scripts that try a program case by case: their arguments, their output and their status."""
import contextlib
import os
import signal
import sys
import tempfile


def interrupt(*_):
    """Raises `KeyboardInterrupt`, as Ctrl-C does, so that the sites that were started end too."""
    raise KeyboardInterrupt


def main(words, usage, rows):
    """Tries the program that the one argument names. Returns the status to end with.

    `rows(program, folder)` yields the cases, each with its name, its outcome, and whether that is right. Prints a line for
    each, and at the end `N passed, M failed`.
    """
    if words in (["-h"], ["--help"]):
        print(usage)
        return 0
    if len(words) != 1:
        print(usage, file=sys.stderr)
        return 2
    signal.signal(signal.SIGTERM, interrupt)
    passed = failed = 0
    with tempfile.TemporaryDirectory() as folder, contextlib.closing(rows(os.path.abspath(words[0]), folder)) as each:
        for name, came, is_right in each:
            passed, failed = passed + bool(is_right), failed + (not is_right)
            print(f"{name}: {came}", flush=True)
    print(f"{passed} passed, {failed} failed")
    return 1 if failed else 0
