"""Makes allocations of a program fail: a library that does so, and runs of the program. Shared by scripts.

A program allocates by malloc and realloc of the C library. tests/faults/refuse.c, loaded before it, makes a call fail. Needs
`cc`.
"""
import os
import subprocess

TOP = os.path.dirname(os.path.dirname(os.path.dirname(os.path.abspath(__file__))))
# what tests/faults/refuse.c writes after it refused a call
TOLD = b"refused\n"
# a run that allocates more often is reported as a fault
MOST = 100_000
# the time limit of a run, in seconds
PATIENCE = 240


def library(folder):
    """Compiles the library that refuses calls into a folder. Returns its path."""
    made = f"{folder}/refuse.so"
    subprocess.run(["cc", "-O2", "-shared", "-fPIC", "-o", made, f"{TOP}/tests/faults/refuse.c"], check=True)
    return made


class Runs:
    """Runs of a program in a folder with the library that refuses calls."""

    def __init__(self, program, folder):
        self.program, self.folder, self.library = program, folder, library(folder)

    def run(self, words, number):
        """Returns status and streams of a run in which this allocation fails (0: none), and whether one failed."""
        environment = {**os.environ, "LD_PRELOAD": self.library, "REFUSED": str(number)}
        how = {"cwd": self.folder, "stdin": subprocess.DEVNULL, "capture_output": True, "timeout": PATIENCE}
        ran = subprocess.run([self.program, *words], env=environment, check=False, **how)
        told = TOLD in ran.stderr
        return (ran.returncode, ran.stdout, ran.stderr.replace(TOLD, b"", 1) if told else ran.stderr), told

    def fault(self, words, ample, is_right):
        """Returns in how many runs an allocation failed, and what is wrong with a run; None if nothing is.

        `ample` is the outcome with ample memory. `is_right` returns whether an outcome is right if an allocation fails.
        The last run is the first in which none fails.
        """
        for number in range(1, MOST):
            came, was_refused = self.run(words, number)
            if not was_refused:
                return number - 1, None if came == ample else f"expected {ample} without a refused call, got {came}"
            if not is_right(came):
                return number, f"allocation {number}: expected an outcome of a failed allocation, got {came}"
        return MOST, f"expected at most {MOST} allocations, got more"


def told(count, fault):
    """Returns what is printed of a subject: how many of its allocations were refused, and what was wrong."""
    return f"{count} allocations failing in turn{': ' + fault if fault else ''}"
