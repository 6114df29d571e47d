#!/usr/bin/env python3
"""Runs tests of a built test program. In each run another allocation fails: the first, the second, and so on.

    tests/faults/refused_tests.py PROGRAM        (the gate leaves crates/test_library/out/test_library_tests)

These are the tests with `refused` in their names. If an allocation fails, such a test demands the state that the
contract of the call states, and then that the same call succeeds. So each run passes. The last run is the first in
which no allocation fails. The tests of SUBJECTS must exist. Needs `cc`. The last line is `N passed, M failed`, of
tests.
"""
import re
import os
import sys

sys.dont_write_bytecode = True
sys.path.insert(0, os.path.dirname(os.path.dirname(os.path.abspath(__file__))))

import refusing  # noqa: E402
import tried  # noqa: E402

SUBJECTS = {
    "stores::a_refused_merge_joins_the_first_names": "merge of two stores of five names each",
    "hierarchies::kept_survives_a_refused_allocation": "puts and deletions in a hierarchy with cached ancestors",
    "scopes::index_survives_a_refused_allocation": "policies added to the index, moved and removed",
}
PASSED = b"test result: ok\n"


def tests(runs):
    """Returns the names of the tests that call again after a failed allocation."""
    (status, listed, complaint), _ = runs.run(["--list"], 0)
    found = re.findall(r"(?m)^(\S+): test$", listed.decode())
    if status or not found:
        raise ValueError(f"expected a list of tests, got status {status}: {complaint}")
    return [name for name in found if "refused" in name]


def fault(runs, test):
    """Returns in how many runs of a test an allocation failed, and what is wrong with a run; None if nothing is."""
    ample, _ = runs.run([test], 0)
    if ample[0] or not ample[1].endswith(PASSED):
        return 0, f"expected a pass with ample memory, got {ample}"
    count, wrong = runs.fault([test], ample, lambda came: came == ample)
    return count, wrong or (None if count else "expected at least one failed allocation, got none")


def rows(program, folder):
    runs = refusing.Runs(program, folder)
    found = tests(runs)
    for test in sorted(SUBJECTS.keys() - set(found)):
        yield test, f"expected a test of this name ({SUBJECTS[test]}), got none", False
    for test in found:
        count, wrong = fault(runs, test)
        subject = f" ({SUBJECTS[test]})" if test in SUBJECTS else ""
        yield f"{test}{subject}", refusing.told(count, wrong), not wrong


if __name__ == "__main__":
    sys.exit(tried.main(sys.argv[1:], __doc__, rows))
