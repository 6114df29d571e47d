#!/usr/bin/env python3
"""Measures the memory of a served site after long use, as further rows of tests/rows/hostile.txt, through one build.

    tests/faults/held_memory.py PROGRAM

100,000 policies, each with another name, are put and deleted in turn, and at another site 10,000 entities. The site
holds no more than its tombstones need. The last line is `N passed, M failed`.
"""
import os
import sys
import time

sys.dont_write_bytecode = True
sys.path.insert(0, os.path.dirname(os.path.dirname(os.path.abspath(__file__))))

import tried  # noqa: E402
from rows.hostile import Hostile  # noqa: E402

ROWS = (("renamed", 100_000), ("entities_renamed", 10_000))


def rows(program, folder):
    hostile = Hostile(program, folder)
    try:
        for word, count in ROWS:
            began = time.monotonic()
            came = hostile.row_outcome(word, str(count))
            is_right = came == f"{count} put and taken away"
            yield word, f"{came}, in {time.monotonic() - began:.1f} seconds", is_right
    finally:
        hostile.close()


if __name__ == "__main__":
    sys.exit(tried.main(sys.argv[1:], __doc__, rows))
