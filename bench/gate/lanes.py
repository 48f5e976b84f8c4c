#!/usr/bin/env python3
"""Prints how many checks `rt ci` may run at once: one a processor, fewer where memory is not enough for that, or nothing.

usage: bench/gate/lanes.py

rt reckons what a check takes of memory by lines, 14 GB for the tests of programs, and starts none that does not fit: by
bench/gate/plan.py that costs 12 minutes of 60 on two processors with 16 GB, and 25 of 54 on four. The tests of programs
were seen to take 3.8 GB, the largest crate 6.4 by four jobs, and all others less than the first. So .ci/run has rt run
as many as there is memory for, with LARGEST for the first and MOST for each further one (RT_JOBS), whatever it reckons;
where that is one alone, rt decides. A check that is killed for memory is made once more by rt.
"""
import sys

sys.dont_write_bytecode = True
from kit import gate

MOST, LARGEST = 4_000_000_000, 7_000_000_000


def main():
    if sys.argv[1:]:
        print(__doc__)
        return 0 if sys.argv[1] in ("-h", "--help") else 2
    rt = gate()
    number = min(rt.processors(), 1 + int((rt.free() - LARGEST) // MOST))
    print(number if number > 1 else "")
    return 0


if __name__ == "__main__":
    sys.exit(main())
