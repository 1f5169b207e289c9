#!/usr/bin/env python3
"""`poolman run` against Debian's gearmand: tests/gearmand/run.py PROGRAM [PART]...

Runs each part in a process group of its own, for the part's limit at most, and prints a line for each. Status 0 says that all passed."""

import sys

sys.dont_write_bytecode = True

from parts import APART, PARTS
from running import run_parts

if __name__ == "__main__":
    if len(sys.argv) < 2:
        sys.exit(__doc__)
    sys.exit(run_parts(sys.argv[1], sys.argv[2:], PARTS, APART))
