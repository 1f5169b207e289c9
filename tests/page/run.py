#!/usr/bin/env python3
"""The page of a farm under load, and in a browser: tests/page/run.py PROGRAM [PART]...

Runs each part of burdens.py and pictures.py in a process group of its own, for the part's limit at most, and prints a line for each. Status 0
says that all passed."""

import sys

sys.dont_write_bytecode = True

# First, since it names the folders of the other modules. No file here has the name of one there.
import stage
from burdens import APART, PARTS
from pictures import pictures
from running import run_parts

if __name__ == "__main__":
    if len(sys.argv) < 2:
        sys.exit(__doc__)
    sys.exit(run_parts(sys.argv[1], sys.argv[2:], {**PARTS, pictures: 300}, APART))
