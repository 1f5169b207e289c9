#!/usr/bin/env python3
"""How long an idle farm takes to end after a signal: bench/signals.py PROGRAM [TURNS]

Starts farms of `serve` as tests/signals does, with SIGTERM and SIGINT blocked, no job server and no service, and sends either signal, each
time a little later after the last look. Prints the least, the median and the most milliseconds from the signal to the end of the process.
It takes half a second for each turn, of which there are 20.
"""

import importlib.machinery
import importlib.util
import os
import signal
import statistics
import sys
import time

sys.dont_write_bytecode = True
TOP = os.path.dirname(os.path.dirname(os.path.abspath(__file__)))
SUITE = f"{TOP}/tests/signals/run"

# The farm looks so often, in seconds.
LOOK = 0.2


def suite_of_signals():
    """The script of the suite, as a module."""
    loader = importlib.machinery.SourceFileLoader("signals", SUITE)
    module = importlib.util.module_from_spec(importlib.util.spec_from_loader("signals", loader))
    loader.exec_module(module)
    return module


def milliseconds(signals, program, turn, turns):
    """From the signal to the end of one farm."""
    with signals.Farm(program, signals.BLOCKED) as farm:
        farm.start()
        farm.line_that("attempt 1 ")
        time.sleep(LOOK * turn / turns)
        begin = time.monotonic()
        farm.child.send_signal(signal.SIGTERM if turn % 2 else signal.SIGINT)
        signals.has_drained(farm)
        return 1000 * (time.monotonic() - begin)


def main(program, turns="20"):
    signals = suite_of_signals()
    found = [milliseconds(signals, os.path.abspath(program), turn, int(turns)) for turn in range(int(turns))]
    print(f"{min(found):.0f} {statistics.median(found):.0f} {max(found):.0f} ms")


if __name__ == "__main__":
    main(*sys.argv[1:])
