#!/usr/bin/env python3
"""A status text that cannot be read: bench/unreadable_status.py PROGRAM.. [EXPERIMENT..] [--seconds N] [--turns N]

Wants Debian's gearman-job-server. A client asks for a job of a function whose name has a line feed in it, as any client may. From then on
no attempt can read how long the queues are. What is seen of the function of others, `resize`, is measured for ten seconds, or for N, in each
part. PROGRAM, what is started, the turns, and the lines that are printed are those of bench/starving.py. gearmand has --job-retries=1, so
that a job that is answered 503 ends one worker and fails.

The one EXPERIMENT is line_feed, with these parts:

- before
- the name is there: each attempt says that the status cannot be read
- one worker was replaced: a job is answered 503, and the slot of its worker has another one
- all were replaced: such jobs come one after the other, until no worker is left of those that had work before the name was there

The table has the rate before, what of it is left in each other part, and how many milliseconds after it has joined the worker that replaced
the first one had its function at the job server; a minus means that it had none after ten seconds. A run takes a minute.
"""
import os
import re
import sys
import time

sys.dont_write_bytecode = True
HERE = os.path.dirname(os.path.abspath(__file__))
sys.path[:0] = [f"{HERE}/gearmand", *[f"{HERE}/../tests/{name}" for name in ("gearmand", "page", "serve")]]
sys.path.append(f"{HERE}/starving")

from clients import ASKED, BAD
from farm import held, wait_until
from lab import WARM_S, WORKERS, Lab
from stage import PATIENCE
from turns import Experiment, Figure, main

NAME = b"a name\nof two lines"

# A worker that has joined gets work within so many seconds, or none.
WORK_S = 10

# So many bad jobs come at most until all workers were replaced, so many seconds apart.
MOST_BAD, APART_S = 100, 0.1

ONE_REPLACED = "one worker was replaced"

FIRST_ENDED = re.compile(r"ended (\S+)#1 ")


def figures(milliseconds):
    """What the table has of a part, if the first worker that was replaced had work after so many milliseconds."""

    def of_part(part, reference):
        if part is reference:
            return [Figure(part.rate(), "{:.0f} jobs/s")]
        work = [Figure(milliseconds, "{:.0f} ms")] if part.name == ONE_REPLACED else []
        return [Figure(part.share(reference), "{:.0%}"), *work]

    return of_part


def ended_slots(lab):
    """The slots whose first worker has ended."""
    return [found[1] for line in lab.lines() if (found := FIRST_ENDED.match(line))]


def functions_of(lab, worker):
    """The functions that a worker has at the job server, or None if it is not there."""
    for line in lab.server.text(b"workers\n").decode().splitlines():
        before, colon, after = line.partition(" :")
        if colon and before.split()[-1] == worker:
            return after.split()
    return None


def replace_one(lab):
    """A bad job ends a worker. The milliseconds after which the one that takes its place has its function, or None."""
    lab.leave(BAD)
    wait_until(lambda: ended_slots(lab), PATIENCE, "a bad job ends a worker")
    worker = f"{ended_slots(lab)[0]}#2"
    wait_until(lambda: f"joined {worker}" in lab.lines(), PATIENCE, f"{worker} joins")
    begin = time.monotonic()
    while (passed := time.monotonic() - begin) < WORK_S:
        if ASKED in (functions_of(lab, worker) or []):
            return 1000 * passed
        time.sleep(0.01)
    return None


def replace_all(lab):
    """Bad jobs come until each of the first workers has ended."""
    for _ in range(MOST_BAD):
        if len(ended_slots(lab)) == WORKERS:
            return
        lab.leave(BAD)
        time.sleep(APART_S)
    # Lines of ends come with the next attempt.
    time.sleep(WARM_S)
    held(len(ended_slots(lab)) == WORKERS, f"after {MOST_BAD} bad jobs only these workers have ended: {ended_slots(lab)}")


def is_unread(lab):
    return any(re.fullmatch(r"attempt \d+ status .*", line) for line in lab.lines())


def line_feed(program):
    with Lab(program, retries=1) as lab:
        lab.begin()
        before = lab.measure("before")
        lab.leave(b"", function=NAME)
        wait_until(lambda: is_unread(lab), PATIENCE, "the status cannot be read")
        lab.measure("the name is there")
        milliseconds = replace_one(lab)
        lab.measure(ONE_REPLACED)
        replace_all(lab)
        time.sleep(WARM_S)
        lab.measure("all were replaced")
        return lab.finish(before, figures(milliseconds))


EXPERIMENTS = {"line_feed": Experiment(line_feed)}

if __name__ == "__main__":
    main(__doc__, "left, and a new worker's work after", EXPERIMENTS, sys.argv[1:])
