#!/usr/bin/env python3
"""How much of a farm's throughput is left if single jobs misbehave: bench/starving.py PROGRAM.. [EXPERIMENT..] [--seconds N] [--turns N]

Wants Debian's gearman-job-server. In each run a gearmand, services, a farm of one PROGRAM and 16 clients are started on the loopback, and
all are ended. Eight workers do jobs of ten milliseconds, of the function `resize`, and the attempts are a second apart. Each client asks
for one job, and again as soon as it is answered. Two seconds after the start this is measured for ten seconds, or for N. Then something
misbehaves, and it is measured for as long again: in a mix and with two functions two seconds later, else at once.

PROGRAM is a path, mostly of the program of before and of that of after. After PATH:KEY=NUMBER the services file has this key for each
function, as in poolman:timeout_ms=500. Each experiment is run with each program in turn, and from one experiment to the next, and from one
of N turns to the next, the programs change their order.

EXPERIMENT is one of these, by default all. A name without what comes after `:` stands for all that begin with it. Jobs that misbehave are
of `resize` too. Where no --job-retries is named gearmand gives them to the next worker without end.

- one_bad_job:bad, one_bad_job:crash: one job is answered 503 each time, or has its connection closed
- bad_jobs_that_stay, burst: 4 or 20 jobs are answered 503 each time, and all come at once
- mix:1, mix:5, mix:10, mix:25: so many per cent of the clients' jobs are answered 503. There is no --job-retries, so that such jobs never
  end unless the farm ends them, and nobody waits for one
- mix:1:3, mix:5:3, mix:10:3, mix:25:3: the same with gearmand --job-retries=3, so that a bad job fails the third time. Each client waits
  for that. With mix:10:1 it fails the first time
- late_job: one job takes longer each time than its function may, which is a second: so one worker of eight is at it
- large_job: one job has 17,000,000 bytes, which are more than a worker takes
- two_functions:1, two_functions:5: each worker may do two functions. So many jobs a second of the other one come, and each is answered 503,
  with gearmand --job-retries=3
- all_busy:1, all_busy:3: for five seconds each job is answered 503, with gearmand --job-retries=1, or 3. With all_busy:0 there is none

Other numbers are from 0 to 100, the first of mix and that of two_functions from 1.

A mix is also run with `ceiling` in place of a program: eight workers in Python, which answer a bad job as failed at once and never end. So
much is left at most by the service, the job server and the clients.

Prints two lines for each part of a run. The first has of the clients' good jobs:

- jobs/s: how many had a result, and left: what that is of the rate before
- worst s: how many seconds one took that was answered in this part, or one has waited for at its end, at most
- first s: how many seconds after the beginning of the part the first result came
- failed: how many were answered as failed

and of the farm:

- ends/s: how many workers ended, with the number for each cause, by lines that come with the next attempt
- hours: if it goes on like this, after so many hours a slot has had 262,143 workers, and the farm ends. It is rough if a slot has had few
- lost, unreached, reached: how many such lines there were
- workers: how many workers of `resize` the server has, the least and the most of samples each quarter of a second, and in how many samples
  it has none. A worker whose link is still open counts

The second has what `/health` said, with N for each number, and in how many of these samples. The last part with services that are no longer
busy goes on until a result comes, for a minute at most. After the last part there are the seconds of a drain, and the load. At the end
there is a table: for each part what is left, worst s, ends/s and hours, each the median of the turns; of the part before, its rate. A run
takes half a minute, and all with two programs 25 minutes. If one goes wrong that is said, with the folder of its logs; the others are made
all the same, and the exit status is 1.
"""
import os
import sys
import time

sys.dont_write_bytecode = True
HERE = os.path.dirname(os.path.abspath(__file__))
sys.path[:0] = [f"{HERE}/gearmand", *[f"{HERE}/../tests/{name}" for name in ("gearmand", "page", "serve")]]
sys.path.append(f"{HERE}/starving")

from clients import BAD, CRASH, LATE
from lab import TWO_FUNCTIONS, WARM_S, Ceiling, Lab
from stage import PATIENCE
from turns import Experiment, Figure, main

# If all services are busy, so many seconds are measured.
BUSY_S = 5

# A job of a function that has late ones may take so many milliseconds. The service takes three seconds for a late one.
TIMEOUT_MS = 1000

LARGE = bytes(17_000_000)


def figures(part, reference):
    """What the table has of a part."""
    if part is reference:
        return [Figure(part.rate(), "{:.0f} jobs/s")]
    return [
        Figure(part.share(reference), "{:.0%}"),
        Figure(part.worst(), "{:.2f}"),
        Figure(part.ends(), "{:.1f}"),
        Figure(part.hours(), "{:.0f}"),
    ]


def with_jobs(program, data, count=1, **keys):
    """So many jobs with these data come at once, and stay."""
    with Lab(program, **keys) as lab:
        lab.begin()
        before = lab.measure("before")
        lab.leave(data, count)
        lab.measure(f"with {count} such")
        return lab.finish(before, figures)


def one_bad_job(program, kind):
    return with_jobs(program, {"bad": BAD, "crash": CRASH}[kind])


def bad_jobs_that_stay(program):
    return with_jobs(program, BAD, 4)


def burst(program):
    return with_jobs(program, BAD, 20)


def late_job(program):
    return with_jobs(program, LATE, timeout_ms=TIMEOUT_MS)


def large_job(program):
    return with_jobs(program, LARGE)


def mix(program, per_cent, retries="0"):
    """So many per cent of the clients' jobs are bad."""
    make = Ceiling if program.is_ceiling else Lab
    with make(program, retries=int(retries)) as lab:
        lab.begin(waits_for_bad=int(retries) > 0)
        before = lab.measure("before")
        lab.clients.bad_share = int(per_cent) / 100
        time.sleep(WARM_S)
        lab.measure(f"with {per_cent} per cent")
        return lab.finish(before, figures)


def two_functions(program, rate):
    """So many jobs a second of the other function come, whose back end is down."""
    with Lab(program, TWO_FUNCTIONS, retries=3) as lab:
        lab.begin()
        before = lab.measure("before")
        lab.clients.start(lab.clients.leave_steadily, int(rate))
        time.sleep(WARM_S)
        lab.measure(f"with {rate} a second of the other")
        return lab.finish(before, figures)


def all_busy(program, retries):
    """All services are busy for some seconds."""
    with Lab(program, retries=int(retries)) as lab:
        lab.begin()
        before = lab.measure("before")
        open(lab.busy, "w").close()
        lab.measure("busy", BUSY_S)
        os.remove(lab.busy)
        lab.measure("after", patience=PATIENCE)
        return lab.finish(before, figures)


MIXES = ("1", "5", "10", "25", "1:3", "5:3", "10:3", "25:3")

EXPERIMENTS = {
    "one_bad_job": Experiment(one_bad_job, ("bad", "crash")),
    "bad_jobs_that_stay": Experiment(bad_jobs_that_stay),
    "mix": Experiment(mix, MIXES, ((1, 100), (0, 100)), has_ceiling=True),
    "late_job": Experiment(late_job),
    "large_job": Experiment(large_job),
    "burst": Experiment(burst),
    "two_functions": Experiment(two_functions, ("1", "5"), ((1, 100),)),
    "all_busy": Experiment(all_busy, ("1", "3"), ((0, 100),)),
}

if __name__ == "__main__":
    main(__doc__, "left, worst s, ends/s, hours", EXPERIMENTS, sys.argv[1:])
