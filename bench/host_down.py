#!/usr/bin/env python3
"""What a host that is off leaves to others: bench/host_down.py PROGRAM.. [EXPERIMENT..] [--seconds N] [--turns N]

Wants Debian's gearman-job-server. A farm has two hosts with four workers each, and attempts a second apart. The one does `resize`, the other
`mail`, and each function has `least = 2`. So while a host is off, fewer live workers may do its function than that: one worker that tries the
host is alive in some attempts. What is seen of `resize` is measured for ten seconds, or for N, in each part. PROGRAM, what is started, the
turns, and the lines that are printed are those of bench/starving.py.

EXPERIMENT is one of these, by default all. Each ends with the host back.

- off_from_the_start: the farm is started while the other host is off, and clients wait for it. The rate with both hosts is the reference
- goes_away:restart: the other host is killed, and then the job server is killed and started again, so that each worker has to be replaced
- goes_away:bad_job: the other host is killed, and then one job of `resize` is answered 503 each time. What is measured begins two seconds
  after it came

The table has for each part: how many milliseconds after its beginning `resize` had its first job done, jobs/s, and what that is of the rate
before. The beginning of off_from_the_start is the start of the program, and after a restart it is the moment at which the job server
listens again. A minus means that no job was done. A run takes about a minute, and all with two programs six.
"""
import os
import sys
import time

sys.dont_write_bytecode = True
HERE = os.path.dirname(os.path.abspath(__file__))
sys.path[:0] = [f"{HERE}/gearmand", *[f"{HERE}/../tests/{name}" for name in ("gearmand", "page", "serve")]]
sys.path.append(f"{HERE}/starving")

from clients import BAD
from farm import wait_until
from lab import TWO_HOSTS, WARM_S, Lab
from stage import PATIENCE
from turns import Experiment, Figure, main

# The host that is off. The other one does the function that clients ask for.
OFF = "south"

# So many workers each function is to have: more than try a host that is off.
LEAST = 2


def figures(part, reference):
    """What the table has of a part."""
    milliseconds = None if part.first is None else 1000 * part.first
    return [Figure(milliseconds, "{:.0f} ms"), Figure(part.rate(), "{:.0f} jobs/s"), Figure(part.share(reference), "{:.0%}")]


def off_from_the_start(program):
    with Lab(program, TWO_HOSTS, least=LEAST) as lab:
        lab.start_hosts(but=[OFF])
        lab.ask_for_jobs()
        begin = time.monotonic()
        lab.start()
        lab.measure("the host is off", begin=begin)
        lab.start_host(OFF)
        lab.wait_until_whole()
        time.sleep(WARM_S)
        return lab.finish(lab.measure("the host is there"), figures)


def goes_away(program, what):
    """The other host goes, and then something happens that takes orders away."""
    with Lab(program, TWO_HOSTS, least=LEAST) as lab:
        lab.begin()
        before = lab.measure("before")
        lab.kill_service(OFF)
        wait_until(lambda: lab.is_unreached(OFF), PATIENCE, "the farm says that the host is not reached")
        lab.measure("the host is off")
        {"restart": restart_the_server, "bad_job": let_a_bad_job_come}[what](lab)
        lab.start_host(OFF)
        lab.measure("the host is back", patience=PATIENCE)
        return lab.finish(before, figures)


def restart_the_server(lab):
    """The clients are ended before it, and others ask after it."""
    lab.clients.end()
    lab.server.kill()
    lab.server.start()
    begin = time.monotonic()
    lab.ask_for_jobs()
    lab.measure("and the server was restarted", begin=begin)


def let_a_bad_job_come(lab):
    lab.leave(BAD)
    time.sleep(WARM_S)
    lab.measure("and a bad job came")


EXPERIMENTS = {
    "off_from_the_start": Experiment(off_from_the_start),
    "goes_away": Experiment(goes_away, ("restart", "bad_job")),
}

if __name__ == "__main__":
    main(__doc__, "first job, jobs/s, left", EXPERIMENTS, sys.argv[1:])
