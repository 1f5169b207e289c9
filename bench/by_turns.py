#!/usr/bin/env python3
"""Two programs by turns: bench/by_turns.py OLD NEW [TURNS [plan|session]]

Measures `plan` on the inputs of bench/planning and a worker's session at Debian's gearmand, OLD and NEW one after the other in each turn,
or one of the two alone. Prints the medians, and by how many per cent NEW differs: the median, the least and the greatest of what the turns
show, each by itself, since the machine may be as fast in one turn and slow in the next. Each program goes first in every second turn. Of
`plan` it is the processor time, added up over ten calls; of a session the jobs a second of one worker and the processor time of a job. Each
program's worker has a server of its own, started anew in each turn, and the jobs of a turn are asked for in 20 parts, of the two by turns.
The servers have two cores, the workers one, and the client one. Wants what bench/gearmand/measure.py wants, and four cores that do nothing
else."""

import os
import statistics
import subprocess
import sys
import tempfile

sys.dont_write_bytecode = True
HERE = os.path.dirname(os.path.abspath(__file__))
sys.path.insert(0, f"{HERE}/gearmand")

from measure import JOBS, Poolman, ask, build, pin, table
from farm import Gearmand, wait_until

INPUTS = ("all", "half", "triangle", "detour", "steps")
CALLS = 10
# Into how many parts the jobs of a turn are cut.
PARTS = 20


def plan_seconds(program, folder):
    """The processor seconds of so many calls of `plan`."""
    before = os.times()
    for _ in range(CALLS):
        with open(f"{folder}/status.txt", "rb") as status:
            words = [program, "plan", f"{folder}/settings.toml"]
            subprocess.run(words, stdin=status, stdout=subprocess.DEVNULL, check=True)
    after = os.times()
    return after.children_user + after.children_system - before.children_user - before.children_system


class Session:
    """A worker of a program at a server of its own."""

    def __init__(self, program):
        self.server = Gearmand()
        try:
            self.workers = Poolman(program, self.server.port, 1)
            wait_until(lambda: self.server.workers("echo") == 1, 30, "the worker is there")
        except BaseException:
            self.server.stop()
            raise
        pin(self.server.process.pid, "0,1")
        pin(self.workers.process.pid, "2")
        self.jobs, self.seconds, self.processor = 0, 0.0, 0.0

    def ask(self, folder, jobs, ahead):
        """So many jobs in a row, which are added to what was measured."""
        before = on_processor(self.workers.process.pid)
        rate = ask(folder, self.server.port, jobs, ahead, "taskset", "-c", "3")[0]
        self.processor += on_processor(self.workers.process.pid) - before
        self.jobs += jobs
        self.seconds += jobs / rate

    def end(self):
        self.workers.end()
        self.server.stop()


def on_processor(process):
    """Microseconds that the threads of a process had a processor, as its scheduler counts them."""
    nanoseconds = 0
    for task in os.listdir(f"/proc/{process}/task"):
        with open(f"/proc/{process}/task/{task}/schedstat") as it:
            nanoseconds += int(it.read().split()[0])
    return nanoseconds / 1000


def sessions(programs, folder, turn):
    """Jobs a second of one worker of each program, and the processor microseconds of a job. The programs are asked for some jobs after each
    other, many times, so that a machine whose speed changes changes both."""
    running = {}
    try:
        for name in programs:
            running[name] = Session(programs[name])
            ask(folder, running[name].server.port, 2000, 100, "taskset", "-c", "3")
        for part in range(PARTS):
            for name in in_turn(running, turn + part):
                running[name].ask(folder, JOBS[1] // PARTS, 1000)
        return {name: (it.jobs / it.seconds, it.processor / it.jobs) for name, it in running.items()}
    finally:
        for it in running.values():
            it.end()


def in_turn(names, turn):
    """The names, the last one first in every second turn."""
    return list(names)[:: 1 if turn % 2 == 0 else -1]


def plans(programs, folder, turn):
    """The processor milliseconds of a call of `plan` of each program."""
    return {name: plan_seconds(programs[name], folder) / CALLS * 1000 for name in in_turn(programs, turn)}


def by_turns(turns, measure):
    """What is measured of each program, turn by turn."""
    found = [measure(turn) for turn in range(turns)]
    return {name: [it[name] for it in found] for name in found[0]}


def row(what, old, new, form):
    """What the programs have, and by how much the new one differs in a turn: the median, the least and the greatest."""
    differs = sorted(100 * (of_new / of_old - 1) for of_old, of_new in zip(old, new))
    told = [statistics.median(differs), differs[0], differs[-1]]
    return [what, *[form.format(statistics.median(it)) for it in (old, new)], *[f"{it:+.1f} %" for it in told]]


def plan_rows(programs, folder, turns):
    for kind in INPUTS:
        subprocess.run([sys.executable, f"{HERE}/planning/generate.py", kind, f"{folder}/{kind}"], check=True)
        found = by_turns(turns, lambda turn: plans(programs, f"{folder}/{kind}", turn))
        yield row(f"plan, {kind}: milliseconds", found["old"], found["new"], "{:.1f}")


def session_rows(programs, folder, turns):
    found = by_turns(turns, lambda turn: sessions(programs, folder, turn))
    for at, (what, form) in enumerate([("session: jobs/s", "{:,.0f}"), ("session: processor µs a job", "{:.2f}")]):
        yield row(what, [it[at] for it in found["old"]], [it[at] for it in found["new"]], form)


def main(old, new, turns=7, *kinds):
    programs = {"old": os.path.abspath(old), "new": os.path.abspath(new)}
    rows = []
    with tempfile.TemporaryDirectory(prefix="bench-") as folder:
        build(folder)
        for kind, measured in [("plan", plan_rows), ("session", session_rows)]:
            if kind in kinds or not kinds:
                rows += measured(programs, folder, int(turns))
    table([f"median of {turns}", "old", "new", "difference", "least", "greatest"], rows)
    print(f"load at the end: {os.getloadavg()[0]:.1f}")


if __name__ == "__main__":
    if len(sys.argv) < 3:
        sys.exit(__doc__)
    main(*sys.argv[1:])
