#!/usr/bin/env python3
"""The farm of trial.py for an hour: soak.py PROGRAM FOLDER [MINUTES]

Four clients ask for 200 jobs a second together, whose answers have to be right. Each two minutes a healthy host is killed and started again
after ten seconds, and has to get jobs. Each 4.9 seconds a line of FOLDER/samples has the seconds since the start, the attempts, the jobs
that were answered, and what poolman holds: threads, descriptors, KiB of memory, and those that are its own, and not pages of a file, of
which the system takes some back when it is short of memory. Then the page is read.

Prints the least, the median and the greatest of what was held in the third and the last quarter. In the last the median of the descriptors
may be more by one, since jobs and peers come and go, and that of its own memory by one per cent of all its memory: some 40 KiB. In a
quarter of an hour a descriptor that each killed host left would be seven, and a byte that each job left 175 KiB. The least and the greatest
decide nothing: the least is of a moment with few jobs, and of four quarters that are alike the last has the greatest each fourth time. What
the page keeps of attempts has its last size after 1,024 of them, so below 40 minutes the rule is too strict.
"""

import os
import statistics
import sys
import threading
import time

sys.dont_write_bytecode = True

from trial import HEALTHY, PATIENCE, TOTALS, Farm, Processes, ask_rightly, at_once, drain, held, keep_no_freed_memory, mixed_jobs, wait_until

CLIENTS, JOBS_A_SECOND, ROUND_MS = 4, 50, 1000
KILL_S, AWAY_S = 120, 10

# Jobs come each second. Samples in step with them would see the same moment of them for minutes, and another one later.
SAMPLE_S = 4.9
HELD = ("threads", "descriptors", "KiB", "own KiB")


class Soak:
    """A farm that works until its time is over."""

    def __init__(self, program, processes, seconds):
        self.farm = Farm(program, processes, ROUND_MS)
        self.folder = processes.folder
        self.seconds = seconds
        self.answered, self.lock = 0, threading.Lock()
        self.samples = []

    def passed(self):
        return time.monotonic() - self.begin

    def each(self, pause, call):
        """Makes a call each so many seconds, and at once after one that took longer. The first that fails ends all."""
        due = 0
        while (due := max(due + pause, self.passed())) < self.seconds:
            time.sleep(max(0, due - self.passed()))
            try:
                call()
            except BaseException:
                self.seconds = 0
                raise

    def ask(self, name):
        """A client, which asks for a second's jobs over one connection each."""

        def ask_once():
            ask_rightly(self.farm.server, mixed_jobs(f"{name}-{self.passed():.3f}", JOBS_A_SECOND), 5 * PATIENCE)
            with self.lock:
                self.answered += JOBS_A_SECOND

        self.each(1, ask_once)

    def disturb(self):
        hosts = list(HEALTHY)

        def kill_next():
            hosts.append(hosts.pop(0))
            self.kill(hosts[-1])

        self.each(KILL_S, kill_next)

    def kill(self, name):
        """Kills a service, and starts it again. It writes a line for each job."""
        self.farm.services[name].kill()
        self.farm.services[name].wait()
        time.sleep(AWAY_S)
        log = f"{self.folder}/{name}.out"
        before = os.path.getsize(log)
        self.farm.services[name] = self.farm.start_service(name)
        wait_until(lambda: os.path.getsize(log) > before, 5 * PATIENCE, f"{name} does jobs again")

    def sample(self):
        """Writes a line, and reads the page. A peer that reads it has a thread, so what is held is read first."""
        process = f"/proc/{self.farm.poolman.pid}"
        with open(f"{process}/status") as it:
            status = dict(line.split(":", 1) for line in it.read().splitlines())
        threads, all_kib, own_kib = (int(status[name].split()[0]) for name in ("Threads", "VmRSS", "RssAnon"))
        descriptors = len(os.listdir(f"{process}/fd"))
        attempts = self.farm.page.attempts()
        self.farm.page.text("/")
        sample = (int(self.passed()), attempts, self.answered, threads, descriptors, all_kib, own_kib)
        self.samples.append(sample)
        with open(f"{self.folder}/samples", "a") as it:
            print(*sample, file=it)

    def run(self):
        self.farm.start()
        self.begin = time.monotonic()
        clients = [lambda n=n: self.ask(f"job-{n}") for n in range(CLIENTS)]
        at_once([*clients, self.disturb, lambda: self.each(SAMPLE_S, self.sample)])

    def end(self):
        """Drains the farm, whose totals have each job."""
        status, told, said = drain(self.farm.program, self.folder)
        held((status, said) == (0, ""), f"the drain: {status} {said}")
        reported = int(TOTALS.search(told)[3])
        held(reported == self.answered, f"{reported} jobs were reported, and {self.answered} answered")
        self.farm.poolman.wait(PATIENCE)

    def judge(self):
        """Compares the last two quarters."""
        third, last = self.quarter(2), self.quarter(3)
        for name, some in ("third", third), ("last", last):
            print(f"{name} quarter: " + ", ".join(f"{what} {low} {mid:.0f} {high}" for what, (low, mid, high) in some.items()))
        held(last["descriptors"][1] <= third["descriptors"][1] + 1, "there are more descriptors")
        held(last["own KiB"][1] - third["own KiB"][1] <= 0.01 * third["KiB"][1], "there is more memory")

    def quarter(self, number):
        """The least, the median and the greatest of what poolman held in a quarter of the time."""
        some = [it for it in self.samples if it[0] * 4 // self.seconds == number]
        return {name: (min(column), statistics.median(column), max(column)) for name, column in zip(HELD, list(zip(*some))[3:])}


def main(program, folder, minutes="60"):
    os.makedirs(folder, exist_ok=True)
    keep_no_freed_memory()
    with Processes(folder) as processes:
        soak = Soak(program, processes, 60 * float(minutes))
        soak.run()
        soak.end()
        print(f"{soak.answered} jobs, {soak.samples[-1][1]} attempts, load at the end {os.getloadavg()[0]:.1f}")
        soak.judge()


if __name__ == "__main__":
    if len(sys.argv) < 3:
        sys.exit(__doc__)
    main(*sys.argv[1:])
