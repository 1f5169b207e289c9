#!/usr/bin/env python3
"""`poolman run` beside a worker in C on libgearman, against one gearmand: bench/gearmand/measure.py PROGRAM [TURNS]

Wants Debian's gearman-job-server, libgearman-dev, gcc and strace. The columns are measured in turn, TURNS times; what is printed is the
median, with the least and the greatest. All traffic is on the loopback, and only what was started here is ended."""

import os
import re
import statistics
import struct
import subprocess
import sys
import tempfile
import time

sys.dont_write_bytecode = True
HERE = os.path.dirname(os.path.abspath(__file__))
sys.path.insert(0, f"{HERE}/../../tests/gearmand")

from farm import Gearmand, Pool, settings, wait_until

# Jobs in a row of each measurement, by the number of workers.
JOBS = {1: 50000, 4: 100000}
TRIPS = 5000


def processor(process):
    """Microseconds that a process had a processor."""
    with open(f"/proc/{process}/stat") as it:
        fields = it.read().rsplit(")", 1)[1].split()
    return (int(fields[11]) + int(fields[12])) * 1e6 / os.sysconf("SC_CLK_TCK")


class Poolman:
    """The workers of a `poolman run`."""

    def __init__(self, program, port, count, rounds=600, **keys):
        self.pool = Pool(program, settings(port, count, ("echo",), round_ms=500, lull_ms=100, **keys), rounds)

    @property
    def process(self):
        return self.pool.process

    def memory(self):
        return self.pool.memory()

    def processor(self):
        return processor(self.process.pid)

    def end(self):
        self.pool.drop()


class InC:
    """Workers on libgearman, as threads of one process."""

    def __init__(self, program, port, count):
        self.process = subprocess.Popen([program, str(port), str(count)], stdin=subprocess.DEVNULL)

    def memory(self):
        with open(f"/proc/{self.process.pid}/status") as it:
            return int(re.search(r"VmRSS:\s+(\d+) kB", it.read())[1])

    def processor(self):
        return processor(self.process.pid)

    def end(self):
        self.process.kill()
        self.process.wait()


def build(folder):
    """Compiles the C programs."""
    for name, words in (("worker", ["-lgearman", "-lpthread"]), ("client", []), ("allocations.so", ["-shared", "-fPIC"]), ("times.so", ["-shared", "-fPIC"])):
        source = f"{HERE}/{name.removesuffix('.so')}.c"
        subprocess.run(["gcc", "-O2", "-Wall", "-o", f"{folder}/{name}", source, *words], check=True)


def ask(folder, port, jobs, ahead, *before):
    """Jobs a second, and the median time of one, of a client that is started with these words before it."""
    words = [*before, f"{folder}/client", str(port), str(jobs), str(ahead)]
    said = subprocess.run(words, capture_output=True, text=True, timeout=120, check=True).stdout.split()
    return float(said[0]), float(said[1])


def speed(folder, make, count):
    """Jobs a second with so many workers, the processor time of a job in the workers' process, and the median round trip of one job
    after the other."""
    server = Gearmand()
    workers = make(server.port, count)
    try:
        wait_until(lambda: server.workers("echo") == count, 30, "the workers are there")
        ask(folder, server.port, 2000, 100)
        before = workers.processor()
        rate = ask(folder, server.port, JOBS[count], 1000)[0]
        cost = (workers.processor() - before) / JOBS[count]
        return rate, cost, ask(folder, server.port, TRIPS, 1)[1]
    finally:
        workers.end()
        server.stop()


def memory(make, count):
    """KiB of so many idle workers, and how long they took to be there."""
    server = Gearmand()
    start = time.monotonic()
    workers = make(server.port, count)
    try:
        wait_until(lambda: server.workers("echo") == count, 120, "the workers are there")
        took = time.monotonic() - start
        time.sleep(1)
        return workers.memory(), took
    finally:
        workers.end()
        server.stop()


def shown(values, form="{:,.0f}"):
    """The median, with the least and the greatest."""
    middle, least, most = statistics.median(values), min(values), max(values)
    return f"{form.format(middle)} ({form.format(least)} to {form.format(most)})"


def system_calls(folder, words, jobs):
    """The system calls of a worker, by name, while a client has so many jobs done. The rest of its life is left out."""
    server = Gearmand()
    process = subprocess.Popen([it.replace("PORT", str(server.port)) for it in words], stdin=subprocess.DEVNULL, stdout=subprocess.DEVNULL)
    try:
        wait_until(lambda: server.workers("echo") == 1, 30, "the worker is there")
        tracer = subprocess.Popen(["strace", "-f", "-c", "-U", "name,calls", "-o", f"{folder}/calls", "-p", str(process.pid)], stderr=subprocess.DEVNULL)
        time.sleep(1)
        ask(folder, server.port, jobs, 1000)
        tracer.terminate()
        tracer.wait(20)
    finally:
        process.kill()
        process.wait()
        server.stop()
    with open(f"{folder}/calls") as it:
        rows = [line.split() for line in it]
    counts = {row[0]: int(row[1]) / jobs for row in rows if len(row) == 2 and row[1].isdigit() and row[0] != "total"}
    return {name: count for name, count in counts.items() if count > 0.01}


def allocations(folder, program, jobs):
    """How often a run with one worker calls the allocator. It has the same number of attempts whatever the jobs."""
    server = Gearmand()
    os.environ.update(LD_PRELOAD=f"{folder}/allocations.so", ALLOCATIONS=f"{folder}/allocations")
    pool = Pool(program, settings(server.port, 1, ("echo",), round_ms=500, lull_ms=100), 12)
    del os.environ["LD_PRELOAD"]
    wait_until(lambda: server.workers("echo") == 1, 30, "the worker is there")
    if jobs:
        ask(folder, server.port, jobs, 1000)
    pool.end(60)
    server.stop()
    with open(f"{folder}/allocations") as it:
        return int(it.read())


def pin(process, cores):
    """Keeps a process on these cores."""
    subprocess.run(["taskset", "-a", "-p", "-c", cores, str(process)], check=True, stdout=subprocess.DEVNULL)


def time_of_a_job(folder, make):
    """Jobs a second of one worker that has a core of its own, as the client has, beside a server on two; and the microseconds of a job
    in the sending of its answer and of the request for the next, in waiting for that, and in the worker's own code."""
    server = Gearmand()
    os.environ.update(LD_PRELOAD=f"{folder}/times.so", TIMES=f"{folder}/times")
    workers = make(server.port, 1)
    del os.environ["LD_PRELOAD"], os.environ["TIMES"]
    wait_until(lambda: server.workers("echo") == 1, 30, "the worker is there")
    pin(server.process.pid, "0,1")
    pin(workers.process.pid, "2")
    ask(folder, server.port, 2000, 100)
    before = sums_of(folder)
    rate = ask(folder, server.port, JOBS[1], 1000, "taskset", "-c", "3")[0]
    sums = [(after - start) / JOBS[1] / 1000 for start, after in zip(before, sums_of(folder))]
    workers.end()
    server.stop()
    os.unlink(f"{folder}/times")
    answer, request, read, poll = sums[0::2]
    return rate, answer, request, read + poll, sum(sums[1::2])


def sums_of(folder):
    """For answers, requests, reads and polls the nanoseconds within them and before them."""
    with open(f"{folder}/times", "rb") as it:
        return struct.unpack("<8Q", it.read(64))


def show_times(folder, makers, turns):
    """The table of what a job's time is spent on."""
    times = {}
    for _ in range(turns):
        for name, make in makers.items():
            times.setdefault(name, []).append(time_of_a_job(folder, make))
    rows = [[name, *(shown([it[at] for it in times[name]], form) for at, form in enumerate(["{:,.0f}", *["{:.1f}"] * 4]))] for name in makers]
    table(["1 worker, each side on its own cores", "jobs/s", "answer sent: µs", "next job asked: µs", "waiting: µs", "own code: µs"], rows)


def table(head, rows):
    print("| " + " | ".join(head) + " |", "|" + "---|" * len(head), sep="\n")
    for row in rows:
        print("| " + " | ".join(row) + " |")
    print(flush=True)


def show_speed(folder, makers, turns):
    """The table of speeds, and the loads of the machine at the time."""
    loads, speeds = [], {}
    for _ in range(turns):
        for count in JOBS:
            for name, make in makers.items():
                speeds.setdefault((name, count), []).append(speed(folder, make, count))
                loads.append(os.getloadavg()[0])
    heads = [f"{count}: {it}" for count in JOBS for it in ("jobs/s", "processor µs a job", "median round trip µs")]
    rows = [[name, *(shown([it[at] for it in speeds[name, count]]) for count in JOBS for at in (0, 1, 2))] for name in makers]
    table(["workers", *heads], rows)
    return loads


def show_memory(makers, turns):
    """The table of idle workers."""
    sizes = {}
    for _ in range(turns):
        for count in (256, 4096):
            for name, make in makers.items():
                sizes.setdefault((name, count), []).append(memory(make, count))
    rows = []
    for name in makers:
        kib = [shown([it[0] for it in sizes[name, count]]) for count in (256, 4096)]
        rows.append([name, *kib, shown([it[1] for it in sizes[name, 4096]], "{:.1f}")])
    table(["workers", "256 idle: KiB", "4,096 idle: KiB", "4,096: seconds until there"], rows)


def show_system_calls(folder, program):
    """The table of the system calls of one worker."""
    with open(f"{folder}/settings.toml", "w") as it:
        it.write(settings(0, 1, ("echo",), round_ms=500, lull_ms=100))
    # The port is known only when the server is there.
    start = f'sed "s/:0\\"/:PORT\\"/" {folder}/settings.toml > {folder}/s.toml; exec {program} run {folder}/s.toml 600'
    commands = {"poolman run": ["sh", "-c", start], "C on libgearman": [f"{folder}/worker", "PORT", "1"]}
    rows = []
    for name, words in commands.items():
        counts = system_calls(folder, words, 5000)
        each = ", ".join(f"{it} {counts[it]:.2f}" for it in sorted(counts, key=counts.get, reverse=True))
        rows.append([name, f"{sum(counts.values()):.2f}", each])
    table(["workers", "system calls a job", "of which"], rows)


def main(program, turns):
    program = os.path.abspath(program)
    with tempfile.TemporaryDirectory(prefix="bench-") as folder:
        build(folder)
        makers = {
            "poolman run": lambda port, count: Poolman(program, port, count),
            "C on libgearman": lambda port, count: InC(f"{folder}/worker", port, count),
        }
        loads = show_speed(folder, makers, turns)
        show_times(folder, makers, turns)
        show_memory(makers, turns)
        show_system_calls(folder, program)
        few, more = allocations(folder, program, 1000), allocations(folder, program, 11000)
        print(f"allocations of poolman a job: {(more - few) / 10000:.2f}")
        print(f"load while speed was measured: {min(loads):.1f} to {max(loads):.1f}, {turns} turns")


if __name__ == "__main__":
    if len(sys.argv) < 2:
        sys.exit(__doc__)
    main(sys.argv[1], int(sys.argv[2]) if len(sys.argv) > 2 else 3)
