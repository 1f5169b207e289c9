#!/usr/bin/env python3
"""How long attempts and drains take in an outage: bench/attempts.py PROGRAM.. [EXPERIMENT..] [--turns N]

Wants Debian's gearman-job-server, unshare, mount, /dev/net/tun (so mostly root), and 8,192 descriptors (`ulimit -n`). All happens in a
network namespace of its own, where the job server is reached over a wire of this script: it can take its time, or lose all packets, as if
the job server's machine were off. Attempts are a second apart, and `lull_ms` is 100, so that a connection may take 6.5 seconds.

PROGRAM is a path, mostly of the program of before and of that of after. Each experiment is run with each program in turn, and from one
experiment to the next, and from one of N turns to the next, the programs change their order.

EXPERIMENT is one of these, by default all. A name without what comes after `:` stands for all that begin with it.

- drain:1, drain:4: the job server is named by a name that has so many addresses. Its machine goes off, and two attempts' time later the farm
  is drained. Told are the seconds until the drain has ended, and until the process has
- off:64, off:1024: a farm of so many slots is started while the machine is off. Told are the seconds that its first two attempts take, to
  their lines, without the pause between them
- far:64, far:1024: the machine is on, and each packet takes ten milliseconds to it and back to here. Told are the seconds of the first two
  attempts, until a client has its job done that asked before the start, and until all workers have joined
- few_files: 8 machines with 8 workers each, a function for each machine, and descriptors for some half of the workers. Told are the workers
  alive of each machine five seconds after the start, and how many of the 8 functions then do a job within five seconds

Other numbers are from 1 to 8 addresses and from 1 to 2,048 slots. `--seconds` changes nothing.

At the end there is a table, with the median of the turns; a minus means that it had not happened a minute after the start, or that no run
went well. If a drain, the end of its process or the start before it takes over a minute, the run goes wrong. A run takes from ten seconds
to a minute, and all with two programs some six minutes. If one goes wrong that is said, with the folder of its logs; the others are made
all the same, and the exit status is 1.
"""
import contextlib
import os
import re
import resource
import socket
import subprocess
import sys
import threading
import time
from concurrent.futures import ThreadPoolExecutor

sys.dont_write_bytecode = True
HERE = os.path.dirname(os.path.abspath(__file__))
sys.path[:0] = [f"{HERE}/gearmand", *[f"{HERE}/../tests/{name}" for name in ("gearmand", "page", "serve", "together")]]
sys.path.append(f"{HERE}/starving")

from farm import FAILED, HOST, Client, held, wait_until
from runs import Run, Server
from stage import PATIENCE
from starting import drain, untimed
from turns import Experiment, Figure, Found, Row, main
from wire import OTHERS, Wire, be_alone

ROUND_MS, LULL_MS = 1000, 100

# The name of the job server, and how many seconds a packet takes to it.
SERVER, FAR_S = "jobs.farm", 0.01

# So many seconds after the machine went off the farm is drained: the next attempt has begun then.
OFF_S = 2.2

# The machines that share too few descriptors, how many workers each has, and how many descriptors: 64 are left for the peers of the page,
# some 8 are taken by what each farm has, and each worker takes two.
MACHINES, EACH, FILES = "abcdefgh", 8, 64 + 8 + 2 * 32

# So many seconds after the start their workers are counted, and so many a job of theirs is waited for.
COUNTED_S, JOB_S = 5, 5

SECONDS = "{:.2f} s"


class OpenGearmand(Server):
    """A gearmand that listens at all addresses."""

    def start(self):
        self.words = [word.replace(f"--listen={HOST}", "--listen=0.0.0.0") for word in self.words]
        super().start()

    def stop(self):
        """Kills it: else it waits for its links to end, of which it hears nothing while the machine is off."""
        self.kill()
        self.folder.cleanup()


class Farm(Run):
    """A farm whose job server is behind the wire, under a name that has so many addresses."""

    def __init__(self, program, slots=64, addresses=1):
        super().__init__(program.path, {"echo": {"least": 1}}, {"north": (slots, ["echo"])}, round_ms=ROUND_MS, lull_ms=LULL_MS)
        self.keys["server"] = f"{SERVER}:{self.server.port}"
        self.slots, self.addresses = slots, OTHERS[:addresses]

    def start_server(self, options):
        return OpenGearmand("--file-descriptors=8192", *options)

    def start_all(self):
        """Starts the service and poolman. The moment at which that is started."""
        self.start_service("north", f"{HERE}/starving/service.py", f"{self.folder}/busy")
        name_server(self.folder, self.addresses)
        begin = time.monotonic()
        self.start()
        return begin

    def lines(self):
        """The whole lines of the farm so far, without their times."""
        text = self.processes.text("poolman.out")
        return untimed(text.splitlines()[: text.count("\n")])

    def count(self, word):
        return sum(line.startswith(f"{word} ") for line in self.lines())

    def seconds_until(self, count, word, begin):
        """How many seconds after the beginning there are so many lines with this word, or None if that takes too long."""
        while self.count(word) < count:
            held(self.poolman.poll() is None, f"poolman ended with status {self.poolman.returncode}")
            if time.monotonic() - begin > PATIENCE:
                return None
            time.sleep(0.02)
        return time.monotonic() - begin

    def has_all_workers(self):
        held(self.poolman.poll() is None, f"poolman ended with status {self.poolman.returncode}")
        return self.server.workers("echo") == self.slots


def name_server(folder, addresses):
    """Gives the job server these addresses, in the file of names that this network has."""
    with open(f"{folder}/hosts", "w") as it:
        it.write(f"{HOST} localhost\n" + "".join(f"{address} {SERVER}\n" for address in addresses))
    subprocess.run(["mount", "--bind", it.name, "/etc/hosts"], check=True)


@contextlib.contextmanager
def farm_of(program, wire, is_off=False, seconds=0, **how):
    """A farm behind the wire, which is as it was afterwards."""
    wire.is_off, wire.seconds = is_off, seconds
    try:
        with Farm(program, **how) as farm:
            yield farm
    finally:
        wire.is_off, wire.seconds = False, 0
        subprocess.run(["umount", "/etc/hosts"], check=False, stderr=subprocess.DEVNULL)


def told(figures):
    """What a run came to, by the name of each figure or of each list of them."""
    rows = [Row(name, it if isinstance(it, list) else [it]) for name, it in figures.items()]
    lines = [f"  {row.part}: {', '.join(map(str, row.figures))}" for row in rows]
    return Found("\n".join([*lines, f"  load {os.getloadavg()[0]:.1f}"]), rows)


def drained(wire):
    """How long a drain takes while the job server's machine is off."""

    def act(program, addresses):
        with farm_of(program, wire, addresses=int(addresses)) as farm:
            farm.start_all()
            wait_until(farm.has_all_workers, PATIENCE, "each worker has its function")
            time.sleep(2 * ROUND_MS / 1000)
            wire.is_off = True
            time.sleep(OFF_S)
            begin = time.monotonic()
            status, _, said = drain(program.path, farm.folder)
            took = time.monotonic() - begin
            held(status == 0, f"the drain: {status} {said}")
            farm.poolman.wait(PATIENCE)
            return told({"drain": Figure(took, SECONDS), "its process": Figure(time.monotonic() - begin, SECONDS)})

    return act


def attempt_figures(farm, begin):
    """How long the first two attempts take."""
    first = farm.seconds_until(1, "attempt", begin)
    second = farm.seconds_until(2, "attempt", begin)
    without_pause = None if second is None else max(0, second - first - ROUND_MS / 1000)
    return {"first attempt": Figure(first, SECONDS), "second attempt": Figure(without_pause, SECONDS)}


def started_off(wire):
    """How long attempts take while the job server's machine is off."""

    def act(program, slots):
        with farm_of(program, wire, is_off=True, slots=int(slots)) as farm:
            return told(attempt_figures(farm, farm.start_all()))

    return act


def first_job(port, begin, seconds):
    """Asks for a job in a thread, and puts how long after the beginning it is done."""

    def ask():
        with contextlib.suppress(OSError, AssertionError), contextlib.closing(Client(port, PATIENCE)) as client:
            if client.ask([(b"echo", b"first")]) == [b"first"]:
                seconds.append(time.monotonic() - begin)

    thread = threading.Thread(target=ask, daemon=True)
    thread.start()
    return thread


def started_far(wire):
    """How long attempts take while the way to the job server is long."""

    def act(program, slots):
        with farm_of(program, wire, seconds=FAR_S, slots=int(slots)) as farm:
            done = []
            asking = first_job(farm.server.port, time.monotonic(), done)
            begin = farm.start_all()
            figures = attempt_figures(farm, begin)
            joined = farm.seconds_until(int(slots), "joined", begin)
            asking.join(PATIENCE)
            job = done[0] if done else None
            return told({**figures, "first job": Figure(job, SECONDS), "all workers": Figure(joined, SECONDS)})

    return act


@contextlib.contextmanager
def limit_of_files(count):
    """Whatever is started here may open so many files."""
    limits = resource.getrlimit(resource.RLIMIT_NOFILE)
    resource.setrlimit(resource.RLIMIT_NOFILE, (count, limits[1]))
    try:
        yield
    finally:
        resource.setrlimit(resource.RLIMIT_NOFILE, limits)


def does_job(port, function):
    """Whether a job of a function is done in time."""
    with contextlib.closing(Client(port, JOB_S)) as client, contextlib.suppress(socket.timeout):
        return client.ask([(function.encode(), b"a job")]) not in ([], [FAILED])
    return False


def few_files(program):
    """How many workers each machine has if the farm may open too few files."""
    machines = {name: (EACH, [f"work_{name}"]) for name in MACHINES}
    functions = {f"work_{name}": {} for name in MACHINES}
    with Run(program.path, functions, machines, round_ms=ROUND_MS, lull_ms=LULL_MS) as stage:
        for name in machines:
            stage.start_service(name, f"{HERE}/starving/service.py", f"{stage.folder}/busy")
        with limit_of_files(FILES):
            stage.start()
        time.sleep(COUNTED_S)
        found = dict(re.findall(r'^poolman_host_alive_workers\{host="(.)"\} (\d+)$', stage.page.text("/metrics"), re.MULTILINE))
        with ThreadPoolExecutor(len(functions)) as asking:
            done = sum(asking.map(lambda function: does_job(stage.server.port, function), functions))
        stage.end()
    workers = [Figure(int(found.get(name, 0)), "{:.0f}") for name in MACHINES]
    return told({"workers of each machine": workers, "functions with a job done": Figure(done, "{:.0f}")})


def experiments():
    """All of them, over one wire."""
    wire = Wire()
    slots = ((1, 2048),)
    return {
        "drain": Experiment(drained(wire), ("1", "4"), ((1, len(OTHERS)),)),
        "off": Experiment(started_off(wire), ("64", "1024"), slots),
        "far": Experiment(started_far(wire), ("64", "1024"), slots),
        "few_files": Experiment(few_files),
    }


if __name__ == "__main__":
    words = be_alone(__file__, sys.argv[1:])
    main(__doc__, "an outage", experiments(), words)
