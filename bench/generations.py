#!/usr/bin/env python3
"""Farms that end since a slot has had all its workers, and are started again: bench/generations.py [STARTS [PROGRAM]]

Wants Debian's gearman-job-server, and the kit. A slot has 64 workers at most in place of 262,143: the program is that of a copy of the
crates with this number, of which nothing is proved. PROGRAM is one that an earlier run made and kept, at the path that it prints.

The farm is started by the script of examples/systemd, and started again as the unit beside it says for its exit status. Eight workers do
jobs of ten milliseconds. Sixteen clients ask for one after the other, and with each tenth for one that is answered 503 each time, for which
nobody waits. Once the farm has ended STARTS times (by default 3) with status 6, the clients end, and SIGTERM ends the farm as a stop does.

Holds that each of the clients' jobs had its result, once, that each farm accounts for all its jobs, and that the last one is not started
again. Prints how many jobs that were, the seconds that one took at most, and how each farm ended. A run takes half a minute, and before it
the program takes some minutes.
"""
import os
import shutil
import signal
import subprocess
import sys
import tempfile
import threading
import time

sys.dont_write_bytecode = True
HERE = os.path.dirname(os.path.abspath(__file__))
TOP = os.path.dirname(HERE)
sys.path[:0] = [f"{HERE}/gearmand", *[f"{TOP}/tests/{name}" for name in ("gearmand", "page", "serve", "together")]]
sys.path.append(f"{HERE}/starving")

import program
from clients import ASKED, BAD
from farm import TOTALS, Client, held, wait_until
from runs import Run
from stage import PATIENCE
from starting import command_of_unit, untimed

# So many workers a slot of the copy has at most, and how the sources say it of the program.
FEW, LIMIT = 64, ("crates/worker_state/src/limits.rt", "MAX_GENERATION: u32 = 262_143;")

# The status of a farm that ends since a slot has had all its workers.
USED_UP = 6

WORKERS, CLIENTS, BAD_EACH = 8, 16, 10


def works(path):
    """Whether this is a program that can be run."""
    return os.path.isfile(path) and subprocess.run([path, "--version"], stdin=subprocess.DEVNULL, capture_output=True).returncode == 2


def make(folder):
    """A program in this folder whose slots have few workers."""
    for name in ("crates.txt", "HANDLES"):
        shutil.copy(f"{TOP}/{name}", folder)
    shutil.copytree(f"{TOP}/crates", f"{folder}/crates", ignore=shutil.ignore_patterns("out"))
    subprocess.run(["git", "-C", folder, "init", "-q"], check=True)
    with open(f"{folder}/{LIMIT[0]}") as it:
        text = it.read()
    held(text.count(LIMIT[1]) == 1, f"{LIMIT[0]} has no {LIMIT[1]}")
    with open(f"{folder}/{LIMIT[0]}", "w") as it:
        it.write(text.replace(LIMIT[1], f"MAX_GENERATION: u32 = {FEW};"))
    os.mkdir(f"{folder}/made")
    made, form = program.made(f"{folder}/crates/poolman", f"{folder}/made", ["--version"], works)
    print(f"{made}: not proved, {form}, with {FEW} workers of a slot", flush=True)
    return made


class Unit:
    """What the unit says of which ends its service is started again after."""

    def __init__(self):
        with open(f"{TOP}/examples/systemd/poolman-serve.service") as it:
            keys = dict(line.strip().split("=", 1) for line in it if "=" in line and not line.startswith("#"))
        held(keys["Restart"] == "on-failure", f"the unit says Restart={keys['Restart']}")
        self.ends = {0, *map(int, f"{keys['SuccessExitStatus']} {keys['RestartPreventExitStatus']}".split())}
        self.pause = int(keys["RestartSec"])

    def starts_again(self, status):
        return status not in self.ends


class Farm(Run):
    """A farm that is started again as its unit says."""

    def __init__(self, path):
        super().__init__(path, {ASKED: {"least": 1}}, {"north": (WORKERS, [ASKED])}, options=["--job-retries=3"], round_ms=100)
        self.unit, self.statuses = Unit(), []
        os.mkdir(f"{self.folder}/bin")
        shutil.copy(path, f"{self.folder}/bin/poolman")
        self.program = f"{self.folder}/bin/poolman"
        self.keeper = threading.Thread(target=self.keep, daemon=True)

    def begin(self):
        self.start_service("north", f"{HERE}/starving/service.py", f"{self.folder}/busy")
        for name, text in (("settings", self.settings()), ("services", self.services())):
            with open(f"{self.folder}/{name}.toml", "w") as it:
                it.write(text)
        self.keeper.start()

    def keep(self):
        """Starts the farm, and starts it again for as long as its unit does."""
        files = [f"{self.folder}/{name}.toml" for name in ("settings", "services")]
        words = command_of_unit("poolman-serve", self.program, files)
        while not self.statuses or self.unit.starts_again(self.statuses[-1]):
            if self.statuses:
                time.sleep(self.unit.pause)
            self.poolman = self.processes.start("poolman", *words)
            self.statuses.append(self.poolman.wait())

    def used_up(self):
        return self.statuses.count(USED_UP)

    def stop(self):
        """Ends the farm as the unit's stop does."""
        wait_until(self.page.is_well, PATIENCE, "the farm is well")
        self.poolman.send_signal(signal.SIGTERM)
        self.keeper.join(PATIENCE)
        held(not self.keeper.is_alive(), "the farm has not ended, or was started again")

    def account(self):
        """Holds that each farm accounts for its jobs."""
        lines = untimed(self.processes.text("poolman.out").splitlines())
        totals = [list(map(int, found.groups())) for line in lines if (found := TOTALS.fullmatch(line))]
        held(len(totals) == len(self.statuses), f"{len(totals)} farms of {len(self.statuses)} said their totals")
        for grabbed, running, reported, lost, *_ in totals:
            held(running == 0 and grabbed == reported + lost, f"a farm got {grabbed} jobs, answered {reported}, and lost {lost}")


class Asking:
    """Clients that ask for one job after the other until they are told to end."""

    def __init__(self, port):
        self.port, self.is_over = port, threading.Event()
        self.answered, self.worst, self.wrong = 0, 0, []
        self.lock = threading.Lock()
        self.threads = [threading.Thread(target=self.ask, args=(number,), daemon=True) for number in range(CLIENTS)]
        for it in self.threads:
            it.start()

    def ask(self, number):
        try:
            client, turn = Client(self.port, PATIENCE), 0
            while not self.is_over.is_set():
                if turn % BAD_EACH == 0:
                    # Its connection has only what it left.
                    bad = Client(self.port, PATIENCE)
                    bad.leave([(ASKED.encode(), BAD)])
                    bad.close()
                self.ask_for(client, b"%d of %d" % (turn, number))
                turn += 1
        except (OSError, AssertionError) as error:
            self.wrong.append(error)

    def ask_for(self, client, data):
        begin = time.monotonic()
        answers = client.ask([(ASKED.encode(), data)])
        held(answers == [data], f"the job {data} is answered {answers}")
        with self.lock:
            self.answered += 1
            self.worst = max(self.worst, time.monotonic() - begin)

    def end(self):
        self.is_over.set()
        for it in self.threads:
            it.join(PATIENCE)
        held(not self.wrong, f"the clients: {self.wrong}")


def main(starts=3, path=None):
    path = path or make(tempfile.mkdtemp(prefix="generations-"))
    with Farm(path) as farm:
        farm.begin()
        asking = Asking(farm.server.port)
        wait_until(lambda: farm.used_up() >= int(starts) or asking.wrong, int(starts) * PATIENCE, f"{starts} farms end with status {USED_UP}")
        asking.end()
        farm.stop()
        farm.account()
        print(f"{asking.answered} jobs had their result, {asking.worst:.1f} s at most; the farms ended with {farm.statuses}")


if __name__ == "__main__":
    if sys.argv[1:2] == ["-h"]:
        sys.exit(__doc__)
    main(*sys.argv[1:])
