"""Farms that take turns at a job server: handover.py PROGRAM FOLDER

tests/serve/run calls this. In the place of systemd this script starts and stops the instances of the template unit, as `systemctl` in
examples/systemd/poolman-handover asks it to. While clients ask for jobs, one after the other, that goes from a farm to one with other
settings: each job has to be answered, once and rightly, none may be lost, and none may wait for ten rounds. A farm whose files are refused,
or whose page is at an address that is taken, does not get ready, and the other goes on; but one that works already is handed over from. What
its processes write is in the folder.
"""

import contextlib
import os
import signal
import socket
import subprocess
import sys
import threading
import time

sys.dont_write_bytecode = True
TOP = os.path.join(os.path.dirname(os.path.abspath(__file__)), "../..")
sys.path[:0] = [f"{TOP}/tests/gearmand", f"{TOP}/tests/together"]

from farm import HOST, TOTALS, at_once, held, wait_until

import suite
from asking import ask_rightly
from edge import HOSTS, WORKERS, Edge, good_jobs, settings
from in_parts import count_or_try
from page import Page
from starting import PATIENCE, command_of_unit, ports, untimed

UNIT = "poolman-serve@"

# The default. A plan of the second farm gives its workers their functions within one.
ROUND_MS = 1000

CLIENTS = 4

# What systemd starts can be asked to end by these only if `env` blocks them.
BLOCKING = ("env", "--block-signal=TERM,INT", "true")

# Asks this script in the place of systemd.
SYSTEMCTL = """#!{python}
import socket, sys
with socket.socket(socket.AF_UNIX) as it:
    it.connect("{address}")
    it.sendall(" ".join(sys.argv[1:]).encode() + b"\\n")
    status, *state = it.makefile().readline().split()
    print(*state, end="")
    sys.exit(int(status))
"""


class Systemd:
    """Starts and stops the instances of the unit, each with its files in a folder of its own."""

    def __init__(self, program, processes):
        self.program, self.processes = program, processes
        self.running, self.ended, self.enabled = {}, [], set()
        address = f"{processes.folder}/systemd"
        self.listener = socket.socket(socket.AF_UNIX)
        self.listener.bind(address)
        self.listener.listen()
        os.mkdir(f"{processes.folder}/bin")
        with open(f"{processes.folder}/bin/systemctl", "w") as it:
            it.write(SYSTEMCTL.format(python=sys.executable, address=address))
        os.chmod(f"{processes.folder}/bin/systemctl", 0o755)
        threading.Thread(target=self.listen, daemon=True).start()

    def listen(self):
        while True:
            peer, _ = self.listener.accept()
            threading.Thread(target=self.answer, args=(peer,), daemon=True).start()

    def answer(self, peer):
        with contextlib.suppress(OSError), peer, peer.makefile("rw") as asked:
            verb, *_, unit = asked.readline().split()
            asked.write(f"{getattr(self, verb.replace('-', '_'))(unit.removeprefix(UNIT))}\n")

    def start(self, name):
        """Starts an instance, and waits until it is ready."""
        files = [f"{self.processes.folder}/{name}/{file}.toml" for file in ("settings", "services")]
        with socket.socket(socket.AF_UNIX, socket.SOCK_DGRAM) as manager:
            folder = f"{self.processes.folder}/{name}"
            # The address of a socket has 107 bytes at most.
            notify = f"{folder}/{len(os.listdir(folder))}"
            manager.bind(notify)
            manager.settimeout(0.1)
            environment = {**os.environ, "NOTIFY_SOCKET": notify}
            child = self.processes.start(f"poolman.{name}", *command_of_unit(UNIT, self.program, files), env=environment)
            self.running[name] = [child, False]
            while child.poll() is None:
                with contextlib.suppress(TimeoutError):
                    if manager.recv(4096) == b"READY=1":
                        self.running[name][1] = True
                        return 0
        return 1

    def stop(self, name):
        """Ends an instance by SIGTERM. One that does not end is killed."""
        child, _ = self.running[name]
        child.send_signal(signal.SIGTERM)
        with contextlib.suppress(subprocess.TimeoutExpired):
            child.wait(PATIENCE)
        child.kill()
        self.ended.append((name, child.wait()))
        del self.running[name]
        return 0

    def state(self, name):
        child, is_ready = self.running.get(name, (None, False))
        if child is None or child.poll() is not None:
            return "inactive"
        return "active" if is_ready else "activating"

    def is_active(self, name):
        """The status of `systemctl is-active`, and what it prints."""
        state = self.state(name)
        return f"{0 if state == 'active' else 3} {state}"

    def enable(self, name):
        self.enabled.add(name)
        return 0

    def disable(self, name):
        self.enabled.discard(name)
        return 0

    def active(self):
        return {name for name in self.running if self.state(name) == "active"}

    def handover(self, **seconds):
        """How the script ends, and what it says."""
        folder = self.processes.folder
        path = f"{folder}/bin:{os.path.dirname(self.program)}:{os.environ['PATH']}"
        environment = {**os.environ, "PATH": path, "POOLMAN_FOLDER": folder, "TOGETHER_SECONDS": "2", **seconds}
        script = f"{TOP}/examples/systemd/poolman-handover"
        done = subprocess.run([script], stdin=subprocess.DEVNULL, capture_output=True, text=True, env=environment, timeout=2 * PATIENCE)
        return done.returncode, done.stdout + done.stderr

    def lines(self, name):
        return untimed(self.processes.text(f"poolman.{name}.out").splitlines())


class Turns:
    """A job server, two services, and the files of two farms, the second of which has more workers."""

    def __init__(self, program, processes):
        self.edge = Edge(program, processes)
        self.systemd = Systemd(program, processes)
        self.folder = processes.folder
        services = processes.text("services.toml")
        self.pages = dict(zip("ab", ports(2)))
        for name, workers in (("a", WORKERS), ("b", WORKERS + 2)):
            os.mkdir(f"{self.folder}/{name}")
            self.write(name, "settings", settings(self.edge.server, (), round_ms=ROUND_MS, workers=workers))
            self.write(name, "services", services.replace(str(self.edge.page.port), str(self.pages[name])))

    def write(self, name, file, text):
        with open(f"{self.folder}/{name}/{file}.toml", "w") as it:
            it.write(text)

    def page(self, name):
        return Page(self.pages[name], PATIENCE)

    def is_handed_over(self, name, others):
        """Goes to a farm, and holds that the others have ended as by a drain."""
        said = self.systemd.handover()
        held(said == (0, f"poolman-handover: {name}\n"), f"the handover: {said}")
        held(self.systemd.active() == {name} == self.systemd.enabled, f"{self.systemd.active()} run, and {self.systemd.enabled} are enabled")
        held(self.systemd.ended == others, f"others ended so: {self.systemd.ended}")

    def stays(self, name, said, words):
        """A handover fails and says so, and this farm goes on."""
        held(said[0] == 1 and words in said[1], f"the handover: {said}")
        held(self.systemd.active() == {name} == self.systemd.enabled, f"{self.systemd.active()} run, and {self.systemd.enabled} are enabled")


def waits(server, name, is_over):
    """Asks for jobs, one after the other, until it is over. For how many seconds each waited."""
    found = []
    while not is_over.is_set():
        begin = time.monotonic()
        ask_rightly(server, good_jobs(f"{name}-{len(found)}", 1), PATIENCE)
        found.append(time.monotonic() - begin)
    return found


def a_handover_loses_no_job(program, processes):
    turns = Turns(program, processes)
    turns.is_handed_over("a", [])
    turns.page("a").wait_until_well()
    is_over, found = threading.Event(), []

    def hand_over():
        try:
            time.sleep(1)
            turns.is_handed_over("b", [("a", 0)])
            time.sleep(1)
        finally:
            is_over.set()

    clients = [lambda n=n: found.extend(waits(turns.edge.server, f"client-{n}", is_over)) for n in range(CLIENTS)]
    at_once([hand_over, *clients])
    totals = TOTALS.fullmatch(turns.systemd.lines("a")[-1])
    held(totals and totals[4] == "0" and totals[2] == "0", f"the first farm came to {turns.systemd.lines('a')[-1]}")
    print(f"{len(found)} jobs, of which one waited for {max(found):.3f} seconds")
    held(max(found) < 10 * ROUND_MS / 1000, f"a job waited for {max(found)} seconds")
    held(turns.page("b").is_well(), "the second farm is not well")


def a_farm_that_does_not_get_ready(program, processes):
    turns = Turns(program, processes)
    turns.is_handed_over("a", [])
    good = processes.text("b/services.toml")
    turns.write("b", "services", "version = 1\n")
    turns.stays("a", turns.systemd.handover(), "b is not started")
    turns.write("b", "services", good.replace(str(turns.pages["b"]), str(turns.pages["a"])))
    turns.stays("a", turns.systemd.handover(READY_SECONDS="3"), "b did not get ready, and is stopped")
    held("b" not in turns.systemd.running, "the second farm runs still")
    wait_until(lambda: turns.page("a").is_well(), PATIENCE, "the first farm is well")
    turns.write("b", "services", good)
    turns.is_handed_over("b", [*turns.systemd.ended, ("a", 0)])


def a_farm_without_its_page(program, processes):
    """The address of a farm's page is in use, so it works and does not get ready. A handover takes it for the farm that runs."""
    turns = Turns(program, processes)
    with socket.socket() as taken:
        taken.bind((HOST, turns.pages["a"]))
        taken.listen()
        threading.Thread(target=turns.systemd.start, args=("a",), daemon=True).start()
        wait_until(lambda: turns.systemd.state("a") == "activating", PATIENCE, "the first farm is started")
        wait_until(lambda: turns.edge.sessions() == len(HOSTS) * WORKERS, PATIENCE, "the job server knows its workers")
        held(turns.systemd.state("a") == "activating", f"the first farm is {turns.systemd.state('a')}")
        turns.is_handed_over("b", [("a", 0)])
        turns.edge.ask(good_jobs("after", CLIENTS))


PARTS = (a_handover_loses_no_job, a_farm_that_does_not_get_ready, a_farm_without_its_page)


if __name__ == "__main__":
    if sys.argv[1:] != ["count"] and subprocess.run(BLOCKING, capture_output=True).returncode:
        suite.skipped("serve", len(PARTS), "env --block-signal")
    else:
        count_or_try(PARTS, sys.argv[1:])
