"""A farm whose page says how many workers are missing: sized.py PROGRAM FOLDER

tests/serve/run calls this. Jobs come, wait while their host is down, and are done once it is back. At each attempt that is seen, the size of
its evidence is shown by `poolman check-size`. What its processes write is in the folder.
"""

import contextlib
import html
import os
import re
import signal
import subprocess
import sys

sys.dont_write_bytecode = True
TOP = os.path.join(os.path.dirname(os.path.abspath(__file__)), "../..")
sys.path[:0] = [f"{TOP}/tests/gearmand", f"{TOP}/tests/together"]

from farm import Client, held, wait_until

from edge import WORKERS, Edge, settings_of_own
from in_parts import count_or_try
from starting import PATIENCE

GROW = f"{TOP}/examples/size/grow.py"

# So many jobs may wait for each worker of a function.
BACKLOG = 2

# An evidence of a round with a plan: its attempt, the lost workers, the status text, and the size.
EVIDENCE = re.compile(rb"attempt (\d+)\nlost([^\n]*)\nstatus\n(.*?^\.\n)report\n.*?^end\n(?:relaxed settings\n.*)?size\n(.*)", re.DOTALL | re.MULTILINE)


class Sized:
    """A farm that wants a backlog, in which each host has a function of its own."""

    def __init__(self, program, processes):
        self.edge = Edge(program, processes)
        self.folder, self.seen, self.settings = processes.folder, set(), "settings"
        self.edge.write("settings", settings_of_own(self.edge.server, least=0))
        with open(f"{self.folder}/services.toml") as it:
            text = it.read()
        self.edge.write("services", text.replace("[page]\n", f"[page]\nbacklog = {BACKLOG}\n"))

    def look(self):
        """Holds that the size of the last round is shown, and gives its text."""
        found = EVIDENCE.fullmatch(self.edge.page.ask("GET", "/evidence")[2])
        held(found, "the evidence has no size")
        attempt, lost, status, size = found.groups()
        with open(f"{self.folder}/status.txt", "wb") as it:
            it.write(status)
        words = [self.edge.program, "check-size", f"{self.folder}/{self.settings}.toml", f"{self.folder}/status.txt", str(BACKLOG)]
        told = subprocess.run([*words, *lost.decode().split()], input=size, capture_output=True, timeout=PATIENCE)
        held(told.stdout == b"shown\n", f"the size of attempt {int(attempt)}: {told.stdout} {told.stderr}")
        self.seen.add(int(attempt))
        return size.decode()

    def looks_until(self, is_so, what):
        """Looks again and again until a size is so."""
        wait_until(lambda: is_so(self.look()), PATIENCE, what)

    def grow(self, **environment):
        """Starts the script of the example."""
        files = [f"{self.folder}/{name}.toml" for name in ("settings", "services", "grown")]
        path = f"{os.path.dirname(self.edge.program)}:{os.environ['PATH']}"
        return self.edge.processes.start("grow", sys.executable, GROW, *files, env={**os.environ, "PATH": path, **environment})

    def grow_in_vain(self):
        """The same, where the second farm ends at once: the first goes on."""
        os.mkdir(f"{self.folder}/bin")
        with open(f"{self.folder}/bin/poolman", "w") as it:
            it.write(f'#!/bin/sh\n[ "$1" != serve ] || exit 3\nexec {self.edge.program} "$@"\n')
        os.chmod(f"{self.folder}/bin/poolman", 0o755)
        grow = self.grow(PATH=f"{self.folder}/bin:{os.environ['PATH']}", TOGETHER_SECONDS="1")
        held(grow.wait(PATIENCE) == 1, "grow.py did not fail")
        said = self.edge.processes.text("grow.err")
        held(said == "grow: the second farm ended with status 3, and the first goes on\n", f"grow.py said {said}")
        held(self.edge.is_well(), "the first farm is not well")

    def missing(self, host):
        text = self.edge.page.text("/metrics")
        found = re.search(rf'^poolman_missing_workers{{host="{host}"}} (\d+)$', text, re.MULTILINE)
        return found and int(found[1])


def each_size_is_shown(program, processes):
    """Twenty jobs wait for a host that is down, and the size names that host; the page says so. Once it is back nothing is missing."""
    sized = Sized(program, processes)
    edge = sized.edge
    edge.start()
    sized.looks_until(lambda size: "\nadd 0\n" in size, "nothing is missing")
    edge.kill("south")
    wait_until(lambda: edge.metric('poolman_host_reached{host="south"}') == 0, PATIENCE, "the host is not reached")
    with contextlib.closing(Client(edge.server, PATIENCE)) as client:
        client.leave([(b"reverse", b"%d" % number) for number in range(20)])
    sized.looks_until(lambda size: "\non south " in size, "workers are missing on the host")
    wait_until(lambda: sized.missing("south"), PATIENCE, "the metrics have them")
    held(sized.missing("north") == 0, "workers are missing on the other host")
    held(edge.metric("poolman_size_found") == 1, "no addition helps")
    said = "Workers are missing on a host that is not reached: add none there"
    wait_until(lambda: said in html.unescape(edge.page.text("/")), PATIENCE, "the page says so")
    held(sized.grow().wait(PATIENCE) == 0, f"grow.py failed: {processes.text('grow.err')}")
    held(processes.text("grow.out") == "leave south: its host is not reached\nadd 0\n", f"grow.py said {processes.text('grow.out')}")
    held(not os.path.exists(f"{sized.folder}/grown.toml"), "settings were written")
    edge.bring_back("south")
    sized.looks_until(lambda size: "\nadd 0\n" in size, "nothing is missing again")
    status, headers, body = edge.page.ask("GET", "/size")
    held(status == 200 and body.startswith(b"size 1\nlevel %d\n" % BACKLOG), f"/size answers {status} {body[:40]}")
    held(len(sized.seen) >= 2, f"only these attempts were seen: {sized.seen}")
    edge.end(20)


def what_is_missing_is_added(program, processes):
    """A service is slow, so that more jobs wait for its workers than are wanted. The example's script adds the workers that are missing: a
    second farm takes over, and nothing is missing then. If the second ends at once, the first goes on."""
    sized = Sized(program, processes)
    edge = sized.edge
    edge.start()
    wait_until(lambda: edge.sessions() == 2 * WORKERS, PATIENCE, "the job server knows all workers")
    edge.services["north"].send_signal(signal.SIGSTOP)
    with contextlib.closing(Client(edge.server, PATIENCE)) as client:
        client.leave([(b"upper", b"%d" % number) for number in range(20)])
    sized.looks_until(lambda size: "\nadd 4\non north 4\n" in size, "four workers are missing")
    sized.grow_in_vain()
    grow = sized.grow()
    # The workers of the first farm that have no job end.
    wait_until(lambda: edge.sessions() == WORKERS + 2 * WORKERS + WORKERS, PATIENCE, "the second farm has its workers")
    edge.services["north"].send_signal(signal.SIGCONT)
    held(grow.wait(PATIENCE) == 0, f"grow.py failed: {processes.text('grow.err')}")
    said = processes.text("grow.out")
    second = re.search(r"^serves (\d+)$", said, re.MULTILINE)
    try:
        held(said.startswith("add 4 to north\n") and second, f"grow.py said {said}")
        held(edge.poolman.wait(PATIENCE) == 0, "the first farm ended badly")
        wait_until(edge.page.is_well, PATIENCE, "the second farm has the page")
        sized.settings = "grown"
        sized.looks_until(lambda size: "\nadd 0\n" in size, "nothing is missing")
        wait_until(lambda: sized.missing("north") == 0, PATIENCE, "the metrics say so")
        drained = subprocess.run([program, "drain", f"{sized.folder}/services.toml"], capture_output=True, timeout=PATIENCE)
        held(drained.returncode == 0, f"the drain of the second farm: {drained.stderr}")
    finally:
        if second:
            with contextlib.suppress(ProcessLookupError):
                os.kill(int(second[1]), signal.SIGKILL)


def a_farm_without_a_backlog_has_no_size(program, processes):
    """Without the key there is nothing at its path, and no sample."""
    edge = Edge(program, processes)
    edge.start()
    held(edge.page.ask("GET", "/size")[0] == 404, "/size is there")
    held(b"\nsize\n" not in edge.page.ask("GET", "/evidence")[2], "the evidence has a size")
    held("poolman_size_found" not in edge.page.text("/metrics"), "the metrics have a size")
    edge.end(0)


PARTS = (each_size_is_shown, what_is_missing_is_added, a_farm_without_a_backlog_has_no_size)

if __name__ == "__main__":
    count_or_try(PARTS, sys.argv[1:])
