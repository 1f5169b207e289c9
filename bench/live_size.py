#!/usr/bin/env python3
"""A farm of three machines under a load that rises and falls: live_size.py PROGRAM [MINUTES]

Wants Debian's gearman-job-server. Each of three hosts has three workers, who may do two of three functions, and each job takes 0.2 seconds.
Jobs are asked for, up to twice as many as all workers can do, and none for a while, over and over in 90 seconds; each function is a
twelfth of that after the one before. An attempt is made each second, for 10 minutes if nothing else is said. At each attempt
`/evidence` and `/size` are taken: `poolman check-size` has to find the size of the evidence shown, and `/size` has to be the same text, if
no attempt came between. One function has a `most`, so that no addition helps at times. Prints how many attempts there were and how many
were looked at, and how many workers were missing. The first size that is not shown ends it with status 1.
"""
import contextlib
import http.server
import math
import os
import re
import subprocess
import sys
import tempfile
import threading
import time

sys.dont_write_bytecode = True
TOP = os.path.join(os.path.dirname(os.path.abspath(__file__)), "..")
sys.path[:0] = [f"{TOP}/tests/gearmand", f"{TOP}/tests/together", f"{TOP}/tests/serve"]

from farm import HOST, Client, at_once, held, wait_until

from page import Page
from sized import EVIDENCE
from starting import PATIENCE, Processes, drain, ports

MAY = {"north": ("upper", "reverse"), "south": ("reverse", "count"), "east": ("count", "upper")}
FUNCTIONS = ("upper", "reverse", "count")
WORKERS, BACKLOG, MOST = 3, 5, 50
JOB_S, WAVE_S, STEP_S = 0.2, 90, 0.25
# The most jobs of a function in a second.
PEAK = 2 * len(MAY) * WORKERS / JOB_S / len(FUNCTIONS)


class Slow(http.server.BaseHTTPRequestHandler):
    """A service whose jobs take their time."""

    protocol_version = "HTTP/1.1"
    wbufsize = -1

    def do_POST(self):
        data = self.rfile.read(int(self.headers.get("content-length", 0)))
        time.sleep(JOB_S)
        self.send_response(200)
        self.send_header("content-length", str(len(data)))
        self.end_headers()
        self.wfile.write(data)

    def log_message(self, *_):
        """No lines."""


def serve_at(port):
    service = http.server.ThreadingHTTPServer((HOST, port), Slow)
    service.daemon_threads = True
    threading.Thread(target=service.serve_forever, daemon=True).start()


def settings_text(server):
    lines = ["version = 2", f'server = "{HOST}:{server}"', "round_ms = 1000", "lull_ms = 20"]
    lines += [f"[functions.{name}]" for name in FUNCTIONS]
    lines.append(f"most = {MOST}")
    for name, may in MAY.items():
        listed = ", ".join(f'"{function}"' for function in may)
        lines.append(f"[machines.{name}]\nworkers = {WORKERS}\nfunctions = [{listed}]")
    return "\n".join([*lines, ""])


def services_text(page, places):
    lines = ["version = 1", f'[page]\nlisten = "{HOST}:{page}"\nbacklog = {BACKLOG}']
    lines += [f'[machines.{name}]\nurl = "http://{HOST}:{port}/jobs"' for name, port in zip(MAY, places)]
    return "\n".join([*lines, ""])


class Watched:
    """The farm, and what was seen of it."""

    def __init__(self, program, processes, seconds):
        self.program, self.processes, self.folder = program, processes, processes.folder
        self.server, page, *places = ports(2 + len(MAY))
        self.page = Page(page, PATIENCE)
        for name, text in ("settings", settings_text(self.server)), ("services", services_text(page, places)):
            with open(f"{self.folder}/{name}.toml", "w") as it:
                it.write(text)
        for port in places:
            serve_at(port)
        processes.start_server(self.server)
        files = [f"{self.folder}/{name}.toml" for name in ("settings", "services")]
        self.poolman = processes.start("poolman", program, "serve", *files)
        self.sizes, self.alone, self.asked = {}, 0, 0
        self.end = time.monotonic() + seconds

    def is_well(self):
        held(self.poolman.poll() is None, f"poolman ended: {self.processes.text('poolman.err')}")
        return self.page.is_well()

    def is_over(self):
        return time.monotonic() >= self.end

    def load(self):
        """Asks for jobs until the time is over, and for none in the last wave."""
        begin, owed = time.monotonic(), dict.fromkeys(FUNCTIONS, 0.0)
        with contextlib.closing(Client(self.server, PATIENCE)) as client:
            while not self.is_over():
                moment = (time.monotonic() - begin) / WAVE_S
                jobs = []
                for number, name in enumerate(FUNCTIONS):
                    owed[name] += max(0, math.sin(2 * math.pi * (moment - number / 12))) * PEAK * STEP_S
                    jobs += [(name.encode(), b"a job")] * int(owed[name])
                    owed[name] %= 1
                client.leave(jobs)
                self.asked += len(jobs)
                time.sleep(STEP_S)

    def look(self):
        """Looks at each attempt until the time is over."""
        while not self.is_over():
            evidence = self.page.ask("GET", "/evidence")
            found = EVIDENCE.fullmatch(evidence[2])
            if found and int(found[1]) not in self.sizes:
                self.check(*found.groups(), self.page.ask("GET", "/size"))
            time.sleep(0.1)

    def check(self, attempt, lost, status, size, alone):
        """Holds that the size of an attempt is shown. `alone` is what `/size` answered, which may be of the next attempt."""
        if int(alone[1]["poolman-attempt"]) == int(attempt):
            held((alone[0], alone[2]) == (200, size), f"/size of attempt {int(attempt)} is another than that of its evidence")
            self.alone += 1
        with open(f"{self.folder}/status.txt", "wb") as it:
            it.write(status)
        words = [self.program, "check-size", f"{self.folder}/settings.toml", f"{self.folder}/status.txt", str(BACKLOG)]
        told = subprocess.run([*words, *lost.decode().split()], input=size, capture_output=True, timeout=PATIENCE)
        held(told.stdout == b"shown\n", f"the size of attempt {int(attempt)}: {told.stdout} {told.stderr}")
        self.sizes[int(attempt)] = size.decode()

    def tell(self):
        """What was seen."""
        first, last = min(self.sizes), max(self.sizes)
        added = [int(found[1]) for size in self.sizes.values() if (found := re.search(r"^add (\d+)$", size, re.M))]
        others = len(self.sizes) - len(added)
        by_host = [max((int(found[1]) for size in self.sizes.values() if (found := re.search(rf"^on {name} (\d+)$", size, re.M))), default=0) for name in MAY]
        print(f"{len(self.sizes)} of {last - first + 1} attempts were looked at, {self.alone} by /size too, and each size is shown")
        print(f"{len(added)} add from {min(added)} to {max(added)} workers, {added.count(0)} of them none; {others} say that no addition helps")
        print(f"the most on one host: {', '.join(f'{number} on {name}' for name, number in zip(MAY, by_host))}")
        print(f"{len(set(self.sizes.values()))} sizes differ; {self.asked} jobs were asked for; load at the end {os.getloadavg()[0]:.1f}")


def main(program, minutes="10"):
    with tempfile.TemporaryDirectory(prefix="live-size-") as folder, Processes(folder) as processes:
        watched = Watched(os.path.abspath(program), processes, 60 * float(minutes))
        wait_until(watched.is_well, PATIENCE, "the farm has a plan")
        at_once([watched.load, watched.look])
        status, told, said = drain(watched.program, folder)
        held((status, said) == (0, ""), f"the drain: {status} {told} {said}")
        watched.tell()


if __name__ == "__main__":
    if len(sys.argv) < 2:
        sys.exit(__doc__)
    main(*sys.argv[1:])
