"""A farm of two hosts that do jobs, to be brought to an edge."""

import contextlib
import itertools
import re
import socket
import time

from farm import HOST, TOTALS, Client, held, wait_until

from asking import ask_rightly
from page import Page
from starting import PATIENCE, drain, ports, untimed

HOSTS = ("north", "south")
WORKERS = 4
ROUND_MS = 50

# What each host does in a farm in which each has a function of its own.
OWN = {"north": "upper", "south": "reverse"}

# The name of a function that makes the status text unreadable: a line of it is the first part alone.
UNREADABLE = b"a name\nof two lines"

# An attempt is not to take longer on average, though it is made each 50 milliseconds where nothing else is to do.
SLOWEST_MS = 2000


def settings(server, others, job_timeout_ms=60_000, round_ms=ROUND_MS, host=HOST, workers=WORKERS):
    """The settings of a farm with so many workers at each of two hosts, and with these further machines, with its job server at this port of
    this host."""
    lines = ["version = 1", f'server = "{host}:{server}"', f"round_ms = {round_ms}", "lull_ms = 20"]
    lines += [f"job_timeout_ms = {job_timeout_ms}", "[functions.upper]"]
    for name, count in [*((name, workers) for name in HOSTS), *((name, 1) for name in others)]:
        lines.append(f'[machines.{name}]\nworkers = {count}\nfunctions = ["upper"]')
    return "\n".join([*lines, ""])


def settings_of_own(server, workers=WORKERS, least=1, **keys):
    """The settings of a farm in which each host has so many workers and a function of its own, which so many of them are to do at least.
    These keys are further ones of the top table, or have other values there."""
    keys = {"round_ms": ROUND_MS, "lull_ms": 20, **keys}
    lines = ["version = 1", f'server = "{HOST}:{server}"', *[f"{key} = {value}" for key, value in keys.items()]]
    for name, function in OWN.items():
        lines.append(f'[functions.{function}]\nleast = {least}\n[machines.{name}]\nworkers = {workers}\nfunctions = ["{function}"]')
    return "\n".join([*lines, ""])


def good_jobs(name, count, function="upper"):
    """So many jobs that can be done."""
    return [(function, f"{name}-{number}", b"a job") for number in range(count)]


def bad_jobs(name, count):
    """So many jobs whose data is no text. A line tells of each."""
    return [("upper", f"{name}-{number}", b"\xff") for number in range(count)]


class Edge:
    """A job server and two services, and a farm of theirs."""

    def __init__(self, program, processes, others=(), named=None):
        """The services are named by their address, or by these names."""
        self.program, self.processes = program, processes
        named = named or dict.fromkeys(HOSTS, HOST)
        self.server, page, *places = ports(2 + len(HOSTS))
        self.page = Page(page, PATIENCE)
        self.others = others
        self.places = dict(zip(HOSTS, places))
        self.gearmand = processes.start_server(self.server)
        self.services = {name: processes.start_service(name, port) for name, port in self.places.items()}
        self.write("settings", settings(self.server, others))
        urls = {**{name: f"{named[name]}:{port}" for name, port in self.places.items()}, **{name: f"{name}.invalid:80" for name in others}}
        lines = ["version = 1", f'[page]\nlisten = "{HOST}:{page}"']
        self.write("services", "\n".join([*lines, *[f'[machines.{name}]\nurl = "http://{url}/jobs"' for name, url in urls.items()], ""]))

    def write(self, name, text):
        with open(f"{self.processes.folder}/{name}.toml", "w") as it:
            it.write(text)

    def begin(self, *before, options=(), **streams):
        """Starts poolman, after these words of another program."""
        files = [f"{self.processes.folder}/{name}.toml" for name in ("settings", "services")]
        self.poolman = self.processes.start("poolman", *before, self.program, "serve", *files, *options, **streams)

    def start(self, *before, **how):
        """The same, and waits until it has a plan."""
        self.begin(*before, **how)
        wait_until(self.is_well, PATIENCE, "the farm has a plan")

    def is_well(self):
        held(self.poolman.poll() is None, f"poolman ended with status {self.poolman.returncode}")
        return self.page.is_well()

    def lines(self):
        """The whole lines of poolman so far, without their times."""
        text = self.processes.text("poolman.out")
        return untimed(text.splitlines()[: text.count("\n")])

    def metric(self, name):
        """A number of the page."""
        return int(re.search(rf"^{re.escape(name)} (\d+)$", self.page.text("/metrics"), re.MULTILINE)[1])

    def kill(self, name):
        """Kills a service, so that its connections are closed."""
        self.services[name].kill()
        self.services[name].wait()

    def bring_back(self, name):
        """Starts a service that was killed."""
        self.services[name] = self.processes.start_service(name, self.places[name])

    def restart(self, name):
        """Kills a service, and starts it again."""
        self.kill(name)
        self.bring_back(name)

    def restart_server(self):
        """Kills the job server, and starts it again: each connection to it has ended then."""
        self.gearmand.kill()
        self.gearmand.wait()
        self.gearmand = self.processes.start_server(self.server)

    def leave_unreadable_name(self):
        """Asks for a job after which the status text cannot be read."""
        with contextlib.closing(Client(self.server, PATIENCE)) as client:
            client.leave([(UNREADABLE, b"")])

    def causes(self, workers=r"\S+"):
        """The causes for which these workers ended, in order."""
        return [found[1] for line in self.lines() if (found := re.fullmatch(rf"ended {workers} (\S+)", line))]

    def news_of(self, name):
        """What lines have said of the answers of this host, in order."""
        return [line.split()[0] for line in self.lines() if re.fullmatch(rf"(un)?answered {name}( \d+)?", line)]

    def lost(self):
        """How many jobs were lost."""
        return sum(line.startswith("lost ") for line in self.lines())

    def joined(self):
        """How many workers joined."""
        return sum(line.startswith("joined ") for line in self.lines())

    def has_all_workers(self):
        return self.metric("poolman_alive_workers") == WORKERS * len(HOSTS)

    def server_says(self, command):
        """The lines that the job server answers to a text command."""
        with contextlib.closing(socket.create_connection((HOST, self.server), PATIENCE)) as admin, admin.makefile("rb") as said:
            admin.sendall(command + b"\n")
            return list(itertools.takewhile(lambda line: line != b".\n", said))

    def sessions(self):
        """How many workers of the farm have given their name to the job server."""
        return sum(b"#" in line for line in self.server_says(b"workers"))

    def holds_no_good_host_unreached(self):
        said = [line for line in self.lines() if line.startswith("unreached ") and line.split()[1] in HOSTS]
        held(not said, f"of hosts that do jobs it is said: {said}")

    def ask(self, jobs):
        ask_rightly(self.server, jobs, PATIENCE)

    def keeps_pace_while(self, call):
        """Makes a call, and one second's worth of attempts besides, which do not become slow."""
        begin, before = time.monotonic(), self.metric("poolman_attempts_total")
        call()
        wait_until(lambda: self.metric("poolman_attempts_total") >= before + 10, PATIENCE, "attempts are made")
        holds_pace(self.metric("poolman_attempts_total") - before, begin)

    def end(self, reported=None, exit_status=0):
        """Ends the farm by a drain, and holds it to how many jobs were reported, and to its exit status."""
        status, told, said = drain(self.program, self.processes.folder)
        held((status, said) == (0, ""), f"the drain: {status} {told} {said}")
        totals = next(filter(None, map(TOTALS.fullmatch, told.splitlines())), None)
        held(totals, f"a drain without totals: {told}")
        grabbed, running, did, lost = map(int, totals.groups()[:4])
        held(running == 0 and grabbed == did + lost, f"the totals do not account for each job: {totals[0]}")
        held(reported in (None, did), f"{did} jobs were reported, and {reported} answered")
        status = self.poolman.wait(PATIENCE)
        held(status == exit_status, f"poolman ended with status {status}")


def holds_pace(made, begin):
    """Holds that so many attempts since then did not take long."""
    took = 1000 * (time.monotonic() - begin)
    held(took <= made * SLOWEST_MS, f"{made} attempts took {took:.0f} milliseconds")
