"""What the page of a farm has to bear. Each part takes the program, and gives what it found in short."""

import contextlib
import os
import socket
import statistics
import subprocess
import tempfile
import threading
import time

from drips import Drips
from farm import HOST, Client, held, wait_until
from page import PLACES
from stage import PATIENCE, SECONDS, TOP, Stage

# For so many seconds a peer is served.
PEER_SECONDS = 10

# An address of this machine that is none of the loopback, in a network of its own.
FAR = "192.0.2.1"

# Attempts keep their pace if they are not slower than so much of it.
SLOWEST = 0.75

FUNCTIONS = ("count_words", "digest", "hold", "reverse", "sort_lines", "upper")


@contextlib.contextmanager
def small_farm(program, **more):
    """Two hosts that do all jobs of tests/serve, and are reached."""
    functions = {name: {"least": 1} for name in FUNCTIONS}
    with Stage(program, functions, {name: (8, FUNCTIONS) for name in ("north", "south")}, round_ms=100, **more) as stage:
        # No service holds a job.
        open(f"{stage.folder}/held", "x").close()
        for name in stage.machines:
            stage.start_service(name, f"{TOP}/tests/serve/service.py", f"{stage.folder}/held")
        stage.start()
        stage.page.wait_until_well()
        yield stage


def keeps_pace(usual, now, what):
    held(now >= SLOWEST * usual, f"{what}: {now:.1f} attempts a second, and {usual:.1f} without")


def bears(program, what, burdened):
    """A small farm keeps its pace under a burden, and is well after it. What is measured under the burden is its pace, as it is without."""
    with small_farm(program) as stage:
        usual = stage.pace(stage.ask)
        now = burdened(stage)
        keeps_pace(usual, now, what)
        stage.page.wait_until_well()
        stage.end()
        return f"{usual:.1f} attempts a second, and {now:.1f} with {what}"


def pace_in_a_crowd(stage):
    """The pace of attempts while jobs are answered, and 1,000 peers are connected, silent or in mid request."""
    with contextlib.ExitStack() as peers:
        for number in range(1000):
            peer = peers.enter_context(socket.create_connection((HOST, stage.page.port), PATIENCE))
            with contextlib.suppress(OSError):
                peer.sendall(b"GET / HTTP/1.1\r\nhost: " * (number % 2))
        return stage.pace(stage.ask)


def crowd(program):
    """1,000 connections at once: attempts keep their pace, and the page is back when they leave."""
    return bears(program, "1,000 connections", pace_in_a_crowd)


def broken(program):
    """What is no request, again and again: attempts keep their pace, and nothing drains the farm."""
    return bears(program, "broken requests", lambda stage: stage.pace(stage.page.refuse_broken))


def near_drips(program):
    """Three clients of this machine for each place, which drip a byte a second and come again when they are cut off: a drain gets in."""
    with small_farm(program) as stage:
        drips = Drips(HOST, stage.page.port, 3 * PLACES, again=True)
        wait_until(lambda: drips.lost >= 5 * PLACES, PATIENCE, "clients are cut off, and come again")
        took = stage.end()
        lost = drips.lost
        drips.stop()
        held(took < 5, f"the drain took {took:.1f} seconds")
        return f"{lost} were cut off, a drain after {took:.1f} seconds"


def far_drips(program):
    """As many clients from elsewhere, who come again when they are cut off: attempts keep their pace, and a drain has a place of its own."""
    for words in (["link", "set", "lo", "up"], ["address", "add", f"{FAR}/32", "dev", "lo"]):
        subprocess.run(["ip", *words], check=True)
    with small_farm(program, listen="0.0.0.0") as stage:
        usual = stage.pace(stage.ask)
        drips = Drips(FAR, stage.page.port, PLACES, again=True)
        dripping = stage.pace(stage.ask)
        keeps_pace(usual, dripping, "clients that drip")
        wait_until(lambda: drips.cut >= PLACES - 1, 3 * PEER_SECONDS, "each client that had a place was cut off")
        took = stage.end()
        cut = drips.cut
        drips.stop()
        held(took < 5, f"the drain took {took:.1f} seconds")
        return f"{cut} were cut off, a drain after {took:.1f} seconds; {usual:.1f} attempts a second, and {dripping:.1f}"


def formats(program):
    """Names with all that means something in one of the formats: promtool takes the metrics, and curl gets each text."""
    names = ('a"b', "c\\d", "<e>&'f'", "g{h}=i", "%j;k")
    with Stage(program, {name: {} for name in names}, {name: (1, names) for name in ('n"o', "p\\q<&>")}, round_ms=100) as stage:
        stage.start()
        wait_until(lambda: stage.page.ask("GET", "/report")[0] == 200, PATIENCE, "there is a report")
        for path in ("", "?still", "metrics", "evidence", "report", "status.txt", "lost"):
            words = ["curl", "--fail", "--silent", "--show-error", f"http://{HOST}:{stage.page.port}/{path}"]
            said = subprocess.run(words, capture_output=True, timeout=PATIENCE, check=True).stdout
            held(said, f"/{path} is empty")
            if path == "metrics":
                done = subprocess.run(["promtool", "check", "metrics"], input=said, capture_output=True, timeout=PATIENCE)
                held(done.returncode == 0, f"promtool: {done.stdout + done.stderr}")
        stage.end()
        return "promtool and curl are content"


class Mute:
    """Takes connections and requests at a port, and never answers."""

    def __init__(self, port):
        self.listener = socket.create_server((HOST, port), backlog=4096)
        self.peers = []
        threading.Thread(target=self.accept, daemon=True).start()

    def accept(self):
        while True:
            self.peers.append(self.listener.accept()[0])


def has_workers(page, count):
    """Whether so many workers are alive. Such a page is not asked for more often than a few times a second."""
    time.sleep(0.2)
    return f"\npoolman_alive_workers {count}\n" in page.text("/metrics")


def times_of(stage):
    """The processor seconds of an attempt, and those of a page."""
    start, before = stage.processor(), stage.attempts()
    time.sleep(SECONDS)
    attempt = (stage.processor() - start) / (stage.attempts() - before)
    start, before, pages = stage.processor(), stage.attempts(), 0
    end = time.monotonic() + SECONDS
    while time.monotonic() < end:
        stage.page.text("/")
        pages += 1
    return attempt, (stage.processor() - start - attempt * (stage.attempts() - before)) / pages


def large(program):
    """1,024 functions, 256 hosts and 4,096 workers: the page is below 1 MiB, and is made and sent in less processor time than an attempt takes."""
    # With longer ones the settings would be above 16 MiB.
    functions = {f"{'<' * 54}{number:04}": {} for number in range(1024)}
    machines = {f"{'&' * 61}{number:03}": (16, [*functions]) for number in range(256)}
    with Stage(program, functions, machines, round_ms=1, job_timeout_ms=4294967295) as stage:
        # All hosts are one.
        stage.places = dict.fromkeys(machines, next(iter(stage.places.values())))
        Mute(next(iter(stage.places.values())))
        client = Client(stage.server.port)
        client.leave([(name.encode(), b"x") for name in functions for _ in range(8)])
        client.close()
        stage.start()
        # It is late by its own measure, three pauses of a millisecond.
        wait_until(lambda: has_workers(stage.page, 4096), PATIENCE, "all workers are alive")
        size = len(stage.page.text("/").encode())
        held(size < 1 << 20, f"the page has {size} bytes")
        attempt, page = times_of(stage)
        held(page < attempt, f"the page takes {page * 1000:.0f} ms, and an attempt {attempt * 1000:.0f}")
        return f"{size:,} bytes in {page * 1000:.0f} ms of processor time, an attempt in {attempt * 1000:.0f} ms"


class Reader:
    """Reads a page so many times a second while it is entered."""

    def __init__(self, page, rate):
        self.page, self.rate = page, rate
        self.done, self.count, self.wrong = threading.Event(), 0, []

    def __enter__(self):
        self.thread = threading.Thread(target=self.read, daemon=True)
        self.thread.start()
        return self

    def __exit__(self, *_):
        self.done.set()
        self.thread.join(PATIENCE)
        held(not self.wrong, f"the page could not be read: {self.wrong}")

    def read(self):
        due = time.monotonic()
        try:
            while not self.done.wait(max(0, due - time.monotonic())):
                self.page.text("/")
                self.count += 1
                due += 1 / self.rate
        except (OSError, AssertionError) as error:
            self.wrong.append(error)


def build(folder):
    """The client and the service in C."""
    for name, source in (("client", "gearmand/client.c"), ("service", "exchanges/service.c")):
        words = ["gcc", "-O2", "-D_GNU_SOURCE", "-o", f"{folder}/{name}", f"{TOP}/bench/{source}"]
        subprocess.run(words, check=True)


def rate(folder, stage, jobs):
    """Jobs a second, of so many."""
    words = [f"{folder}/client", str(stage.server.port), str(jobs), "1000"]
    return float(subprocess.run(words, capture_output=True, text=True, timeout=PATIENCE, check=True).stdout.split()[0])


def speed(program):
    """Jobs a second of two workers while the page is read 20 times a second, and while it is not, by turns: the medians of seven turns."""
    jobs, turns, found = 200_000, 7, {"alone": [], "read": []}
    machines = {name: (1, ["echo"]) for name in ("north", "south")}
    with tempfile.TemporaryDirectory() as folder, Stage(program, {"echo": {}}, machines, round_ms=100) as stage:
        build(folder)
        for name in stage.machines:
            service = subprocess.Popen([f"{folder}/service"], stdin=subprocess.DEVNULL, stdout=subprocess.PIPE, text=True)
            stage.processes.all.append(service)
            stage.places[name] = int(service.stdout.readline())
        stage.start()
        stage.page.wait_until_well()
        rate(folder, stage, 2000)
        for turn in range(turns):
            for how in [*found][:: 1 if turn % 2 == 0 else -1]:
                with Reader(stage.page, 20) if how == "read" else contextlib.nullcontext():
                    found[how].append(rate(folder, stage, jobs))
        stage.end()
    alone, read = (statistics.median(found[how]) for how in ("alone", "read"))
    change = 100 * (read / alone - 1)
    said = f"{alone:,.0f} jobs a second, {read:,.0f} while the page is read: {change:+.1f} %, under load {os.getloadavg()[0]:.1f}"
    held(change > -3, said)
    return said


# Parts that want a network of their own, and so root.
APART = {far_drips}

# Each part with its limit in seconds.
PARTS = {crowd: 120, broken: 120, near_drips: 120, far_drips: 180, formats: 60, large: 180, speed: 240}
