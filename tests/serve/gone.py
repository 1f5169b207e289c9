"""Farms whose peers are there and do nothing, or are gone: gone.py PROGRAM FOLDER

tests/serve/run calls this. A farm has two hosts that do jobs. Its job server is stopped just before workers ask for their next job, or calls
one of them without end; a host loses its network while it does a job, and another one reads a great job late; a service has fewer threads
than workers. Ten times the time that it takes tells what comes late from what does not come. What its processes write is in the folder.
"""

import contextlib
import glob
import http.server
import itertools
import os
import re
import signal
import socket
import struct
import subprocess
import sys
import threading
import time

sys.dont_write_bytecode = True
TOP = os.path.join(os.path.dirname(os.path.abspath(__file__)), "../..")
sys.path[:0] = [f"{TOP}/tests/gearmand", f"{TOP}/tests/together"]

from farm import HOST, JOB_CREATED, SUBMIT_JOB, WORK_COMPLETE, Client, held, request, wait_until

import service
from alone import alone, count_or_try, raise_loopback
from edge import HOSTS, OWN, WORKERS, Edge, good_jobs, settings, settings_of_own
from noisy_way import NoisyWay
from starting import PATIENCE, ports

# A job server that owes an answer for ten seconds is gone, and so is a host that acknowledges nothing for 13. These are ten times as long.
SERVER_PATIENCE, HOST_PATIENCE = 100, 130

# A service that reads its job after so many seconds was there all the time: longer than it takes to find that one is gone.
LATE_S = 20

# So many bytes are more than the system takes for a service that does not read.
GREAT = 16_000_000

# The address of the farm, and that of a host in another network.
NEAR, AWAY = "10.9.0.1", "10.9.0.2"


def submit(client, jobs):
    """Asks for jobs, and waits for no answer."""
    for function, unique, data in jobs:
        client.socket.sendall(request(SUBMIT_JOB, function.encode(), unique.encode(), data))


def answers(client, count):
    """The results of so many jobs, in the order in which they come."""
    results = []
    while len(results) < count:
        kind, body = client.packet()
        held(kind in (JOB_CREATED, WORK_COMPLETE), f"a packet of kind {kind}: {body[:100]!r}")
        if kind == WORK_COMPLETE:
            results.append(body.partition(b"\0")[2])
    return results


def running(edge):
    """How many jobs the job server has given away."""
    return sum(int(line.split(b"\t")[2]) for line in edge.server_says(b"status"))


def unheard(edge):
    """The jobs that first workers had last which ended since they heard nothing."""
    ends = (re.fullmatch(r"ended \S+#1 ReadFault after \S+ (stopped-\d) upper", line) for line in edge.lines())
    return [end[1] for end in ends if end]


def is_stopped(child):
    """Whether each thread of a process stands still."""
    for name in glob.glob(f"/proc/{child.pid}/task/*/stat"):
        with open(name) as it:
            if it.read().rpartition(") ")[2][0] != "T":
                return False
    return True


def stop(child):
    """Stops a process, and waits until none of its threads runs any more."""
    child.send_signal(signal.SIGSTOP)
    wait_until(lambda: is_stopped(child), PATIENCE, "a process is stopped")


def a_server_is_stopped(program, processes):
    """The job server is stopped while each worker has a job. The answers are written, and nothing comes for the next requests: each worker
    ends, and its line names the job that it had. The farm dials again. Once the server goes on, each job is answered, and so are others."""
    edge, everyone = Edge(program, processes), WORKERS * len(HOSTS)
    edge.start()
    wait_until(lambda: edge.sessions() == everyone, PATIENCE, "the job server knows all workers")
    with contextlib.closing(Client(edge.server, PATIENCE)) as client:
        for child in edge.services.values():
            stop(child)
        submit(client, good_jobs("stopped", everyone))
        wait_until(lambda: running(edge) == everyone, PATIENCE, "each worker has a job")
        stop(edge.gearmand)
        for child in edge.services.values():
            child.send_signal(signal.SIGCONT)
        wait_until(lambda: len(unheard(edge)) == everyone, SERVER_PATIENCE, "the workers of a silent server end")
        wait_until(lambda: edge.joined() > everyone, PATIENCE, "the farm dials again")
        edge.gearmand.send_signal(signal.SIGCONT)
        held(answers(client, everyone) == [b"A JOB"] * everyone, "the jobs are answered")
    held(len(set(unheard(edge))) == everyone, f"these jobs are named: {unheard(edge)}")
    edge.ask(good_jobs("after", 50))
    edge.end()
    edge.holds_no_good_host_unreached()


def a_server_calls_without_end(program, processes):
    """A worker asks for a job, and the job server calls it on and on. The others do jobs, and a drain ends the farm."""
    edge = Edge(program, processes)
    port = ports(1)[0]
    way = NoisyWay(port, edge.server)
    # So long no read of the worker is without a call.
    edge.write("settings", settings(port, ()).replace("lull_ms = 20", "lull_ms = 500"))
    edge.start()
    wait_until(way.is_calling.is_set, PATIENCE, "a worker is called")
    edge.ask(good_jobs("beside", 50))
    edge.end(50)
    held(set(edge.causes()) == {"Stopped"}, f"workers ended so: {edge.causes()}")


class LateReader:
    """A service at this port that reads each request late, and answers how long its body was."""

    def __init__(self, port):
        self.listener = socket.create_server((HOST, port), backlog=64)
        threading.Thread(target=self.accept, daemon=True).start()

    def accept(self):
        while True:
            peer, _ = self.listener.accept()
            threading.Thread(target=self.serve, args=(peer,), daemon=True).start()

    def serve(self, peer):
        with contextlib.suppress(OSError), peer, peer.makefile("rb") as said:
            while peer.recv(1, socket.MSG_PEEK):
                time.sleep(LATE_S)
                head = b"".join(itertools.takewhile(bytes.strip, said))
                size = int(re.search(rb"\r\ncontent-length: (\d+)", head)[1])
                read = b"%d" % len(said.read(size))
                peer.sendall(b"HTTP/1.1 200 OK\r\ncontent-length: %d\r\n\r\n%s" % (len(read), read))


class Away:
    """A network beside this one, with the loopback of its own, to which a wire leads."""

    def __init__(self, processes):
        raise_loopback()
        keeper = processes.start("away", "unshare", "--net", "sleep", "infinity")
        own = os.readlink("/proc/self/ns/net")
        wait_until(lambda: os.readlink(f"/proc/{keeper.pid}/ns/net") != own, PATIENCE, "there is another network")
        self.inside = ("nsenter", "--target", str(keeper.pid), "--net")
        self.ip("link add near type veth peer name far")
        self.ip(f"link set far netns {keeper.pid}")
        self.ip(f"address add {NEAR}/24 dev near")
        self.ip("link set near up")
        self.ip(f"address add {AWAY}/24 dev far", *self.inside)
        self.ip("link set far up", *self.inside)

    def ip(self, words, *of):
        subprocess.run([*of, "ip", *words.split()], stdin=subprocess.DEVNULL, check=True)

    def has_all(self):
        """Whether all that was sent there is acknowledged."""
        address = "%08X" % struct.unpack("<I", socket.inet_aton(AWAY))
        with open("/proc/net/tcp") as table:
            links = [line.split() for line in table if f" {address}:" in line]
        return all(link[4].startswith("00000000:") for link in links)

    def cut(self):
        """Nothing comes back any more."""
        self.ip(f"address delete {AWAY}/24 dev far", *self.inside)


# Takes connections, says what comes over them, and answers nothing.
SILENT = f"""
import socket, sys, threading
def hear(peer):
    while piece := peer.recv(65536):
        print(piece, flush=True)
listener = socket.create_server(("{AWAY}", int(sys.argv[1])), backlog=64)
print("ready", flush=True)
while True:
    threading.Thread(target=hear, args=(listener.accept()[0],), daemon=True).start()
"""


def beside_a_host_that_goes(program, processes):
    """In networks of their own: south does a job for long, and its wire is cut. The job is given back long before its deadline. Meanwhile
    north reads a great job late, and it is done."""
    away = Away(processes)
    edge = Edge(program, processes)
    for name in HOSTS:
        edge.kill(name)
    LateReader(edge.places["north"])
    processes.start("silent", *away.inside, sys.executable, "-c", SILENT, str(edge.places["south"]))
    wait_until(lambda: "ready" in processes.text("silent.out"), PATIENCE, "the host listens")
    edge.write("settings", settings_of_own(edge.server, least=0, job_timeout_ms=3_600_000))
    services = processes.text("services.toml").replace(f"{HOST}:{edge.places['south']}", f"{AWAY}:{edge.places['south']}")
    edge.write("services", services)
    edge.start()
    wait_until(edge.has_all_workers, PATIENCE, "all workers are there")
    with contextlib.closing(Client(edge.server, HOST_PATIENCE)) as client:
        submit(client, [(OWN["south"], "gone", b"a job"), (OWN["north"], "late", GREAT * b"a")])
        wait_until(lambda: "POST" in processes.text("silent.out") and away.has_all(), PATIENCE, "the host has the job")
        wait_until(lambda: running(edge) == 2, PATIENCE, "both jobs are given to workers")
        away.cut()
        wait_until(edge.lost, HOST_PATIENCE, "the job of a host that is gone is given back")
        held(answers(client, 1) == [b"%d" % GREAT], "the great job is done")
    lost = [line for line in edge.lines() if line.startswith("lost ")]
    held(all(" gone reverse south/" in line for line in lost), f"these jobs were lost: {lost}")
    held(all("deadline" not in line for line in lost), f"it was lost so: {lost}")
    edge.end(1)


def a_host_is_gone(program, processes):
    """A host that is cut off by the wire is found to be gone, and one that reads late is not."""
    alone(beside_a_host_that_goes, program, processes)


def a_service_has_too_few_threads(program, processes):
    """One thread does all jobs of north, those of one connection after the other. So jobs over the other connections wait for their first
    answers while it is idle, which a line says; and another one that a job was answered."""
    edge = Edge(program, processes)
    edge.kill("north")
    service_of_one = http.server.HTTPServer((HOST, edge.places["north"]), service.services.Exchanges)
    threading.Thread(target=service_of_one.serve_forever, daemon=True).start()
    edge.write("settings", settings_of_own(edge.server, least=0, job_timeout_ms=20_000))
    edge.start()
    wait_until(edge.has_all_workers, PATIENCE, "all workers are there")
    with contextlib.closing(Client(edge.server, PATIENCE)) as client:
        submit(client, good_jobs("first", 5 * WORKERS))
        wait_until(lambda: "unanswered" in edge.news_of("north"), PATIENCE, "the farm says that north answers no connection")
        submit(client, good_jobs("next", 1))
        wait_until(lambda: "answered" in edge.news_of("north"), PATIENCE, "the farm says that north has answered")
    held(not edge.news_of("south"), f"of south it says {edge.news_of('south')}")
    edge.end()


PARTS = (a_server_is_stopped, a_server_calls_without_end, a_host_is_gone, a_service_has_too_few_threads)

# These want a network of their own, which not each system lets a test have.
WANT_A_NETWORK = (a_host_is_gone,)

if __name__ == "__main__":
    count_or_try(globals(), PARTS, WANT_A_NETWORK, sys.argv[1:], iproute2="ip")
