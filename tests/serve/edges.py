"""Farms at the edges of what the system gives them: edges.py PROGRAM FOLDER

tests/serve/run calls this. A farm has two hosts that do jobs. It goes on, and serves them, though nobody takes its lines, though the names
of 200 further hosts do not resolve, though the resolver is gone, though no descriptor is left, or there are too few from the start, of which
each host has some or the page names it, though the job server takes a report a little at a time, though its input has nothing to read and
does not block, and though a host is gone (also if there never was a plan or an order). It ends though its job server is silent. Nobody from
elsewhere ends it, or keeps this machine from its page. What its processes write is in the folder.
"""

import contextlib
import fcntl
import http.client
import os
import re
import resource
import select
import socket
import subprocess
import sys
import threading
import time

sys.dont_write_bytecode = True
TOP = os.path.join(os.path.dirname(os.path.abspath(__file__)), "../..")
sys.path[:0] = [f"{TOP}/tests/gearmand", f"{TOP}/tests/together"]

from farm import HOST, SUBMIT_JOB, TOTALS, Client, at_once, held, request, wait_until

from alone import alone, can_be_alone, count_or_try, name_loopback, raise_loopback
from edge import HOSTS, WORKERS, Edge, bad_jobs, good_jobs, holds_pace, settings
from page import PLACES, Page
from service import POISON
from silence import ADDRESSES, Silence
from slow_way import SlowWay
from starting import LINE, PATIENCE, ports, untimed

# So many lines wait in the program, if nobody takes them.
MOST_WAITING = 4096

# For so many seconds a look-up waits for a resolver that does not answer.
LOOKUP_S = 3

# A report has to be taken in so many milliseconds. A job has so many bytes at most.
REPORT_MS, MOST_BYTES = 8000, 16_000_000

# So many descriptors are enough for three workers, each of which takes two, beside the 64 that are left for the peers of the page; and so
# many are enough for one.
FEW, FEWEST = 82, 78

# The status of a farm of which no attempt led to a plan.
NO_PLAN = 5

# An address of no network. In one of its own a test calls the page from it.
FAR = "192.0.2.1"

LEFT_OUT = re.compile(r"left out (\d+) lines")


class Pipe:
    """A small pipe for the lines of a farm, whose reader comes late."""

    def __init__(self, waits):
        self.read_end, self.write_end = os.pipe()
        fcntl.fcntl(self.write_end, fcntl.F_SETPIPE_SZ, 4096)
        os.set_blocking(self.write_end, waits)

    def give(self):
        """Has no more to do with the end that was given away."""
        os.close(self.write_end)

    def read(self):
        """Reads to the end of the farm, in a thread. What was read is handed out by the call that is given back."""
        read = []

        def read_all():
            with open(self.read_end, "rb") as it:
                read.append(it.read())

        reader = threading.Thread(target=read_all, daemon=True)
        reader.start()

        def take():
            reader.join(PATIENCE)
            held(read, "the farm has ended, and its output has not")
            return read[0].decode().splitlines()

        return take


def account_for_lines(lines, failed):
    """Holds that each line of a farm with so many failed jobs was written or is counted. It was blocked after all had joined."""
    # Before the number of those that could not be written there may be a part of the last one.
    parts = [line for line, after in zip(lines, lines[1:]) if not LINE.fullmatch(line) and " left out " in after]
    told = untimed(line for line in lines if line not in parts)
    counted = [int(found[1]) for line in told if (found := LEFT_OUT.fullmatch(line))]
    told = [line for line in told if not LEFT_OUT.fullmatch(line)]
    held(counted, "no line was left out")
    attempts = [int(line.split()[1]) for line in told if line.startswith("attempt ")]
    held(attempts == sorted(set(attempts)), "the lines of attempts are not in order")
    failures = [line.split()[2] for line in told if line.startswith("failed ")]
    held(len(failures) == len(set(failures)), "a failure is told twice")
    missing = attempts[-1] - len(attempts) + failed - len(failures)
    held(sum(counted) == missing, f"{missing} lines are missing, and {counted} are counted")
    for word in ("joined", "ended"):
        held(sum(line.startswith(f"{word} ") for line in told) == WORKERS * len(HOSTS), f"not each worker has {word}")
    held(TOTALS.fullmatch(told[-1]), f"the last line is {told[-1]}")


def are_late(edge, waits, failed):
    """Whoever reads the lines begins when more are there than the pipe and the program hold: what is left out is counted in its place."""
    pipe = Pipe(waits)
    edge.start(stdout=pipe.write_end)
    pipe.give()
    edge.keeps_pace_while(lambda: edge.ask(bad_jobs(f"late-{waits}", failed)))
    take = pipe.read()
    # From here on the pipe has room, however late its reader is.
    fcntl.fcntl(pipe.read_end, fcntl.F_SETPIPE_SZ, 1 << 20)
    edge.keeps_pace_while(lambda: edge.ask(good_jobs(f"late-{waits}", 100)))
    edge.end(failed + 100)
    account_for_lines(take(), failed)


def nobody_takes_lines(program, processes):
    edge = Edge(program, processes)
    # Of more lines than wait in the program: the pipe lets its writer wait, or says that it has no room.
    are_late(edge, True, MOST_WAITING + 900)
    are_late(edge, False, MOST_WAITING + 900)
    pipe = Pipe(True)
    os.close(pipe.read_end)
    edge.start(stdout=pipe.write_end)
    pipe.give()
    goes_on(edge, "gone")
    with open("/dev/full", "w") as full:
        edge.start(stdout=full)
    goes_on(edge, "full")
    edge.start("sh", "-c", 'exec "$0" "$@" <&- >&- 2>&-')
    streams = [os.readlink(f"/proc/{edge.poolman.pid}/fd/{number}") for number in range(3)]
    held(streams == 3 * ["/dev/null"], f"the standard streams are {streams}")
    goes_on(edge, "closed")


def goes_on(edge, name):
    """The farm serves, and ends well."""
    edge.keeps_pace_while(lambda: edge.ask(good_jobs(name, 100) + bad_jobs(f"bad-{name}", 100)))
    edge.end(200)


def serve_beside_unknown_names(program, processes):
    """200 further hosts have names that nobody knows."""
    edge = Edge(program, processes, [f"host-{number}" for number in range(200)])
    edge.start()
    edge.keeps_pace_while(lambda: edge.ask(good_jobs("unknown", 500)))

    def are_all_unreached():
        return {f"unreached {name} Unreachable" for name in edge.others} <= set(edge.lines())

    edge.keeps_pace_while(lambda: wait_until(are_all_unreached, PATIENCE, "each host without an address is told"))
    edge.keeps_pace_while(lambda: edge.ask(good_jobs("told", 500)))
    edge.end(1000)
    edge.holds_no_good_host_unreached()


@contextlib.contextmanager
def silent_resolver(processes):
    """In a network of its own: a resolver that is asked and never answers. Without look-ups all was in vain."""
    raise_loopback()
    with socket.socket(socket.AF_INET, socket.SOCK_DGRAM) as resolver:
        resolver.bind((HOST, 53))
        resolver.settimeout(PATIENCE)
        with open(f"{processes.folder}/resolv.conf", "w") as it:
            it.write(f"nameserver {HOST}\noptions timeout:{LOOKUP_S} attempts:1\n")
        subprocess.run(["mount", "--bind", it.name, "/etc/resolv.conf"], check=True)
        yield resolver
        held(resolver.recv(512), "no name was looked up")


def was_asked(resolver):
    """Whether a name was looked up that nobody has answered."""
    return bool(select.select([resolver], [], [], 0)[0])


def with_a_silent_resolver(program, processes):
    """The same in a network of its own, where the resolver is asked and never answers."""
    with silent_resolver(processes):
        serve_beside_unknown_names(program, processes)


def names_do_not_resolve(program, processes):
    """Look-ups take seconds, if this system lets a test have a network of its own, and else as long as they take here."""
    if can_be_alone():
        alone(with_a_silent_resolver, program, processes)
    else:
        serve_beside_unknown_names(program, processes)


def while_the_resolver_is_gone(program, processes):
    """The names of the hosts and of the job server are found until all workers are there, and then no more."""
    named, server = {name: f"{name}.farm" for name in HOSTS}, "jobs.farm"

    def name(words):
        # The file is written anew in its place, since that is what is mounted.
        with open(f"{processes.folder}/hosts", "w") as it:
            it.write(f"{HOST} {' '.join(words)}\n")
        return it.name

    subprocess.run(["mount", "--bind", name(["localhost", server, *named.values()]), "/etc/hosts"], check=True)
    with silent_resolver(processes) as resolver:
        edge = Edge(program, processes, named=named)
        edge.write("settings", settings(edge.server, (), host=server))
        edge.start()
        wait_until(edge.has_all_workers, PATIENCE, "all workers are there")
        name(["localhost"])
        # Each host is looked at several times, where it was reached last.
        edge.keeps_pace_while(lambda: time.sleep(3 * LOOKUP_S))
        held(not was_asked(resolver), "a look asks for the name of a host that is there")
        edge.holds_no_good_host_unreached()
        held(not edge.causes(), f"workers of hosts that are well ended so: {edge.causes()}")
        held(edge.is_well(), "the job server is not reached any more")
        # New workers reach the hosts where others have reached them.
        with contextlib.closing(Client(edge.server, PATIENCE)) as client:
            client.socket.sendall(request(SUBMIT_JOB, b"upper", b"poison", POISON))
            wait_until(lambda: len(edge.causes()) >= WORKERS, PATIENCE, "a job that is never served ends some workers")
        wait_until(edge.has_all_workers, PATIENCE, "all workers are back")
        held(set(edge.causes()) == {"Unserved"}, f"workers of hosts that are well ended so: {edge.causes()}")
        edge.keeps_pace_while(lambda: edge.ask(good_jobs("named", 300)))
        edge.end(300)
        edge.holds_no_good_host_unreached()


def while_the_server_is_silent(program, processes):
    """The name of the job server has three addresses. Once the first of them is tried the input ends, and the farm with it: it tries no
    other."""
    raise_loopback()
    server = ports(1)[0]
    silence = Silence(server)
    texts = {
        "hosts": "".join(f"{address} jobs.farm\n" for address in ADDRESSES),
        "settings.toml": settings(server, (), host="jobs.farm").replace("lull_ms = 20", "lull_ms = 100"),
        "services.toml": "\n".join(["version = 1", *[f'[machines.{name}]\nurl = "http://{HOST}:9/jobs"' for name in HOSTS], ""]),
    }
    for name, text in texts.items():
        with open(f"{processes.folder}/{name}", "w") as it:
            it.write(text)
    subprocess.run(["mount", "--bind", f"{processes.folder}/hosts", "/etc/hosts"], check=True)
    files = [f"{processes.folder}/{name}.toml" for name in ("settings", "services")]
    poolman = processes.start("poolman", program, "serve", *files, "--until-input", stdin=subprocess.PIPE)
    wait_until(silence.tried, PATIENCE, "the job server is tried")
    poolman.stdin.close()
    tried = silence.tried()

    def has_ended():
        tried.update(silence.tried())
        return poolman.poll() is not None

    wait_until(has_ended, PATIENCE, "the farm has ended")
    held(len(tried) == 1, f"a farm that has to end tries {sorted(tried)}")


def a_farm_ends_while_its_server_is_silent(program, processes):
    """The job server's computer is off: the end of a farm waits for the address that is being tried, and for no other."""
    alone(while_the_server_is_silent, program, processes)


def workers_go_on_without_a_resolver(program, processes):
    """Nobody finds the names of the hosts any more, and all are well: no worker ends for that."""
    alone(while_the_resolver_is_gone, program, processes)


def peers_from_elsewhere(program, processes):
    """A peer whose address is not the one that it calls ends no farm, and takes no place from a peer of this machine."""
    alone(beside_peers_from_elsewhere, program, processes)


def beside_peers_from_elsewhere(program, processes):
    """In a network of its own: as many peers from elsewhere as there are places, after one of this machine."""
    raise_loopback()
    name_loopback(FAR)
    edge = Edge(program, processes)
    edge.start()
    near = http.client.HTTPConnection(HOST, edge.page.port, timeout=PATIENCE)
    near.connect()
    far = [socket.create_connection((HOST, edge.page.port), PATIENCE, (FAR, 0)) for _ in range(PLACES)]
    held(far[-1].recv(1) == b"", "a peer from elsewhere is let in that finds no place")
    near.request("GET", "/metrics")
    held(near.getresponse().status == 200, "a peer of this machine is turned away")
    near.close()
    for peer in far:
        peer.close()
    elsewhere = Page(edge.page.port, PATIENCE, FAR)
    wait_until(elsewhere.is_well, PATIENCE, "a peer from elsewhere is answered")
    status = elsewhere.ask("POST", "/drain", poolman="drain")[0]
    held(status == 403, f"a drain from elsewhere: {status}")
    edge.ask(good_jobs("on", 50))
    edge.end(50)


def no_descriptor_is_left(program, processes):
    """For a while no descriptor is given out, and a host has closed its connections: attempts go on, each job is answered, and no host is
    told as one that is not reached. Then all is as before."""
    edge = Edge(program, processes)
    edge.start()
    limits = resource.prlimit(edge.poolman.pid, resource.RLIMIT_NOFILE)
    resource.prlimit(edge.poolman.pid, resource.RLIMIT_NOFILE, (0, limits[1]))
    edge.restart("north")
    begin, before = time.monotonic(), len(edge.lines())
    edge.ask(good_jobs("few", 300))
    wait_until(lambda: nolinks(edge.lines()[before:]) >= 10, PATIENCE, "attempts are made without a descriptor")
    holds_pace(nolinks(edge.lines()[before:]), begin)
    resource.prlimit(edge.poolman.pid, resource.RLIMIT_NOFILE, limits)
    wait_until(lambda: edge.is_well() and edge.has_all_workers(), PATIENCE, "all workers are back")
    edge.keeps_pace_while(lambda: edge.ask(good_jobs("again", 300)))
    edge.end(600)
    edge.holds_no_good_host_unreached()


def begin_with_files(program, processes, count):
    """A farm that begins with so many descriptors, and says that they are too few."""
    edge = Edge(program, processes)
    edge.start("sh", "-c", f'ulimit -Sn {count} && exec "$0" "$@"')
    wait_until(lambda: "lacksfiles" in edge.lines(), PATIENCE, "the farm says that files are lacking")
    edge.keeps_pace_while(lambda: edge.ask(good_jobs("few", 300)))
    held(nolinks(edge.lines()) == 0, "an attempt has no descriptor for the status")
    held("hasfiles" not in edge.lines(), "the farm says that files are there")
    return edge


def end_with_all_files(edge):
    """The limit is raised, and the farm has all its workers."""
    limits = resource.prlimit(edge.poolman.pid, resource.RLIMIT_NOFILE)
    resource.prlimit(edge.poolman.pid, resource.RLIMIT_NOFILE, (limits[1], limits[1]))
    wait_until(lambda: "hasfiles" in edge.lines(), PATIENCE, "the farm says that files are there")
    wait_until(edge.has_all_workers, PATIENCE, "all workers are there")
    edge.keeps_pace_while(lambda: edge.ask(good_jobs("many", 300)))
    held(not without_room(edge), f"the page names {without_room(edge)}")
    edge.end(600)
    said = [line for line in edge.lines() if line in ("lacksfiles", "hasfiles")]
    held(said == ["lacksfiles", "hasfiles"], f"of files it is said: {said}")
    edge.holds_no_good_host_unreached()


def alive_of_each(edge):
    """How many workers of each host are alive."""
    return [edge.metric(f'poolman_host_alive_workers{{host="{name}"}}') for name in HOSTS]


def without_room(edge):
    """The machines that the page names since no descriptor is left for a worker of theirs."""
    said = re.search(r"Without workers for want of files or threads: ([^.]*)\.", edge.page.text("/"))
    return said[1].split(", ") if said else []


def too_few_descriptors_at_first(program, processes):
    """The farm begins with fewer descriptors than its workers take. It has a plan and serves with those that it can have, some of each host,
    and says so. Once the limit is raised it has all."""
    edge = begin_with_files(program, processes, FEW)
    alive = alive_of_each(edge)
    held(all(0 < count < WORKERS for count in alive), f"{alive} workers are alive with {FEW} descriptors")
    held(not without_room(edge), f"the page names {without_room(edge)}")
    end_with_all_files(edge)


def too_few_descriptors_for_each_host(program, processes):
    """There are so few that only one host has a worker. The page names the other one until the limit is raised."""
    edge = begin_with_files(program, processes, FEWEST)
    empty = [name for name, count in zip(HOSTS, alive_of_each(edge)) if count == 0]
    held(len(empty) == 1, f"these hosts have no worker with {FEWEST} descriptors: {empty}")
    held(without_room(edge) == empty, f"without a worker are {empty}, and the page names {without_room(edge)}")
    end_with_all_files(edge)


def nolinks(lines):
    """In how many attempts of these lines the server was not reached for want of descriptors."""
    return sum(line.startswith("attempt ") and line.endswith(" nolink (too many files are open)") for line in lines)


def most_unread():
    """How many bytes the system takes at most over one connection for whoever reads them late."""
    with open("/proc/sys/net/ipv4/tcp_wmem", encoding="ascii") as it:
        return int(it.read().split()[2])


def a_report_is_taken_slowly(program, processes):
    """The job server takes one report a little at a time: its worker ends in bounded time, and the job goes to another. Where the system
    itself takes a whole report, none is slow."""
    great = 2 * most_unread()
    if great > MOST_BYTES:
        return
    edge = Edge(program, processes)
    port = ports(1)[0]
    way = SlowWay(port, edge.server)
    edge.write("settings", settings(port, (), REPORT_MS))
    edge.start()

    def hurry_at_the_end():
        wait_until(edge.causes, PATIENCE, "the worker of a slow report ends")
        way.hurry()

    at_once([lambda: edge.ask([("upper", "great", great * b"a")]), hurry_at_the_end])
    held(edge.causes()[0] == "WriteFault", f"workers ended so: {edge.causes()}")
    held(edge.metric("poolman_alive_workers") > 0, "no worker is alive")
    edge.end(1)


def an_input_does_not_block(program, processes):
    """Reads of standard input fail for as long as nothing is written to it: the farm goes on, and ends once that is closed."""
    edge = Edge(program, processes)
    reads, writes = os.pipe()
    os.set_blocking(reads, False)
    with open(reads, "rb") as reads, open(writes, "wb") as writes:
        edge.start(options=["--until-input"], stdin=reads)
        edge.keeps_pace_while(lambda: edge.ask(good_jobs("on", 50)))
    status = edge.poolman.wait(PATIENCE)
    held(status == 0, f"poolman ended with status {status}")


def idle_workers_end_with_their_host(program, processes):
    """A host is gone while its workers wait for jobs: that is noticed, and they end, though no job comes."""
    edge = Edge(program, processes)
    edge.start()
    wait_until(edge.has_all_workers, PATIENCE, "all workers are there")
    edge.kill("north")
    wait_until(lambda: "unreached north Unreachable" in edge.lines(), PATIENCE, "the host is missed")
    first = r"north/\d#1"
    wait_until(lambda: len(edge.causes(first)) == WORKERS, PATIENCE, "the workers of the host end")
    held(set(edge.causes(first)) == {"Stopped"}, f"they ended so: {edge.causes(first)}")
    edge.restart("north")
    wait_until(edge.has_all_workers, PATIENCE, "all workers are back")
    edge.ask(good_jobs("back", 300))
    edge.end(300)


def workers_end_with_their_host(edge, exit_status):
    """A host of a farm that was begun is gone while the page says no plan. Its workers end all the same."""
    wait_until(lambda: edge.sessions() == WORKERS * len(HOSTS), PATIENCE, "the job server knows all workers")
    edge.kill("north")
    first = r"north/\d#1"
    wait_until(lambda: len(edge.causes(first)) == WORKERS, PATIENCE, "the workers of the host end")
    held(set(edge.causes(first)) == {"Stopped"}, f"they ended so: {edge.causes(first)}")
    edge.restart("north")
    wait_until(lambda: edge.sessions() == WORKERS * len(HOSTS), PATIENCE, "all workers are back")
    held(edge.page.is_unwell(), "the farm has a plan")
    edge.end(exit_status=exit_status)


def workers_without_a_plan_end_with_their_host(program, processes):
    """No plan has as many workers as a function is to have at least. They do its jobs all the same, and those of a host that is gone end."""
    edge = Edge(program, processes)
    least = WORKERS * len(HOSTS) + 1
    edge.write("settings", settings(edge.server, ()).replace("[functions.upper]", f"[functions.upper]\nleast = {least}"))
    edge.begin()
    edge.ask(good_jobs("let-off", 50))
    workers_end_with_their_host(edge, NO_PLAN)


def workers_without_orders_end_with_their_host(program, processes):
    """No status can be read from the start, so no worker has an order. Those of a host that is gone end all the same."""
    edge = Edge(program, processes)
    edge.leave_unreadable_name()
    edge.begin()
    workers_end_with_their_host(edge, NO_PLAN)


def idle_workers_see_that_their_service_closed(program, processes):
    """A service is killed between two attempts. Its workers see that their connections were closed, and end before the next one."""
    edge = Edge(program, processes)
    edge.write("settings", settings(edge.server, (), round_ms=600_000))
    edge.start()
    wait_until(lambda: edge.sessions() == WORKERS * len(HOSTS), PATIENCE, "the job server knows all workers")
    edge.kill("north")
    wait_until(lambda: edge.sessions() == WORKERS, PATIENCE, "the workers of the host leave the job server")
    lines = edge.lines()
    held(lines.count("unreached north Unreachable") == 1, "the host is not missed once")
    held(sum(line.startswith("attempt ") for line in lines) == 1, "they ended after a further attempt")
    edge.end(0)
    held(edge.causes() == ["Stopped"] * WORKERS * len(HOSTS), f"the workers ended so: {edge.causes()}")


PARTS = (
    nobody_takes_lines,
    names_do_not_resolve,
    workers_go_on_without_a_resolver,
    no_descriptor_is_left,
    too_few_descriptors_at_first,
    too_few_descriptors_for_each_host,
    a_report_is_taken_slowly,
    an_input_does_not_block,
    idle_workers_end_with_their_host,
    workers_without_a_plan_end_with_their_host,
    workers_without_orders_end_with_their_host,
    idle_workers_see_that_their_service_closed,
    peers_from_elsewhere,
    a_farm_ends_while_its_server_is_silent,
)


# These want a network of their own, which not each system lets a test have.
WANT_A_NETWORK = (workers_go_on_without_a_resolver, peers_from_elsewhere, a_farm_ends_while_its_server_is_silent)


if __name__ == "__main__":
    count_or_try(globals(), PARTS, WANT_A_NETWORK, sys.argv[1:])
