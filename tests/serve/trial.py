"""A farm of six hosts, three of which misbehave: trial.py PROGRAM FOLDER [long]

tests/serve/run calls this. Three hosts run the service of examples/serve with four functions more. The others never answer, answer what
is no HTTP, or send without an end. Clients ask for jobs of six functions. Meanwhile each healthy host is killed in mid job, the next
plan but one gives its functions to others, and it is started again and gets jobs; and the server is killed and started again. Each job
has to be answered rightly, and to be in a service's log. The page has to refuse what is asked wrongly, and to give the evidence of a plan
that `poolman check` finds shown. A drain in mid job ends the farm, as its page says meanwhile; its totals have to account for each job.
SIGTERM has to end the command of the unit as a drain does, also if it comes twice, and a services file without a URL has to be refused
before anything is dialled.

With `long` there is only the farm: 100,000 jobs of 20 clients, which begin once the page keeps as many attempts as it ever does. Each host
is killed three times, and the farm has to hold no more descriptors in the last tenth of the jobs than in the second, and no more memory
of its own than the jobs of a moment take, each by its median. What its processes write is in the folder.
"""

import contextlib
import dataclasses
import os
import re
import signal
import socket
import statistics
import subprocess
import sys
import threading
import time
from concurrent.futures import ThreadPoolExecutor

sys.dont_write_bytecode = True
TOP = os.path.join(os.path.dirname(os.path.abspath(__file__)), "../..")
sys.path[:0] = [f"{TOP}/tests/gearmand", f"{TOP}/tests/together"]

from farm import FAILED, HOST, SUBMIT_JOB, TOTALS, Client, at_once, held, request, wait_until

import hosts
import suite
from asking import ask_rightly, mixed_jobs, wanted
from page import Page
from starting import PATIENCE, Processes, command_of_unit, drain, ports, untimed


@dataclasses.dataclass
class Scale:
    """How many clients ask, for how many jobs each, and how often each healthy host is killed."""

    clients: int
    jobs: int
    kills: int


# The line of an attempt that led to a plan.
PLAN = re.compile(r"attempt (\d+) round \d+ (?!noplan)")

SHORT, LONG = Scale(8, 500, 1), Scale(20, 5000, 3)

# A client asks for so many jobs over one connection.
CHUNK = 100

# The page keeps so many attempts.
ATTEMPTS = 600

# By so many KiB memory may be more in the last tenth than in the second: the jobs that came while a bad host held one for its second, at 200
# bytes each. If each job were kept, it would be 15,000 more.
MORE_KIB = 512

HEALTHY = {"east": 6, "north": 6, "south": 6}
BAD = {"drips": (hosts.never_end, "upper"), "mute": (hosts.say_nothing, "reverse"), "noise": (hosts.make_noise, "digest")}
BAD_WORKERS = 2
# One more than the workers of a bad host, so that a healthy one has the function too. Two healthy hosts have enough workers for all.
LEAST = {"count_words": 1, "digest": 3, "hold": 1, "reverse": 3, "sort_lines": 1, "upper": 3}


def settings(server, round_ms):
    """The settings of the farm, with its job server at this port."""
    lines = ["version = 1", f'server = "{HOST}:{server}"', f"round_ms = {round_ms}", "lull_ms = 20", "job_timeout_ms = 30000"]
    lines += [f"[functions.{name}]\nleast = {least}" for name, least in LEAST.items()]
    machines = [(name, workers, LEAST) for name, workers in HEALTHY.items()]
    machines += [(name, BAD_WORKERS, [function]) for name, (_, function) in BAD.items()]
    for name, workers, may in machines:
        listed = ", ".join(f'"{function}"' for function in may)
        lines.append(f"[machines.{name}]\nworkers = {workers}\nfunctions = [{listed}]")
    return "\n".join([*lines, ""])


def services(places, page):
    """The services of the farm, by the ports of its machines, and its page. Jobs that a bad host may get have little time."""
    lines = ["version = 1", f'[page]\nlisten = "{HOST}:{page}"', *[f'[machines.{name}]\nurl = "http://{HOST}:{port}/jobs"' for name, port in places.items()]]
    lines += [f"[functions.{name}]\ntimeout_ms = 1000" for _, name in BAD.values()]
    return "\n".join([*lines, ""])


class Farm:
    """The job server, the hosts, and poolman."""

    def __init__(self, program, processes, round_ms=100):
        self.program, self.processes, self.round_ms = program, processes, round_ms
        self.server, page, *places = ports(2 + len(HEALTHY) + len(BAD))
        self.page = Page(page, PATIENCE)
        self.places = dict(zip([*HEALTHY, *BAD], places))
        self.answered, self.again, self.lock = [], 0, threading.Lock()
        self.is_quiet, self.is_over = threading.Event(), threading.Event()

    def start_hosts(self):
        self.gearmand = self.processes.start_server(self.server)
        self.services = {name: self.start_service(name) for name in HEALTHY}
        self.bad = {name: hosts.Host(self.places[name], misbehave) for name, (misbehave, _) in BAD.items()}

    def start(self):
        self.start_hosts()
        self.poolman = self.start_poolman(services(self.places, self.page.port), stdin=subprocess.PIPE)
        self.wait_until_each_has_a_function()

    def wait_until_each_has_a_function(self):
        workers = sum(HEALTHY.values()) + BAD_WORKERS * len(BAD)
        wait_until(lambda: self.workers() == workers, PATIENCE, "each worker has a function at the server")

    def start_service(self, name):
        return self.processes.start_service(name, self.places[name])

    def write_files(self, services):
        files = [f"{self.processes.folder}/{name}.toml" for name in ("settings", "services")]
        for file, text in zip(files, (settings(self.server, self.round_ms), services)):
            with open(file, "w") as it:
                it.write(text)
        return files

    def start_poolman(self, services, **more):
        return self.processes.start("poolman", self.program, "serve", *self.write_files(services), "--until-input", **more)

    def start_as_service(self, services):
        """The command of the unit, with this program and these files."""
        return self.processes.start("poolman", *command_of_unit("poolman-serve", self.program, self.write_files(services)))

    def workers(self):
        """How many workers the server has for all functions."""
        held(self.poolman.poll() is None, f"poolman ended with status {self.poolman.returncode}")
        text = b""
        with socket.create_connection((HOST, self.server), PATIENCE) as it:
            it.sendall(b"status\n")
            while not text.endswith(b".\n"):
                text += it.recv(65536)
        return sum(int(line.rsplit(b"\t", 1)[1]) for line in text.splitlines()[:-1])

    def lines(self):
        """The whole lines of poolman so far, without their times."""
        text = self.processes.text("poolman.out")
        return untimed(text.splitlines()[: text.count("\n")])

    def done(self, name):
        """What a service has done: (worker, handle, unique, function, status) of each job."""
        return [line.split() for line in self.processes.text(f"{name}.out").splitlines()]

    def ask(self, jobs):
        again = ask_rightly(self.server, jobs, PATIENCE, may_be_gone=True)
        with self.lock:
            self.answered += jobs
            self.again += again

    def ask_till_quiet(self, name, count):
        """A client, which asks for so many jobs, and then for more until nobody is killed any more."""
        turn = 0
        while turn * CHUNK < count or not self.is_quiet.is_set():
            self.ask(mixed_jobs(f"{name}-{turn}", CHUNK))
            turn += 1

    def ask_until(self, is_so, what):
        """Asks for more jobs, until something is so."""
        end = time.monotonic() + PATIENCE
        while not is_so():
            held(time.monotonic() < end, f"not within {PATIENCE} seconds: {what}")
            self.ask(mixed_jobs(f"more-{len(self.answered)}", 100))

    def is_away(self, name):
        """Whether poolman has said of a host that it is not reached, and not yet that it is."""
        said = [line.split()[0] for line in self.lines() if re.match(rf"(un)?reached {name}\b", line)]
        return said[-1:] == ["unreached"]

    def disturb(self, scale):
        """When a fifth of all is answered each healthy host is killed in mid job and started again, so often, the server once."""
        wait_until(lambda: len(self.answered) >= scale.clients * scale.jobs // 5, 10 * PATIENCE, "a fifth is answered")
        for turn in range(scale.kills):
            for name in HEALTHY:
                self.kill_in_mid_job(name)
            if turn == 0:
                self.restart_server()
        self.is_quiet.set()

    def restart_server(self):
        self.gearmand.kill()
        self.gearmand.wait()
        self.gearmand = self.processes.start_server(self.server)

    def kill_in_mid_job(self, name):
        """Kills a service that holds a job, waits until it is not reached and the others have its functions, and starts it again."""
        order = f"{self.processes.folder}/{name}.order"
        open(order, "w").close()
        wait_until(lambda: os.path.exists(f"{order}.held"), PATIENCE, f"{name} holds a job")
        os.remove(f"{order}.held")
        self.services[name].kill()
        self.services[name].wait()
        wait_until(lambda: self.is_away(name), PATIENCE, f"{name} is not reached")
        self.hold_that_others_have_all(name)
        before = len(self.done(name))
        self.services[name] = self.start_service(name)
        wait_until(lambda: not self.is_away(name) and len(self.done(name)) > before, PATIENCE, f"{name} does jobs again")

    def plans_without(self, name):
        """The attempts that led to a plan since a host was lost, by their numbers."""
        lines = self.lines()
        loss = max(place for place, line in enumerate(lines) if line.startswith(f"unreached {name} "))
        return [int(found[1]) for line in lines[loss:] if (found := PLAN.match(line))]

    def plan_from(self, attempt):
        """Who has which function by the plan of this attempt, or of a later one: pairs of a worker and a function."""
        places = []

        def is_there():
            status, headers, body = self.page.ask("GET", "/report")
            if status == 200 and int(headers["poolman-attempt"]) >= attempt:
                places[:] = [line.split()[1:] for line in body.decode().splitlines() if line.startswith("work ")]
            return places

        wait_until(is_there, PATIENCE, f"there is the plan of attempt {attempt}")
        return places

    def hold_that_others_have_all(self, name):
        """The next plan but one after a host was lost gives each of its functions to others."""
        wait_until(lambda: len(self.plans_without(name)) >= 2, PATIENCE, f"there are two plans without {name}")
        second = self.plans_without(name)[1]
        served = {function for worker, function in self.plan_from(second) if not worker.startswith(f"{name}/")}
        held(served == set(LEAST), f"without {name} from attempt {second} on others have only {served}")

    def look_at_its_page(self):
        """A peer sees that it is well, and can check its plan."""
        self.page.wait_until_well()
        self.page.look(LEAST)
        self.page.refuse()
        self.page.refuse_broken()
        self.page.crowd()
        self.page.check(self.program, self.processes.folder)

    def drain(self):
        """Ends poolman by its page, and holds that the totals are told."""
        status, told, said = drain(self.program, self.processes.folder)
        held((status, said) == (0, "") and any(TOTALS.fullmatch(line) for line in told.splitlines()), f"the drain: {status} {told} {said}")

    def hold_a_job(self, client):
        """Asks for a job that a service does not do until it is killed. The name of its host."""
        orders = {name: f"{self.processes.folder}/{name}.order" for name in HEALTHY}
        for order in orders.values():
            open(order, "w").close()
        client.socket.sendall(request(SUBMIT_JOB, b"hold", b"held", b""))

        def holders():
            return [name for name, order in orders.items() if os.path.exists(f"{order}.held")]

        wait_until(holders, PATIENCE, "a job is held")
        return holders()[0]

    def drain_in_mid_job(self):
        """The page says that the farm ends for as long as a job is done, and the drain waits for that."""
        with contextlib.closing(Client(self.server, PATIENCE)) as client, ThreadPoolExecutor(1) as drainer:
            name = self.hold_a_job(client)
            drained = drainer.submit(self.drain)
            wait_until(self.page.says_the_end, PATIENCE, "the page says that the farm ends")
            held(not drained.done(), "a drain did not wait for a job")
            self.services[name].kill()
            drained.result()

    def end(self):
        """Ends poolman by a drain, and holds its totals to what was answered."""
        self.drain_in_mid_job()
        status = self.poolman.wait(PATIENCE)
        held(status in (0, 1), f"poolman ended with status {status}")
        lines = self.lines()
        totals = [found for line in lines if (found := TOTALS.fullmatch(line))]
        held(len(totals) == 1, "not one line of totals")
        grabbed, running, reported, lost = map(int, totals[0].groups()[:4])
        held(running == 0 and grabbed == reported + lost, f"the totals do not account for each job: {totals[0][0]}")
        # Of those that were asked for again some had been reported to the server that is gone.
        least = len(self.answered)
        held(least <= reported <= least + self.again, f"{reported} jobs were reported, {least} answered, and {self.again} asked for again")
        held(lost > 0 and any(re.match(r"ended mute/\d+#\d+ Unserved", line) for line in lines), "no bad host has lost a job")

    def account(self):
        """Holds that each job was done by a service, as its log says, and that each service was asked by its own workers."""
        done = set()
        for name in HEALTHY:
            for worker, _, unique, function, status in self.done(name):
                held(worker.startswith(f"{name}/"), f"{name} was asked by {worker}")
                done.add((function, unique, status))
        for function, unique, data in self.answered:
            status = "500" if wanted(function, data) is FAILED else "200"
            held((function, unique, status) in done, f"no service has done {unique}, {function}")


class Samples:
    """What poolman holds of descriptors and memory, by how many jobs are answered."""

    def __init__(self, farm):
        self.farm, self.taken = farm, []

    def take(self):
        """Takes samples until nobody is killed any more and the jobs are answered."""
        while not self.farm.is_over.wait(0.1):
            self.taken.append((len(self.farm.answered), self.descriptors(), self.memory()))

    def descriptors(self):
        return len(os.listdir(f"/proc/{self.farm.poolman.pid}/fd"))

    def memory(self):
        """KiB that are its own, and not pages of a file."""
        with open(f"/proc/{self.farm.poolman.pid}/status") as it:
            return int(re.search(r"RssAnon:\s+(\d+) kB", it.read())[1])

    def medians(self, first, last):
        """The medians while so many jobs were answered. A look for free files opens sockets for a moment, so one sample says little."""
        some = [(descriptors, memory) for answered, descriptors, memory in self.taken if first <= answered < last]
        held(some, "no sample")
        return tuple(map(statistics.median, zip(*some)))

    def hold_that_none_grew(self, jobs):
        """Of so many jobs."""
        second, last = self.medians(jobs // 10, jobs // 5), self.medians(jobs - jobs // 10, jobs)
        print(f"medians of descriptors and KiB in the second tenth {second}, in the last {last}")
        held(last[0] <= second[0] and last[1] <= second[1] + MORE_KIB, f"medians of descriptors and KiB were {second}, and are {last}")


def try_farm(program, processes, scale):
    """Lets clients ask while hosts are killed, and looks at what the farm has done."""
    farm = Farm(program, processes)
    farm.start()
    if scale is LONG:
        wait_until(lambda: farm.page.attempts() >= ATTEMPTS, 3 * PATIENCE, f"there are {ATTEMPTS} attempts")
    samples = Samples(farm)
    begin = time.monotonic()
    clients = [lambda n=n: farm.ask_till_quiet(f"job-{n}", scale.jobs) for n in range(scale.clients)]
    threading.Thread(target=samples.take, daemon=True).start()
    at_once([*clients, lambda: farm.disturb(scale)])
    farm.is_over.set()
    print(f"{len(farm.answered)} jobs in {time.monotonic() - begin:.0f} seconds, {farm.again} asked for again")
    if scale is LONG:
        samples.hold_that_none_grew(len(farm.answered))
    farm.ask_until(lambda: all(host.asked for host in farm.bad.values()), "each bad host was asked")
    farm.look_at_its_page()
    farm.end()
    farm.account()


def a_farm(program, processes):
    try_farm(program, processes, SHORT)


def a_large_farm(program, processes):
    try_farm(program, processes, LONG)


def a_refused_file(program, processes):
    """Machines without a URL: the fault line, status 3, and nobody is dialled."""
    farm = Farm(program, processes)
    with socket.create_server((HOST, farm.server)) as listener:
        listener.setblocking(False)
        status = farm.start_poolman("version = 1\n").wait(PATIENCE)
        said = (status, processes.text("poolman.out"), processes.text("poolman.err"))
        people = f"poolman: {farm.processes.folder}/services.toml: a machine has no URL at machines.drips\n"
        held(said == (3, "", f"poolman: services 11 NoUrl\n{people}"), f"machines without a URL: {said}")
        with contextlib.suppress(BlockingIOError):
            listener.accept()
            held(False, "the job server was dialled before the files were read")


def ends_as_service(program, processes, stop):
    """Starts the command of the unit, and stops it so: it ends with the totals, and the status of a farm that never had a plan, as its
    page says. A drain then reaches nobody."""
    farm = Farm(program, processes)
    service = farm.start_as_service(services(farm.places, farm.page.port))
    wait_until(farm.page.is_unwell, PATIENCE, "the page says that the farm is not well")
    stop(farm, service)
    status = service.wait(PATIENCE)
    held(status == 5 and TOTALS.fullmatch(farm.lines()[-1]), f"the service ended with status {status}, and {farm.lines()[-1]}")
    said = drain(program, processes.folder)
    people = "poolman: the page: nobody answers at its address\n"
    held(said == (4, "", f"poolman: page 1 Unreached\n{people}"), f"a drain of a farm that has ended: {said}")


def a_service_by_signal(program, processes):
    ends_as_service(program, processes, lambda farm, service: service.terminate())


def a_service_by_drain(program, processes):
    ends_as_service(program, processes, lambda farm, service: farm.drain())


def a_service_that_is_stopped_twice(program, processes):
    """A worker finishes its job, though a second signal comes meanwhile."""
    farm = Farm(program, processes)
    farm.start_hosts()
    farm.poolman = farm.start_as_service(services(farm.places, farm.page.port))
    farm.wait_until_each_has_a_function()
    with contextlib.closing(Client(farm.server, PATIENCE)) as client:
        name = farm.hold_a_job(client)
        farm.poolman.terminate()
        wait_until(farm.page.says_the_end, PATIENCE, "the page says that the farm ends")
        farm.poolman.send_signal(signal.SIGINT)
        farm.poolman.terminate()
        # Time for a farm that would end now. One that waits for its worker is not hurried by it.
        time.sleep(0.5)
        held(farm.poolman.poll() is None and farm.page.says_the_end(), "a second signal ended the farm")
        farm.services[name].kill()
        status = farm.poolman.wait(PATIENCE)
    held(status in (0, 1) and TOTALS.fullmatch(farm.lines()[-1]), f"the service ended with status {status}, and {farm.lines()[-1]}")


# The C library keeps nothing for a thread, gives back the end of its heap at once, and takes each block of a page from the system.
KEEPS_NOTHING = ("tcache_count=0", "trim_threshold=0", "top_pad=0", "mmap_threshold=4096")


def keep_no_freed_memory():
    """One heap, as examples/systemd has it, which keeps as little as the C library can keep of what was freed: caches of threads fill for
    hours, and what lies free in a heap goes up and down by more than one per cent, so that memory that is lost could not be told."""
    os.environ.setdefault("MALLOC_ARENA_MAX", "1")
    os.environ.setdefault("GLIBC_TUNABLES", ":".join(f"glibc.malloc.{it}" for it in KEEPS_NOTHING))


PARTS = (a_refused_file, a_service_by_signal, a_service_by_drain, a_service_that_is_stopped_twice, a_farm)


def main(program, folder, *words):
    parts = PARTS
    if words == ("long",):
        keep_no_freed_memory()
        parts = (a_large_farm,)
    for part in parts:
        os.mkdir(f"{folder}/{part.__name__}")
        with Processes(f"{folder}/{part.__name__}") as processes:
            part(program, processes)
    suite.passed("serve", len(parts))


if __name__ == "__main__":
    if sys.argv[1:] == ["count"]:
        print(len(PARTS))
    else:
        main(*sys.argv[1:])
