"""A farm in which something misbehaves, and what is seen of it from outside."""

import collections
import contextlib
import dataclasses
import os
import re
import sys
import time

import stage
from clients import ASKED, OTHER, Clients
from farm import Client, held, wait_until
from runs import Run
from stage import PATIENCE
from starting import untimed
from turns import Figure, Found, Row

HERE = os.path.dirname(os.path.abspath(__file__))

WORKERS, ROUND_MS, LULL_MS = 8, 1000, 100

# After so many seconds all runs evenly.
WARM_S = 2

# Between two samples, in seconds.
SAMPLE_S = 0.25

# A slot can have so many workers.
MOST_WORKERS = 262_143

# The hosts of a farm: how many workers each has, and what they may do.
ONE_HOST = {"north": (WORKERS, [ASKED])}
TWO_FUNCTIONS = {"north": (WORKERS, [ASKED, OTHER])}
TWO_HOSTS = {"north": (WORKERS // 2, [ASKED]), "south": (WORKERS // 2, [OTHER])}

JOINED = re.compile(r"joined (\S+)#(\d+)")
ENDED = re.compile(r"ended \S+ (\S+)")


@dataclasses.dataclass
class Part:
    """What was seen in a part of a run: how many seconds it took, the answers to good jobs, how many seconds after its beginning the first
    result came, how many others have waited for at its end, the lines of the farm, how many workers a slot had at most, and the samples of
    the server's workers and of the page."""

    name: str
    seconds: float
    answers: list
    first: float
    waited: float
    lines: list
    used: int
    workers: list
    pages: collections.Counter

    def rate(self):
        return sum(it.is_done for it in self.answers) / self.seconds

    def worst(self):
        return max([self.waited, *[it.seconds for it in self.answers]])

    def causes(self):
        return collections.Counter(found[1] for line in self.lines if (found := ENDED.fullmatch(line)))

    def ends(self):
        """How many workers ended in a second."""
        return self.causes().total() / self.seconds

    def hours(self):
        """The hours in which a slot has all its workers, if it goes on like this. None if no worker came."""
        return MOST_WORKERS / self.used * self.seconds / 3600 if self.used else None

    def workers_text(self):
        none = sum(count == 0 for count in self.workers) / len(self.workers)
        return f"{min(self.workers)} to {max(self.workers)}, none in {none:.0%}"

    def share(self, reference):
        """What is left of the rate of another part. None if that has none."""
        return self.rate() / reference.rate() if reference.rate() else None

    def text(self, reference):
        """Two lines of this part, by the one in which nothing misbehaves."""
        said = collections.Counter(line.split()[0] for line in self.lines)
        causes = "".join(f" {cause} {count}" for cause, count in self.causes().most_common())
        share, first, hours = Figure(self.share(reference), "{:.0%}"), Figure(self.first, "{:.2f}"), Figure(self.hours(), "{:.0f}")
        facts = [
            f"jobs/s {self.rate():.0f}  left {share}  worst s {self.worst():.2f}  first s {first}",
            f"failed {sum(not it.is_done for it in self.answers)}  ends/s {self.ends():.1f}{causes}  hours {hours}",
            *[f"{word} {said[word]}" for word in ("lost", "unreached", "reached")],
            f"workers {self.workers_text()}",
        ]
        samples = self.pages.total()
        pages = "; ".join(f"{count / samples:.0%} {page}" for page, count in self.pages.most_common())
        return f"  {self.name}: {'  '.join(facts)}\n    page: {pages}"


class Lab(Run):
    """A job server with so many `--job-retries`, or with its default, hosts, a farm, and clients. Each function is to have so many workers at
    least. The services file has these keys for each function, and the program's."""

    def __init__(self, program, machines=None, retries=0, least=1, **keys):
        machines = machines or ONE_HOST
        functions = {name: {"least": least} for _, may in machines.values() for name in may}
        options = [f"--job-retries={retries}"] if retries else []
        super().__init__(program.path, functions, machines, options=options, round_ms=ROUND_MS, lull_ms=LULL_MS)
        self.seconds = program.seconds
        self.service_keys = {**keys, **program.keys}
        # While this file is there each service is busy.
        self.busy = f"{self.folder}/busy"
        self.parts, self.clients = [], None

    def __exit__(self, failure, *more):
        if self.clients:
            self.clients.end()
        super().__exit__(failure, *more)

    def services(self):
        tables = [stage.table("functions", name, self.service_keys) for name in self.functions if self.service_keys]
        return "\n".join([super().services(), *tables])

    def start_host(self, name):
        self.start_service(name, f"{HERE}/service.py", self.busy)

    def start_hosts(self, but=()):
        for name in self.machines:
            if name not in but:
                self.start_host(name)

    def ask_for_jobs(self, **how):
        """Lets clients ask from now on."""
        self.clients = Clients(self.server.port, **how)

    def begin(self, **how):
        """Starts all, and lets it run until it does so evenly."""
        self.start_hosts()
        self.start()
        self.wait_until_whole()
        self.ask_for_jobs(**how)
        time.sleep(WARM_S)

    def wait_until_whole(self):
        wait_until(self.is_whole, 2 * PATIENCE, "the farm is well, and each worker has a function at the server")

    def is_whole(self):
        self.goes_on()
        return self.page.is_well() and sum(row[3] for row in self.server.status()) == WORKERS

    def goes_on(self):
        """Holds that the farm has not ended."""
        held(self.poolman.poll() is None, f"poolman ended with status {self.poolman.returncode}")

    def is_unreached(self, host):
        return any(line.startswith(f"unreached {host} ") for line in self.lines())

    def lines(self):
        """The whole lines of the farm so far, without their times."""
        text = self.processes.text("poolman.out")
        return untimed(text.splitlines()[: text.count("\n")])

    def page_says(self):
        """The status of its health and the sentence, with N for each number."""
        try:
            status, _, body = self.page.ask("GET", "/health")
        except OSError:
            return "no answer"
        sentence = re.sub(r"\d+", "N", body.decode().strip())
        return f"{status} {sentence}"

    def leave(self, data, count=1, function=ASKED.encode()):
        """Leaves so many jobs with these data, for whose answers nobody waits."""
        with contextlib.closing(Client(self.server.port, PATIENCE)) as client:
            client.leave([(function, data)] * count)

    def measure(self, name, seconds=None, patience=0, begin=None):
        """A part of so many seconds, or of more, until a job has a result, if none has by then; of so many at most. It began at that moment,
        or begins now."""
        begin, before = begin or time.monotonic(), self.lines()
        seconds, workers, pages = seconds or self.seconds, [], collections.Counter()
        while (passed := time.monotonic() - begin) < seconds or (passed < patience and not self.clients.has_result_since(begin)):
            workers.append(self.server.workers(ASKED))
            pages[self.page_says()] += 1
            time.sleep(SAMPLE_S)
        answers, waited = self.clients.answers_since(begin), self.clients.longest_wait()
        self.goes_on()
        held(not self.clients.wrong, f"the clients: {self.clients.wrong}")
        first = min((it.answered - begin for it in answers if it.is_done), default=None)
        after = self.lines()
        part = Part(name, passed, answers, first, waited, after[len(before) :], most_used(before, after), workers, pages)
        self.parts.append(part)
        return part

    def finish(self, reference, figures):
        """Ends all. What the run came to, with this part as the one in which nothing misbehaves. `figures` gives those of a part by it."""
        self.clients.end()
        parts = [it.text(reference) for it in self.parts]
        ending = f"  drain s {self.end():.2f}  load {os.getloadavg()[0]:.1f}"
        return Found("\n".join([*parts, ending]), [Row(it.name, figures(it, reference)) for it in self.parts])


class Ceiling(Lab):
    """The same, with workers in place of a farm that never end, since they answer a bad job as failed at once."""

    def start(self):
        ports = [str(self.server.port), str(self.places["north"])]
        self.poolman = self.processes.start("poolman", sys.executable, f"{HERE}/worker.py", *ports, str(WORKERS), *self.functions)

    def is_whole(self):
        self.goes_on()
        return self.server.workers(ASKED) == WORKERS

    def page_says(self):
        return "no page"

    def end(self):
        """Kills the workers, which have no drain."""
        self.poolman.kill()
        self.poolman.wait()
        return 0


def generations(lines):
    """The number of the last worker that joined in each slot."""
    return {found[1]: int(found[2]) for line in lines if (found := JOINED.fullmatch(line))}


def most_used(before, after):
    """How many workers joined in a slot between these lines, at most."""
    had = generations(before)
    return max([last - had.get(slot, 0) for slot, last in generations(after).items()], default=0)
