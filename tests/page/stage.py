"""A farm with a page: a job server, services and `poolman serve`, each a process of its own."""

import json
import os
import re
import shutil
import subprocess
import sys
import tempfile
import time

sys.dont_write_bytecode = True
TOP = os.path.join(os.path.dirname(os.path.abspath(__file__)), "../..")
sys.path[1:1] = [f"{TOP}/tests/gearmand", f"{TOP}/tests/serve"]

from asking import ask_rightly, mixed_jobs
from farm import HOST, Gearmand, held, wait_until
from page import Page
from starting import Processes, drain, listens, ports

# After so many seconds a wait is given up.
PATIENCE = 60

# For so many seconds attempts are counted.
SECONDS = 5


def table(kind, name, keys):
    """A table of a TOML file. JSON's strings and lists are TOML's too."""
    return "\n".join([f"[{kind}.{json.dumps(name)}]", *[f"{key} = {json.dumps(value)}" for key, value in keys.items()], ""])


class Stage:
    """A farm with these functions (by name their keys) and machines (by name their workers and what these may do), in a folder of its own.
    `places` has the port of each machine's service, and `options` are the job server's. Whatever still runs at the end is killed."""

    def __init__(self, program, functions, machines, listen=HOST, options=(), **keys):
        self.program, self.functions, self.machines, self.keys = program, functions, machines, keys
        self.folder = tempfile.mkdtemp(prefix="page-")
        self.processes = Processes(self.folder)
        self.server = self.start_server(options)
        page, *places = ports(1 + len(machines))
        self.listen, self.page = f"{listen}:{page}", Page(page, PATIENCE)
        self.places = dict(zip(machines, places))
        self.children, self.asked = {}, 0

    def __enter__(self):
        return self

    def __exit__(self, failure, *_):
        self.processes.__exit__()
        self.server.stop()
        if failure is None:
            shutil.rmtree(self.folder)

    def start_server(self, options):
        return Gearmand(*options)

    def settings(self):
        keys = {"server": f"{HOST}:{self.server.port}", "lull_ms": 20, **self.keys}
        top = ["version = 2", *[f"{key} = {json.dumps(value)}" for key, value in keys.items()], ""]
        tables = [table("functions", name, keys) for name, keys in self.functions.items()]
        tables += [table("machines", name, {"workers": workers, "functions": may}) for name, (workers, may) in self.machines.items()]
        return "\n".join([*top, *tables])

    def services(self):
        top = ["version = 1", "[page]", f'listen = "{self.listen}"', f'hosts = ["{HOST}"]', ""]
        return "\n".join([*top, *[table("machines", name, {"url": f"http://{HOST}:{port}/jobs"}) for name, port in self.places.items()]])

    def start_service(self, name, script, *words):
        """The service of a machine, as a script in Python that is given its port."""
        port = self.places[name]
        child = self.processes.start(name, sys.executable, script, str(port), *words)
        wait_until(lambda: listens(port, child), PATIENCE, f"the service of {name} listens")
        self.children[name] = child

    def kill_service(self, name):
        self.children[name].kill()
        self.children[name].wait()

    def start(self):
        """Starts poolman, and waits until its page is there."""
        files = [f"{self.folder}/{name}.toml" for name in ("settings", "services")]
        for file, text in zip(files, (self.settings(), self.services())):
            with open(file, "w") as it:
                it.write(text)
        self.poolman = self.processes.start("poolman", self.program, "serve", *files, "--until-input", stdin=subprocess.PIPE)
        wait_until(self.has_page, PATIENCE, "the page is there")

    def has_page(self):
        held(self.poolman.poll() is None, f"poolman ended with status {self.poolman.returncode}: {self.processes.text('poolman.err')}")
        return self.page.health() is not None

    def attempts(self):
        """How many attempts were made."""
        numbers = re.findall(r"^\S+ attempt (\d+) ", self.processes.text("poolman.out"), re.MULTILINE)
        return int(numbers[-1]) if numbers else 0

    def processor(self):
        """The seconds of processor time that poolman has had."""
        with open(f"/proc/{self.poolman.pid}/stat") as it:
            fields = it.read().rsplit(")", 1)[1].split()
        return (int(fields[11]) + int(fields[12])) / os.sysconf("SC_CLK_TCK")

    def pace(self, act):
        """Attempts a second, over some seconds of acts."""
        before, start = self.attempts(), time.monotonic()
        while time.monotonic() < start + SECONDS:
            act()
        return (self.attempts() - before) / (time.monotonic() - start)

    def ask(self):
        """Jobs of all kinds, each of which has to be answered rightly."""
        self.asked += 1
        ask_rightly(self.server.port, mixed_jobs(f"job-{self.asked}", 200), PATIENCE)

    def end(self):
        """Drains the farm, and waits for its end. Gives how many seconds the drain took."""
        start = time.monotonic()
        status, told, said = drain(self.program, self.folder)
        took = time.monotonic() - start
        held((status, said) == (0, "") and told, f"the drain: {status} {told} {said}")
        status = self.poolman.wait(PATIENCE)
        held(status in (0, 1), f"poolman ended with status {status}")
        return took
