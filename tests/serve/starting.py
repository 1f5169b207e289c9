"""What the trials of a farm start, and what it says."""

import os
import random
import re
import socket
import subprocess
import sys

from farm import HOST, held, wait_until

TOP = os.path.join(os.path.dirname(os.path.abspath(__file__)), "../..")

# After so many seconds a wait is given up.
PATIENCE = 60

# A line of standard output.
LINE = re.compile(r"\d{4}-\d\d-\d\dT\d\d:\d\d:\d\dZ (.+)")


def ports(count):
    """So many free ports of the loopback, none of which the system gives to a connection that begins here."""
    with open("/proc/sys/net/ipv4/ip_local_port_range") as it:
        first = int(it.read().split()[0])
    found = set()
    while len(found) < count:
        port = random.randrange(first // 2, first)
        with socket.socket() as it:
            if it.connect_ex((HOST, port)) != 0:
                found.add(port)
    return list(found)


def listens(port, child):
    """Whether a process listens at its port."""
    held(child.poll() is None, f"{child.args} ended at once")
    with socket.socket() as it:
        return it.connect_ex((HOST, port)) == 0


def drain(program, folder):
    """How a drain of the farm in this folder ends, and what it prints."""
    words = [program, "drain", f"{folder}/services.toml"]
    done = subprocess.run(words, stdin=subprocess.DEVNULL, capture_output=True, text=True, timeout=PATIENCE)
    return done.returncode, done.stdout, done.stderr


def unit_file(name):
    """The text of a unit of examples/systemd."""
    with open(f"{TOP}/examples/systemd/{name}.service") as it:
        return it.read()


def command_of_unit(name, program, files):
    """The words that systemd starts for a unit, with this program, and with these files in the place of its two."""
    words = re.search(r"^ExecStart=(.+)$", unit_file(name), re.M)[1].split()
    held(words[-4:-2] == ["/usr/local/bin/poolman", "serve"], f"{name} starts {words}")
    return [*words[:-4], program, "serve", *files]


def untimed(lines):
    """The lines of a farm without their times."""
    found = [LINE.fullmatch(line) for line in lines]
    held(all(found), "a line of poolman is not one with a time")
    return [line[1] for line in found]


class Processes:
    """What is started here. Whatever still runs at the end is killed."""

    def __init__(self, folder):
        self.folder = folder
        self.all = []

    def start(self, name, *words, stdin=subprocess.DEVNULL, **more):
        """A process whose standard output and error go after what is in NAME.out and NAME.err, if no other ones are given."""
        with open(f"{self.folder}/{name}.out", "ab") as out, open(f"{self.folder}/{name}.err", "ab") as err:
            child = subprocess.Popen(words, stdin=stdin, **{"stdout": out, "stderr": err, **more})
        self.all.append(child)
        return child

    def start_server(self, port):
        """A gearmand at this port, which listens already."""
        words = [f"--listen={HOST}", f"--port={port}", "--config-file=/dev/null", "--log-file=stderr", "--backlog=1024"]
        child = self.start("gearmand", "/usr/sbin/gearmand", *words, f"--pid-file={self.folder}/pid")
        wait_until(lambda: listens(port, child), PATIENCE, "gearmand listens")
        return child

    def start_service(self, name, port):
        """A service at this port, which listens already. It holds a job if the file NAME.order is there."""
        child = self.start(name, sys.executable, f"{TOP}/tests/serve/service.py", str(port), f"{self.folder}/{name}.order")
        wait_until(lambda: listens(port, child), PATIENCE, f"the service {name} listens")
        return child

    def text(self, name):
        with open(f"{self.folder}/{name}") as it:
            return it.read()

    def __enter__(self):
        return self

    def __exit__(self, *_):
        for child in self.all:
            child.kill()
            child.wait()
