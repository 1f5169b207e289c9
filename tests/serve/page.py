"""What a peer asks of the page of a farm."""

import http.client
import os
import re
import shutil
import socket
import subprocess

from farm import HOST, held, wait_until

# A page serves so many peers at once.
PLACES = 64

TOP = os.path.join(os.path.dirname(os.path.abspath(__file__)), "../..")

# A sample of the text format of Prometheus.
SAMPLE = re.compile(r'[a-z_]+(\{[a-z_]+="(?:[^"\\\n]|\\.)*"\})? \d+')

# The row of a job that failed or was lost, up to its time.
FAILURE = re.compile(r'<tr><th scope="row">H:[^<]*</th><td class="words">\d{4}-\d\d-\d\dT\d\d:\d\d:\d\dZ</td>')

DRAIN = b"POST /drain HTTP/1.1\r\nhost: localhost\r\npoolman: drain\r\n"

# What is no request, and the statuses that it may get. Who sends much may be cut off before he reads one.
BROKEN = {
    "two lengths": (DRAIN + b"content-length: 1\r\ncontent-length: 2\r\n\r\nab", (400,)),
    "a length and chunks": (DRAIN + b"content-length: 4\r\ntransfer-encoding: chunked\r\n\r\n0\r\n\r\n", (400,)),
    "two hosts": (DRAIN + b"host: localhost\r\n\r\n", (400,)),
    "a host with a space": (b"GET / HTTP/1.1\r\nhost: local host\r\n\r\n", (400,)),
    "no HTTP": (b"\x16\x03\x01 what is this\r\n\r\n", (400,)),
    "a path of 1 MiB": (b"GET /" + b"a" * (1 << 20) + b" HTTP/1.1\r\nhost: localhost\r\n\r\n", (414, 431, None)),
    "a header of 1 MiB": (DRAIN + b"x: " + b"a" * (1 << 20) + b"\r\n\r\n", (431, None)),
    "a body of 1 MiB": (DRAIN + b"content-length: 1048576\r\n\r\n" + b"a" * (1 << 20), (413, None)),
}


class Page:
    """The page at a port of the loopback, for a peer of this address, or of the one that it calls."""

    def __init__(self, port, patience, source=None):
        self.port, self.patience, self.source = port, patience, source

    def ask(self, method, path, **headers):
        """The status, the headers and the body of a response."""
        peer = http.client.HTTPConnection(HOST, self.port, timeout=self.patience, source_address=self.source and (self.source, 0))
        try:
            peer.request(method, path, headers=headers)
            response = peer.getresponse()
            return response.status, dict(response.getheaders()), response.read()
        finally:
            peer.close()

    def health(self):
        """The status of its health, or None if nobody answers."""
        try:
            return self.ask("GET", "/health")[0]
        except OSError:
            return None

    def is_well(self):
        return self.health() == 200

    def is_unwell(self):
        return self.health() == 503

    def says_the_end(self):
        status, _, body = self.ask("GET", "/health")
        return status == 503 and body.startswith(b"The farm ends")

    def wait_until_well(self):
        wait_until(self.is_well, self.patience, "the page says that the farm is well")

    def text(self, path):
        """A text that is there."""
        status, headers, body = self.ask("GET", path)
        held(status == 200, f"GET {path}: {status}")
        held("content-security-policy" in {name.lower() for name in headers}, f"GET {path}: {headers}")
        return body.decode()

    def attempts(self):
        """How many attempts there were."""
        return int(re.search(r"^poolman_attempts_total (\d+)$", self.text("/metrics"), re.MULTILINE)[1])

    def look(self, functions):
        """The page names each function, and jobs that failed or were lost, and has no script; the metrics have their form."""
        page = self.text("/")
        held(all(name in page for name in functions), "the page leaves a function out")
        held(FAILURE.search(page), "the page leaves out which jobs failed or were lost")
        held("<script" not in page and "http-equiv" in page, "the page has a script, or is not asked for again")
        held("http-equiv" not in self.text("/?still"), "the page that stays is asked for again")
        for line in self.text("/metrics").splitlines():
            held(line.startswith("# ") or SAMPLE.fullmatch(line), f"no sample: {line}")

    def crowd(self):
        """A peer that has left gives its place back: more come one after the other than there are places."""
        for _ in range(PLACES + 1):
            self.text("/metrics")

    def check(self, program, folder):
        """The plan of the running farm is shown by its evidence, with the commands of docs/getting-started.md, in the folder of its settings."""
        commands = self.commands("getting-started", r"```sh\n(curl .*/evidence .*?)```")
        if shutil.which("curl") is None:
            with open(f"{folder}/evidence.txt", "w") as it:
                it.write(self.text("/evidence"))
            commands = commands.split("\n", 1)[1]
        done = self.run(commands, program, folder)
        held((done.returncode, done.stdout) == (0, "shown\n"), f"the evidence: {done}")

    def check_relaxed(self, program, folder):
        """The plan without some least numbers is shown by the commands of docs/monitoring.md, which may ask in two attempts."""
        commands = self.commands("monitoring", r"```sh\n(page=[^`]*/relaxed/.*?)```")
        wait_until(lambda: self.run(commands, program, folder).stdout == "shown\n", self.patience, "the plan without least numbers is shown")

    def commands(self, name, pattern):
        """The commands of a page of docs that this expression finds, for this page of a farm."""
        with open(f"{TOP}/docs/{name}.md") as it:
            return re.search(pattern, it.read(), re.DOTALL)[1].replace("127.0.0.1:4780", f"{HOST}:{self.port}")

    def run(self, commands, program, folder):
        """How these commands end in this folder."""
        path = f"{os.path.dirname(os.path.abspath(program))}:{os.environ['PATH']}"
        words, environment = ["bash", "-ec", commands], {**os.environ, "PATH": path}
        return subprocess.run(words, cwd=folder, env=environment, capture_output=True, text=True, timeout=self.patience)

    def refuse(self):
        """What is asked wrongly is refused."""
        asked = [
            (403, "GET", "/", {"host": "elsewhere.example:80"}),
            (403, "POST", "/drain", {}),
            (404, "GET", "/nothing", {}),
            (405, "POST", "/", {}),
            (405, "GET", "/drain", {"poolman": "drain"}),
        ]
        for wanted, method, path, headers in asked:
            status, _, _ = self.ask(method, path, **headers)
            held(status == wanted, f"{method} {path} {headers}: {status} in place of {wanted}")

    def say(self, text):
        """The status of the response to these bytes, or None if the peer is cut off without one."""
        with socket.create_connection((HOST, self.port), self.patience) as peer:
            try:
                peer.sendall(text)
                said = peer.recv(4096)
            except ConnectionError:
                return None
        return int(said.split()[1]) if said else None

    def refuse_broken(self):
        """What is no request is refused, and does nothing."""
        for what, (text, wanted) in BROKEN.items():
            status = self.say(text)
            held(status in wanted, f"{what}: {status} in place of {wanted}")
