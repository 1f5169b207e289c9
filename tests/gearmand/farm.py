"""A job server, a pool and clients on the loopback. Each ends what it started, and nothing else."""

import os
import re
import resource
import socket
import struct
import subprocess
import tempfile
import threading
import time

CAN_DO, SUBMIT_JOB, JOB_CREATED, WORK_COMPLETE, WORK_FAIL, SUBMIT_JOB_BG, ERROR, JOB_ASSIGN_UNIQ = 1, 7, 8, 13, 14, 18, 19, 31
HOST = "127.0.0.1"
FAILED = None
JOBS = re.compile(r"jobs completed (\d+) failed (\d+) lost (\d+) given back (\d+)")
TOTALS = re.compile(r"totals grabbed (\d+) running (\d+) reported (\d+) lost (\d+) rounds (\d+) events (\d+)")


def held(truth, what):
    """Stops the part where something that it holds is not so."""
    if not truth:
        raise AssertionError(what)


def wait_until(said, seconds, what):
    """Waits until a call says yes, for so many seconds at most."""
    end = time.monotonic() + seconds
    while not said():
        held(time.monotonic() < end, f"not within {seconds} seconds: {what}")
        time.sleep(0.01)


def free_port():
    with socket.socket() as it:
        it.bind((HOST, 0))
        return it.getsockname()[1]


def at_once(calls):
    """Makes calls in threads, and hands on the first failure."""
    failures = []

    def make(call):
        try:
            call()
        except BaseException as error:
            failures.append(error)

    threads = [threading.Thread(target=make, args=(call,), daemon=True) for call in calls]
    for it in threads:
        it.start()
    for it in threads:
        it.join()
    if failures:
        raise failures[0]


def request(kind, *parts):
    """The packet of a request."""
    body = b"\0".join(parts)
    return b"\0REQ" + struct.pack(">II", kind, len(body)) + body


class Gearmand:
    """A gearmand of one's own, in the foreground, on a free port of the loopback."""

    def __init__(self, *options, backlog=4096, program="/usr/sbin/gearmand"):
        self.port = free_port()
        self.folder = tempfile.TemporaryDirectory(prefix="gearmand-")
        self.words = [program, f"--listen={HOST}", f"--port={self.port}", "--config-file=/dev/null", "--log-file=stderr"]
        self.words += [f"--pid-file={self.folder.name}/pid", f"--backlog={backlog}", "--job-handle-prefix=H:t", *options]
        self.process = None
        self.start()

    def start(self):
        self.log = open(f"{self.folder.name}/log", "ab")
        self.process = subprocess.Popen(self.words, stdin=subprocess.DEVNULL, stdout=self.log, stderr=self.log)
        wait_until(self.answers, 20, "gearmand listens")

    def answers(self):
        held(self.process.poll() is None, "gearmand ended at once")
        try:
            return self.text(b"version\n", b"\n").startswith(b"OK")
        except OSError:
            return False

    def text(self, command, end=b".\n"):
        """What it answers to a text command."""
        with socket.create_connection((HOST, self.port), 10) as it:
            it.sendall(command)
            said = b""
            while not said.endswith(end):
                piece = it.recv(65536)
                held(piece, "gearmand closed in mid answer")
                said += piece
            return said

    def status(self):
        """(name, total, running, workers) of each function."""
        lines = self.text(b"status\n").split(b"\n")[:-2]
        rows = [line.rsplit(b"\t", 3) for line in lines]
        return [(row[0].decode(errors="replace"), *map(int, row[1:])) for row in rows if len(row) == 4]

    def workers(self, function):
        return sum(row[3] for row in self.status() if row[0] == function)

    def kill(self):
        """Ends it at once, as a crash does."""
        self.process.kill()
        self.process.wait()
        self.log.close()

    def stop(self):
        self.process.terminate()
        self.process.wait(20)
        self.log.close()
        self.folder.cleanup()


class Pool:
    """A `poolman run`, watched, or with other words another program that runs workers."""

    def __init__(self, program, settings, rounds, descriptors=None, words=("run",)):
        self.folder = tempfile.TemporaryDirectory(prefix="poolman-")
        path = f"{self.folder.name}/settings.toml"
        with open(path, "w") as it:
            it.write(settings)
        self.rounds = rounds
        self.out, self.err = open(f"{self.folder.name}/out", "w+"), open(f"{self.folder.name}/err", "w+")

        def limit():
            if descriptors:
                resource.setrlimit(resource.RLIMIT_NOFILE, (descriptors, descriptors))

        self.process = subprocess.Popen(
            [program, *words, path, str(rounds)],
            stdin=subprocess.DEVNULL,
            stdout=self.out,
            stderr=self.err,
            env={**os.environ, "POOLMAN_WATCH": "1"},
            preexec_fn=limit,
        )

    def watched(self):
        """What standard error says so far, without the times."""
        with open(self.err.name) as it:
            return [line.partition(" ")[2] for line in it.read().splitlines()]

    def seen(self):
        """The lines of the attempts so far, as the output has them."""
        return [re.sub(r"( \(.*\))? alive .*", "", line) for line in self.watched() if line.startswith("attempt ")]

    def goes_on(self):
        """Holds that the run has not ended."""
        held(self.process.poll() is None, "the run ended before its jobs were done")

    def proc(self, name):
        return f"/proc/{self.process.pid}/{name}"

    def threads(self):
        return len(os.listdir(self.proc("task")))

    def descriptors(self):
        return len(os.listdir(self.proc("fd")))

    def memory(self, key="VmRSS"):
        """KiB of the process."""
        with open(self.proc("status")) as it:
            return int(re.search(rf"{key}:\s+(\d+) kB", it.read())[1])

    def end(self, seconds):
        """Waits for its end, and holds what it printed to the form of a run."""
        try:
            status = self.process.wait(seconds)
        except subprocess.TimeoutExpired:
            self.process.kill()
            self.process.wait()
            held(False, f"the run did not end within {seconds} seconds")
        with open(self.out.name) as it:
            lines = it.read().splitlines()
        watched, last = self.seen(), self.watched()[-1:]
        self.out.close(), self.err.close()
        self.folder.cleanup()
        return Ended(status, lines, watched, last, self.rounds)

    def drop(self):
        """Kills it, where it still runs, and leaves out what it printed."""
        if self.process.poll() is None:
            self.process.kill()
            self.process.wait()
        self.out.close(), self.err.close()
        self.folder.cleanup()


class Ended:
    """What a run came to."""

    def __init__(self, status, lines, watched, last, rounds):
        held(status == 0, f"exit status {status}: {last}")
        self.attempts = [line for line in lines if line.startswith("attempt ")]
        held(self.attempts == watched, "what was watched is not what was printed")
        held([int(line.split()[1]) for line in self.attempts] == list(range(1, rounds + 1)), "the attempts do not count on")
        rest = lines[len(self.attempts) :]
        self.chapters = int(rest[0].split()[1]) if len(rest) == 2 and rest[0].startswith("chapters ") else 0
        held(len(rest) == 1 + (self.chapters > 0), f"lines after the attempts: {rest}")
        self.grabbed, self.running, self.reported, self.lost, self.rounds, self.events = map(int, TOTALS.fullmatch(rest[-1]).groups())
        held(self.running == 0, "jobs run at the end")
        held(self.grabbed == self.reported + self.lost, "grabbed is not reported and lost together")
        held(self.rounds == sum(" round " in line for line in self.attempts), "the rounds are not the lines with a round")
        self.completed, self.failed, lost, self.given_back = map(int, JOBS.fullmatch(last[0]).groups())
        held((self.reported, self.lost) == (self.completed + self.failed, lost), "reported is not completed and failed together")

    def account(self, grabbed, lost=0):
        """Holds the totals to what was submitted."""
        told = (self.grabbed, self.reported, self.lost)
        held(told == (grabbed, grabbed - lost, lost), f"grabbed, reported and lost are {told}, and not {(grabbed, grabbed - lost, lost)}")

    def kinds(self):
        """How many attempts came to what, by the words after the number."""
        count = {}
        for line in self.attempts:
            words = line.split()[2:]
            kind = words[0] if words[0] == "nolink" else " ".join(words[:3]) if words[0] in ("status", "refused") else words[2]
            count[kind] = count.get(kind, 0) + 1
        return count


class Client:
    """A client over a socket."""

    def __init__(self, port, seconds=40):
        self.socket = socket.create_connection((HOST, port), seconds)
        self.socket.setsockopt(socket.IPPROTO_TCP, socket.TCP_NODELAY, 1)
        self.rest = b""

    def close(self):
        self.socket.close()

    def bytes(self, count):
        pieces, had = [self.rest], len(self.rest)
        while had < count:
            piece = self.socket.recv(1 << 20)
            if not piece:
                raise ConnectionError("the server closed the client's link")
            pieces.append(piece)
            had += len(piece)
        whole = b"".join(pieces)
        self.rest = whole[count:]
        return whole[:count]

    def packet(self):
        """The kind and the body of the next response."""
        head = self.bytes(12)
        held(head[:4] == b"\0RES", f"no response: {head!r}")
        kind, length = struct.unpack(">II", head[4:])
        return kind, self.bytes(length)

    def ask(self, jobs, ahead=1000):
        """The answers to jobs (function, data), in their order. Of a job that failed it is FAILED. So many jobs go ahead of the answers."""
        room = threading.Semaphore(ahead)
        errors = []

        def send():
            try:
                for function, data in jobs:
                    room.acquire()
                    self.socket.sendall(request(SUBMIT_JOB, function, b"", data))
            except OSError as error:
                errors.append(error)

        sender = threading.Thread(target=send, daemon=True)
        sender.start()
        created, ended = [], {}
        while len(ended) < len(jobs):
            kind, body = self.packet()
            if kind == JOB_CREATED:
                created.append(body)
                continue
            held(kind in (WORK_COMPLETE, WORK_FAIL), f"a packet of kind {kind}: {body[:100]!r}")
            handle, _, data = body.partition(b"\0")
            held(handle not in ended, "a job was answered twice")
            ended[handle] = data if kind == WORK_COMPLETE else FAILED
            room.release()
        sender.join()
        held(not errors, f"the client could not send: {errors}")
        return [ended[handle] for handle in created]

    def leave(self, jobs):
        """Submits jobs (function, data) in the background, and waits until the server has them."""
        for at in range(0, len(jobs), 1000):
            some = jobs[at : at + 1000]
            self.socket.sendall(b"".join(request(SUBMIT_JOB_BG, function, b"", data) for function, data in some))
            for _ in some:
                held(self.packet()[0] == JOB_CREATED, "a background job was not taken")


def gearman(port, function, data):
    """What the real client prints for a job."""
    words = ["gearman", "-h", HOST, "-p", str(port), "-f", function]
    return subprocess.run(words, input=data, capture_output=True, timeout=30, check=True).stdout


def right(function, data):
    """The answer that a job of the stock is to have."""
    return {b"reverse": data[::-1], b"length": str(len(data)).encode(), b"echo": data}.get(function, FAILED)


def ask_rightly(port, jobs, **how):
    """Asks for jobs and holds the answers to what they are to be."""
    client = Client(port)
    answers = client.ask(jobs, **how)
    client.close()
    for (function, data), answer in zip(jobs, answers):
        held(answer == right(function, data), f"{function} of {data[:40]!r}.. is answered {answer and answer[:40]!r}")


def links(port):
    """How many sockets of the loopback are connected to the port or from it, by /proc/net/tcp. Those that only wait out their time are no links."""
    with open("/proc/net/tcp") as it:
        rows = [line.split() for line in it.readlines()[1:]]
    ends = f":{port:04X}"
    return sum((row[1].endswith(ends) or row[2].endswith(ends)) and row[3] not in ("06", "0A") for row in rows)


def nothing_left(server, pool):
    """Holds that no job, worker, link or process of a run is left."""
    held(not os.path.exists(f"/proc/{pool.process.pid}/task"), "the process is still there")
    wait_until(lambda: all(row[1:] == (0, 0, 0) for row in server.status()), 5, "the server has no job and no worker")
    wait_until(lambda: links(server.port) == 0, 5, "no link to the server")


def all_done(server, pool, jobs, lost=0):
    """Waits for the end of a run, holds that it had so many jobs, so many of them lost, and leaves nothing, and ends its server."""
    ended = pool.end(60)
    ended.account(jobs, lost)
    nothing_left(server, pool)
    server.stop()
    return ended


def settings(port, workers, functions=("reverse", "length", "echo"), least=0, **keys):
    """A settings file of one machine."""
    keys = {"round_ms": 100, "lull_ms": 20, **keys}
    lines = ["version = 1", f'server = "{HOST}:{port}"', *[f"{key} = {value}" for key, value in keys.items()]]
    lines += [f"[functions.{name}]\nleast = {least}" for name in functions]
    listed = ", ".join(f'"{name}"' for name in functions)
    return "\n".join([*lines, f"[machines.a]\nworkers = {workers}\nfunctions = [{listed}]", ""])
