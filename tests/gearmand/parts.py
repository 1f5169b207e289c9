"""The parts of the test against a real gearmand. Each takes the program, and gives what it found in short."""

import random
import select
import signal
import socket
import struct
import subprocess
import threading
import time

from farm import (
    FAILED,
    HOST,
    JOB_ASSIGN_UNIQ,
    SUBMIT_JOB_BG,
    Client,
    Gearmand,
    Pool,
    all_done,
    ask_rightly,
    at_once,
    free_port,
    gearman,
    held,
    nothing_left,
    request,
    settings,
    wait_until,
)

NAMES = (b"reverse", b"length", b"echo")


def mixed_jobs(count, seed):
    """Jobs of the three functions, up to 300 bytes of any kind."""
    dice = random.Random(seed)
    return [(dice.choice(NAMES), dice.randbytes(dice.randrange(300))) for _ in range(count)]


def mixed(program):
    """1,000 mixed jobs over three functions and six workers by four clients over sockets, 30 by the real client, 10 of a function without a job."""
    server = Gearmand()
    pool = Pool(program, settings(server.port, 6, ("reverse", "length", "echo", "other"), least=1), 80)
    at_once([lambda n=n: ask_rightly(server.port, mixed_jobs(250, n)) for n in range(4)])
    for n in range(30):
        name, data = ("reverse", "length", "echo")[n % 3], b"word %d\xff\x01" % n
        held(gearman(server.port, name, data) == {"reverse": data[::-1], "length": b"%d" % len(data), "echo": data}[name], f"the client's {name}")
    client = Client(server.port)
    held(client.ask([(b"other", b"x")] * 10) == [FAILED] * 10, "a job that nobody can do does not fail")
    client.close()
    ended = all_done(server, pool, 1040)
    return f"1,040 jobs, {ended.rounds} rounds"


def shift(program):
    """Queues that shift: all four workers move to the function that has the jobs."""
    server = Gearmand()
    pool = Pool(program, settings(server.port, 4, ("reverse", "echo"), round_ms=50), 300)
    client = Client(server.port)
    jobs = 0

    def comes(name):
        """Adds to the queue of a function until all workers have come to it, and waits until it is done."""
        nonlocal jobs
        row = ("", 0, 0, 0)
        while row[3] < 4:
            pool.goes_on()
            if row[1] < 2000:
                client.leave([(name.encode(), b"x" * 64)] * 2000)
                jobs += 2000
            row = next(row for row in server.status() if row[0] == name)
        while row[1]:
            pool.goes_on()
            row = next(row for row in server.status() if row[0] == name)

    for name in ("reverse", "echo", "reverse", "echo"):
        comes(name)
    client.close()
    all_done(server, pool, jobs)
    return f"{jobs} jobs, 4 shifts, all 4 workers each time"


def max_runs(program):
    """max_runs = 3 with 100 jobs: 34 workers at least, four at a time."""
    server = Gearmand()
    pool = Pool(program, settings(server.port, 4, max_runs=3, round_ms=50, least=1), 160)
    ask_rightly(server.port, mixed_jobs(100, 5))
    wait_until(lambda: sum(row[3] for row in server.status()) == 4, 5, "each slot has a worker again")
    names = server.text(b"workers\n").decode()
    generations = [int(word.split("#")[1]) for word in names.split() if word.startswith("a/") and "#" in word]
    threads, descriptors = pool.threads(), pool.descriptors()
    held(threads <= 6 and descriptors <= 12, f"{threads} threads and {descriptors} descriptors for four workers")
    all_done(server, pool, 100)
    # 34 workers at least, in four slots.
    held(max(generations) >= 9, f"generations {generations}")
    return f"100 jobs, generation {max(generations)} seen, {threads} threads, {descriptors} descriptors"


class Cutter(threading.Thread):
    """A proxy before a server, that cuts a worker's link once for each deed that it is given: in the middle of an assignment, or in the
    middle of an answer that is longer than what sockets hold. Else it lets all through."""

    def __init__(self, port):
        super().__init__(daemon=True)
        self.to, self.deeds, self.done, self.lock = port, [], [], threading.Lock()
        self.listener = socket.create_server((HOST, 0), backlog=64)
        self.port = self.listener.getsockname()[1]

    def run(self):
        while True:
            try:
                near, _ = self.listener.accept()
            except OSError:
                return
            far = socket.create_connection((HOST, self.to))
            for it in (near, far):
                it.setsockopt(socket.IPPROTO_TCP, socket.TCP_NODELAY, 1)
            threading.Thread(target=self.carry, args=(near, far), daemon=True).start()

    def carry(self, near, far):
        """Carries bytes both ways until one side ends, or the link is cut."""
        deed = None
        with near, far:
            try:
                while True:
                    for it in select.select([near, far], [], [])[0]:
                        if it is near and deed == "answer":
                            # The rest of the answer fills the sockets. What is unread makes of the close a reset.
                            time.sleep(0.3)
                            self.done.append(deed)
                            return
                        piece = it.recv(1 << 16)
                        if not piece:
                            return
                        if it is far and deed is None:
                            deed = self.deed_at(piece)
                        if deed == "assignment":
                            near.sendall(piece[: len(piece) // 2])
                            self.done.append(deed)
                            return
                        (far if it is near else near).sendall(piece)
            except OSError:
                return

    def deed_at(self, piece):
        """The next deed, where a piece begins an assignment. The server writes nothing else with one."""
        if not piece.startswith(b"\0RES" + struct.pack(">I", JOB_ASSIGN_UNIQ)):
            return None
        with self.lock:
            return self.deeds.pop(0) if self.deeds else None


def cut(program):
    """Links cut in the middle of an assignment and of an answer: the job goes back, and another worker answers it."""
    server = Gearmand()
    cutter = Cutter(server.port)
    cutter.start()
    pool = Pool(program, settings(cutter.port, 3, ("reverse",), lull_ms=50), 150)
    wait_until(lambda: server.workers("reverse") == 3, 20, "three workers")
    data = random.Random(1).randbytes(8000000)
    client = Client(server.port)
    cutter.deeds = ["assignment"]
    held(client.ask([(b"reverse", b"small")]) == [b"llams"], "the answer after a cut assignment")
    cutter.deeds = ["answer", "answer"]
    held(client.ask([(b"reverse", data)]) == [data[::-1]], "the answer after two cut answers")
    client.close()
    all_done(server, pool, 4, lost=2)
    cutter.listener.close()
    held(cutter.done == ["assignment", "answer", "answer"], f"cuts {cutter.done}")
    return "3 cuts, 2 jobs, 4 grabs, 2 lost with their workers"


def restart(program):
    """The server killed in mid run and started again: the pool comes back by itself, and each grabbed job is reported or lost."""
    server = Gearmand()
    pool = Pool(program, settings(server.port, 4, least=1), 150)
    ask_rightly(server.port, mixed_jobs(200, 7))
    client = Client(server.port)
    client.leave([(b"echo", b"x" * 64)] * 20000)
    wait_until(lambda: sum(row[1] for row in server.status()) < 15000, 30, "the queue runs")
    server.kill()
    client.close()
    wait_until(lambda: any("nolink" in line for line in pool.seen()), 20, "an attempt without a link")
    server.start()
    wait_until(lambda: server.workers("reverse") + server.workers("length") + server.workers("echo") == 4, 20, "all workers are back")
    ask_rightly(server.port, mixed_jobs(200, 8))
    ended = pool.end(60)
    held(5400 <= ended.reported <= 20400 and ended.lost <= 4, f"reported {ended.reported} lost {ended.lost}")
    held(ended.attempts[-1].split()[2] == "round", "the last attempt is no round")
    nothing_left(server, pool)
    server.stop()
    kinds = ended.kinds()
    return f"{kinds.pop('nolink')} attempts without a link, grabbed {ended.grabbed} = reported {ended.reported} + lost {ended.lost}"


def silent(program):
    """A server that takes connections and never answers, and one that takes none: each attempt ends, and so does the run."""
    with socket.create_server((HOST, 0), backlog=64) as it:
        pool = Pool(program, settings(it.getsockname()[1], 3), 2)
        ended = pool.end(60)
    held(ended.kinds() == {"status 6 ReadFault": 2}, f"{ended.kinds()}")
    ended.account(0)
    with socket.socket() as it:
        it.bind((HOST, 0))
        it.listen(0)
        port = it.getsockname()[1]
        fillers = [socket.socket() for _ in range(4)]
        for filler in fillers:
            filler.setblocking(False)
            filler.connect_ex((HOST, port))
        pool = Pool(program, settings(port, 3), 2)
        ended = pool.end(60)
        for filler in fillers:
            filler.close()
    held(ended.kinds() == {"nolink": 2}, f"{ended.kinds()}")
    ended.account(0)
    # A port where nobody listens refuses at once.
    pool = Pool(program, settings(free_port(), 3), 3)
    ended = pool.end(20)
    held(ended.kinds() == {"nolink": 3}, f"{ended.kinds()}")
    return "2 attempts `status 6 ReadFault`, 2 and 3 `nolink`, each run ended"


def broken_name(program):
    """Names that break the status text: workers keep their orders and go on; planning comes back when the name is gone."""
    server = Gearmand()
    pool = Pool(program, settings(server.port, 3, least=1), 160)
    ask_rightly(server.port, mixed_jobs(30, 9))
    client = Client(server.port)
    client.leave([(b"n" * 4096, b"")])
    wait_until(lambda: "status 3 LineTooLong line " in pool.seen()[-1], 20, "LineTooLong")
    ask_rightly(server.port, mixed_jobs(30, 10))
    held(server.text(b"drop function " + b"n" * 4096 + b"\n", b"\n") == b"OK\r\n", "drop function")
    wait_until(lambda: " round " in pool.seen()[-1], 20, "planning goes on")
    client.socket.sendall(request(SUBMIT_JOB_BG, b"one\ntwo", b"", b""))
    wait_until(lambda: "status 1 BadLine line " in pool.seen()[-1], 20, "BadLine")
    ask_rightly(server.port, mixed_jobs(30, 11))
    client.close()
    server.kill()
    server.start()
    wait_until(lambda: " round " in pool.seen()[-1], 20, "planning goes on with a new server")
    ask_rightly(server.port, mixed_jobs(30, 12))
    ended = all_done(server, pool, 120)
    kinds = ended.kinds()
    return f"{kinds['status 3 LineTooLong']} `LineTooLong`, {kinds['status 1 BadLine']} `BadLine`, 120 jobs answered meanwhile"


def large(program):
    """A job whose assignment is 16 MiB, and one of a byte more, which no worker takes."""
    server = Gearmand("--job-retries=2")
    pool = Pool(program, settings(server.port, 2, ("echo",), round_ms=200, lull_ms=50), 60)
    wait_until(lambda: server.workers("echo") == 2, 20, "two workers")
    # A body is handle, function, unique id and data, with a NUL between: H:t:1, echo and a unique id that is empty.
    data = random.Random(2).randbytes(16777216 - len(b"H:t:1\0echo\0\0"))
    client = Client(server.port)
    held(client.ask([(b"echo", data)]) == [data], "16 MiB come back")
    held(client.ask([(b"echo", data + b"x")]) == [FAILED], "a byte more is told as failed after two workers")
    held(client.ask([(b"echo", b"small")]) == [b"small"], "the pool goes on")
    client.close()
    peak = pool.memory("VmHWM")
    all_done(server, pool, 2)
    return f"16,777,216 bytes answered, 16,777,217 failed after 2 workers, peak {peak // 1024} MiB"


def clients(program):
    """A thousand clients at once, two jobs each."""
    server = Gearmand()
    pool = Pool(program, settings(server.port, 8, least=1), 120)
    wait_until(lambda: sum(row[3] for row in server.status()) == 8, 20, "eight workers")
    crowd = [Client(server.port) for _ in range(1000)]

    def ask_some(some):
        for turn in range(2):
            for n in some:
                crowd[n].socket.sendall(request(7, NAMES[n % 3], b"", b"client %d turn %d" % (n, turn)))
            for n in some:
                data = b"client %d turn %d" % (n, turn)
                answer = {0: data[::-1], 1: b"%d" % len(data), 2: data}[n % 3]
                created, ended = crowd[n].packet(), crowd[n].packet()
                held(created[0] == 8 and ended == (13, created[1] + b"\0" + answer), f"client {n}: {ended}")

    at_once([lambda at=at: ask_some(range(at, 1000, 10)) for at in range(10)])
    for it in crowd:
        it.close()
    all_done(server, pool, 2000)
    return "2,000 jobs of 1,000 links"


def chapters(program):
    """history = 100 over 600 jobs: the history is cut again and again, and each job counts once."""
    server = Gearmand()
    pool = Pool(program, settings(server.port, 4, history=100, round_ms=20), 300)
    ask_rightly(server.port, mixed_jobs(600, 13))
    threads, descriptors = pool.threads(), pool.descriptors()
    held(threads <= 6 and descriptors <= 12, f"{threads} threads and {descriptors} descriptors for four workers")
    ended = all_done(server, pool, 600)
    held(ended.chapters >= 6 and ended.events <= 100, f"chapters {ended.chapters} events {ended.events}")
    return f"600 jobs, {ended.chapters} chapters, {ended.events} events in the last"


def many(program):
    """256 workers, 5,000 jobs."""
    server = Gearmand()
    pool = Pool(program, settings(server.port, 256, least=20, round_ms=200), 40)
    wait_until(lambda: sum(row[3] for row in server.status()) == 256, 40, "256 workers")
    at_once([lambda n=n: ask_rightly(server.port, mixed_jobs(1250, 20 + n)) for n in range(4)])
    threads, descriptors, memory = pool.threads(), pool.descriptors(), pool.memory()
    held(threads == 257 and 256 <= descriptors <= 262, f"{threads} threads, {descriptors} descriptors")
    all_done(server, pool, 5000)
    return f"5,000 jobs, {threads} threads, {descriptors} descriptors, {memory} KiB"


def few_descriptors(program):
    """More workers than descriptors: no round, and no end but the run's own; with room for all of them, rounds."""
    server = Gearmand()
    pool = Pool(program, settings(server.port, 60), 5, descriptors=40)
    ended = pool.end(60)
    held(ended.kinds() == {"nolink": 5}, f"{ended.kinds()}")
    pool = Pool(program, settings(server.port, 60), 5, descriptors=60 + 16)
    ended = pool.end(60)
    held(ended.rounds == 5, f"{ended.kinds()}")
    nothing_left(server, pool)
    server.stop()
    return "`nolink` with 40 descriptors for 60 workers, rounds with 76"


def terminated(program):
    """A run that TERM ends: the server has its jobs back at once, and the next run does them."""
    server = Gearmand()
    first = Pool(program, settings(server.port, 4, least=1), 600)
    wait_until(lambda: sum(row[3] for row in server.status()) == 4, 20, "four workers")
    client = Client(server.port)
    client.leave([(b"reverse", b"x" * 64)] * 20000)
    first.process.terminate()
    held(first.process.wait(20) == -signal.SIGTERM, "TERM ends it")
    first.drop()
    wait_until(lambda: all(row[2:] == (0, 0) for row in server.status()), 5, "no job runs and no worker is left")
    left = sum(row[1] for row in server.status())
    pool = Pool(program, settings(server.port, 4, least=1), 100)
    client.close()
    all_done(server, pool, left)
    return f"{left} of 20,000 jobs were left, and the next run did them"


# A link is given up after 7 seconds without a sign of the server.
GIVEN_UP_S = 9


def lose_the_server(server, away_s):
    """The server's machine goes without a word and comes back after so many seconds: its sockets are destroyed while the loopback carries
    nothing."""
    subprocess.run(["ip", "link", "set", "lo", "down"], check=True)
    server.kill()
    subprocess.run(["ss", "-tnK", "state", "fin-wait-1"], check=True, stdout=subprocess.DEVNULL)
    time.sleep(away_s)
    subprocess.run(["ip", "link", "set", "lo", "up"], check=True)
    server.start()


def half_open(program):
    """Links whose other side is gone, in a name space of its own: sleeping workers find it and are replaced, whether the server's machine
    is back before TCP gives the links up, and answers that it knows none, or after."""
    subprocess.run(["ip", "link", "set", "lo", "up"], check=True)
    for away_s in (0, GIVEN_UP_S):
        server = Gearmand()
        pool = Pool(program, settings(server.port, 4, round_ms=200), 150)
        wait_until(lambda: sum(row[3] for row in server.status()) == 4, 20, "four workers")
        # By now what they wrote was taken, and they sleep.
        time.sleep(1.5)
        lose_the_server(server, away_s)
        wait_until(lambda: sum(row[3] for row in server.status()) == 4, 70, f"four workers again after {away_s} seconds")
        ends = [line for line in pool.watched() if line.startswith("ended ")]
        held(len(ends) == 4 and all(" ReadFault " in line for line in ends), f"how workers ended whose link was lost: {ends}")
        ask_rightly(server.port, mixed_jobs(30, 14))
        all_done(server, pool, 30)
    return f"all four workers came back, of a server that was away for a moment, and for {GIVEN_UP_S} seconds"


# Parts that want a network of their own, and so root.
APART = {half_open}

# Each part with its limit in seconds.
PARTS = {
    mixed: 90,
    shift: 120,
    max_runs: 90,
    cut: 90,
    restart: 120,
    silent: 90,
    broken_name: 120,
    large: 120,
    clients: 90,
    chapters: 90,
    many: 120,
    few_descriptors: 90,
    terminated: 90,
    half_open: 120,
}
