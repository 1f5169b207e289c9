"""Clients that ask for jobs without a pause, and when they had their answers."""

import collections
import contextlib
import random
import socket
import threading
import time

from asking import WORK_WARNING
from farm import FAILED, JOB_CREATED, SUBMIT_JOB, WORK_COMPLETE, WORK_FAIL, Client, held, request
from stage import PATIENCE

CLIENTS = 16

# A client waits for an answer for so many seconds at most, longer than all parts of a run take, and asks for so many jobs at most.
LONGEST_S, MOST_JOBS = 300, 100_000

# The function that clients ask for, and the other one.
ASKED, OTHER = "resize", "mail"

# What the service does by the data of a job. It gives back any other data.
GOOD, BAD, CRASH, LATE = b"good", b"bad", b"crash", b"late"


class Answer(collections.namedtuple("Answer", "asked answered is_done")):
    """When a good job was asked for, when it was answered, and whether with its result."""

    @property
    def seconds(self):
        return self.answered - self.asked


class Asker(Client):
    """A client that waits for the answer to each job."""

    def answer(self, data, unique):
        """The result of a job, or FAILED."""
        self.socket.sendall(request(SUBMIT_JOB, ASKED.encode(), unique, data))
        while True:
            kind, body = self.packet()
            if kind == WORK_COMPLETE:
                return body.partition(b"\0")[2]
            if kind == WORK_FAIL:
                return FAILED
            held(kind in (JOB_CREATED, WORK_WARNING), f"a packet of kind {kind}: {body[:100]!r}")


class Clients:
    """Clients, each of which asks for a job, waits for its answer, and asks again at once. A share of their jobs may be bad."""

    def __init__(self, port, waits_for_bad=True):
        self.port, self.waits_for_bad = port, waits_for_bad
        self.bad_share = 0
        self.answers, self.waiting, self.wrong = [], {}, []
        self.links, self.threads = [], []
        self.is_over = threading.Event()
        for number in range(CLIENTS):
            self.start(self.ask, number)

    def start(self, act, *words):
        """A thread of a client that acts until all is over. What goes wrong there before is kept."""
        link = Asker(self.port, LONGEST_S)

        def make():
            try:
                act(link, *words)
            except (OSError, AssertionError) as error:
                if not self.is_over.is_set():
                    self.wrong.append(error)

        self.links.append(link)
        self.threads.append(threading.Thread(target=make, daemon=True))
        self.threads[-1].start()

    def ask(self, link, number):
        """Asks for jobs. Which of them are bad is the same for each program."""
        dice = random.Random(number)
        for turn in range(MOST_JOBS):
            if self.is_over.is_set():
                return
            unique = b"%d-%d" % (number, turn)
            if dice.random() < self.bad_share:
                self.ask_for_bad(link, unique)
            else:
                self.ask_for_good(link, unique)
        held(False, f"a client has had {MOST_JOBS} answers")

    def ask_for_bad(self, link, unique):
        if self.waits_for_bad:
            link.answer(BAD, unique)
        else:
            link.leave([(ASKED.encode(), BAD)])

    def ask_for_good(self, link, unique):
        asked = self.waiting[link] = time.monotonic()
        answer = link.answer(GOOD, unique)
        held(answer in (GOOD, FAILED), f"a job is answered {answer!r}")
        self.answers.append(Answer(asked, time.monotonic(), answer == GOOD))
        del self.waiting[link]

    def leave_steadily(self, link, rate):
        """Leaves bad jobs of the other function, so many a second."""
        while not self.is_over.wait(1 / rate):
            link.leave([(OTHER.encode(), BAD)])

    def answers_since(self, begin):
        return [it for it in list(self.answers) if it.answered >= begin]

    def has_result_since(self, begin):
        return any(it.is_done for it in self.answers_since(begin))

    def longest_wait(self):
        """How many seconds a job that is not answered yet has waited for, at most."""
        return max([time.monotonic() - asked for asked in list(self.waiting.values())], default=0)

    def end(self):
        self.is_over.set()
        for link in self.links:
            with contextlib.suppress(OSError):
                link.socket.shutdown(socket.SHUT_RDWR)
        for thread in self.threads:
            thread.join(PATIENCE)
        for link in self.links:
            link.close()
