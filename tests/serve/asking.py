"""Jobs, who asks a job server for them, and what their answers are to be."""

import contextlib
import random
import threading
import time

from farm import FAILED, JOB_CREATED, SUBMIT_JOB, WORK_COMPLETE, WORK_FAIL, Client, held, request

import service

WORK_WARNING = 29
NAMES = ("count_words", "digest", "hold", "reverse", "sort_lines", "upper")
SIZES = (0, 1, 64, 1000, 4096, 20_000, 65_536)
TEXT = bytes(random.Random(0).choices(b"abc de\nf", k=2 * max(SIZES)))


def mixed_jobs(name, count):
    """So many jobs (function, unique, data). Each fiftieth has data that is no text."""
    dice = random.Random(name)
    made = []
    for number in range(count):
        start, size = dice.randrange(max(SIZES)), dice.choice(SIZES)
        data = TEXT[start : start + size]
        made.append((dice.choice(NAMES), f"{name}-{number}", data + b"\xff" if number % 50 == 49 else data))
    return made


def wanted(function, data):
    """What a service answers to a job, or FAILED."""
    try:
        return service.services.FUNCTIONS[function](data)
    except UnicodeDecodeError:
        return FAILED


class Asker(Client):
    """A client whose jobs have unique ids."""

    def take_answers(self, jobs, patience, answers, ahead=200):
        """Asks for jobs, and puts their answers by their unique ids. So many jobs go ahead of the answers."""
        room, wrong = threading.Semaphore(ahead), []

        def send():
            try:
                for function, unique, data in jobs:
                    held(room.acquire(timeout=patience), "no answer for long")
                    self.socket.sendall(request(SUBMIT_JOB, function.encode(), unique.encode(), data))
            except (OSError, AssertionError) as error:
                wrong.append(error)

        sender = threading.Thread(target=send, daemon=True)
        sender.start()
        uniques, asked = iter([unique for _, unique, _ in jobs]), {}
        warned = set()
        while len(answers) < len(jobs):
            kind, body = self.packet()
            handle, _, data = body.partition(b"\0")
            if kind == JOB_CREATED:
                asked[handle] = next(uniques)
            elif kind == WORK_WARNING:
                warned.add(handle)
            else:
                held(kind in (WORK_COMPLETE, WORK_FAIL), f"a packet of kind {kind}: {body[:100]!r}")
                held(asked[handle] not in answers, "a job was answered twice")
                held((kind == WORK_FAIL) == (handle in warned), "a failure came without its reason, or a result with one")
                answers[asked[handle]] = data if kind == WORK_COMPLETE else FAILED
                room.release()
        sender.join(patience)
        held(not wrong, f"the client could not send: {wrong}")


def ask_rightly(port, jobs, patience, may_be_gone=False):
    """Asks for jobs, and holds their answers to what they are to be. A server that may be gone meanwhile is asked again for those that it
    has not answered; how many these were is the result."""
    answers, again = {}, 0
    end = time.monotonic() + patience
    while left := [job for job in jobs if job[1] not in answers]:
        held(time.monotonic() < end, "no server for long")
        some = {}
        try:
            with contextlib.closing(Asker(port, patience)) as client:
                client.take_answers(left, patience, some)
        except ConnectionError:
            if not may_be_gone:
                raise
            time.sleep(0.05)
            again += len(left) - len(some)
        answers.update(some)
    for function, unique, data in jobs:
        answer = answers[unique]
        held(answer == wanted(function, data), f"{unique}, {function} of {data[:40]!r}.., is answered {answer and answer[:40]!r}")
    return again
