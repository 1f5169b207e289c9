"""Runs processes side by side, each in a process group of its own, of which nothing is left."""

import contextlib
import ctypes
import dataclasses
import os
import signal
import subprocess
import time

# What ends the whole run, and what tells that a child has ended.
ENDING = (signal.SIGINT, signal.SIGTERM, signal.SIGHUP)
AWAITED = {*ENDING, signal.SIGCHLD}

# A request to Linux: an orphan of those below becomes a child of this process.
PR_SET_CHILD_SUBREAPER = 36

# So many seconds an ended suite has to clear up, before it is killed.
PATIENCE = 10


class Interrupted(Exception):
    """A signal that ends the whole run."""

    def __init__(self, number):
        super().__init__(number)
        self.number = number


@dataclasses.dataclass
class Ended:
    """How a process has ended: its status, negative for a signal, what it wrote, and how long it took."""

    status: int
    said: str
    seconds: float


def take_signals():
    """Signals wait until they are asked for, and orphans come to this process. Call it once, before anything is started."""
    for number in ENDING:
        # `nohup` has it that a terminal that goes away ends nothing.
        if number != signal.SIGHUP or signal.getsignal(number) != signal.SIG_IGN:
            signal.signal(number, lambda *_: None)
    signal.pthread_sigmask(signal.SIG_BLOCK, AWAITED)
    ctypes.CDLL(None).prctl(PR_SET_CHILD_SUBREAPER, 1, 0, 0, 0)


def as_a_child():
    """Signals are to a child what they are to any program."""
    for number in ENDING:
        signal.signal(number, signal.SIG_DFL)
    signal.pthread_sigmask(signal.SIG_UNBLOCK, AWAITED)


def descendants():
    """All processes below this one."""
    children = {}
    for name in os.listdir("/proc"):
        if name.isdigit():
            with contextlib.suppress(OSError), open(f"/proc/{name}/stat", encoding="utf-8", errors="replace") as stat:
                children.setdefault(int(stat.read().rpartition(")")[2].split()[1]), []).append(int(name))
    found, left = [], [os.getpid()]
    while left:
        below = children.get(left.pop(), [])
        found += below
        left += below
    return found


def limits_of_group(name):
    """The numbers that the control group of a container has in this file; none if there is no such limit."""
    with contextlib.suppress(OSError, ValueError), open(f"/sys/fs/cgroup/{name}", encoding="ascii") as text:
        return [int(word) for word in text.read().split()]
    return []


def processors():
    """How many processes may run at once."""
    count = len(os.sched_getaffinity(0))
    quota = limits_of_group("cpu.max")
    return max(min(count, quota[0] // quota[1]), 1) if quota else count


def free_gigabytes():
    """The memory that may be taken."""
    with open("/proc/meminfo", encoding="ascii") as text:
        free = int(dict(line.split(":") for line in text)["MemAvailable"].split()[0]) << 10
    most, taken = limits_of_group("memory.max"), limits_of_group("memory.current")
    if most and taken:
        free = min(free, most[0] - taken[0])
    return free / (1 << 30)


class Group:
    """One process and all that it starts."""

    def __init__(self, words, folder, environment):
        os.mkdir(folder)
        # A suite may run the program as another user, who has to come this far.
        os.chmod(folder, 0o711)
        self.folder, self.log = folder, f"{folder}.log"
        environment = {**environment, "TMPDIR": folder}
        with open(self.log, "wb") as log:
            self.child = subprocess.Popen(
                words, stdin=subprocess.DEVNULL, stdout=log, stderr=log, env=environment, start_new_session=True, preexec_fn=as_a_child
            )
        self.begun = time.monotonic()

    def kill(self, number):
        with contextlib.suppress(ProcessLookupError):
            os.killpg(self.child.pid, number)

    def ended(self, status):
        self.kill(signal.SIGKILL)
        with open(self.log, encoding="utf-8", errors="replace") as log:
            return Ended(status, log.read(), time.monotonic() - self.begun)


class Runner:
    """The groups that run, by the process that each began with."""

    def __init__(self, most):
        self.most = most
        self.groups = {}
        self.started = 0

    def start(self, words, folder, environment):
        """Starts a group that has a folder of its own in this one for its files."""
        self.started += 1
        group = Group(words, f"{folder}/{self.started}", environment)
        self.groups[group.child.pid] = group
        return group

    def reap(self):
        """The groups whose first process has ended, with how."""
        found = []
        while True:
            try:
                number, status = os.waitpid(-1, os.WNOHANG)
            except ChildProcessError:
                return found
            if number == 0:
                return found
            group = self.groups.pop(number, None)
            if group is not None:
                status = os.waitstatus_to_exitcode(status)
                group.child.returncode = status
                found.append((group, group.ended(status)))

    def wait(self):
        """Waits until a group has ended, and gives those that have. One that takes too long is ended."""
        while True:
            found = self.reap()
            if found:
                return found
            told = signal.sigtimedwait(AWAITED, 10)
            if told is not None and told.si_signo in ENDING:
                raise Interrupted(told.si_signo)
            for group in self.groups.values():
                late = time.monotonic() - group.begun - self.most
                if late > 0:
                    group.kill(signal.SIGTERM if late < PATIENCE else signal.SIGKILL)

    def end(self):
        """Ends all that still runs, and waits for it."""
        for group in self.groups.values():
            group.kill(signal.SIGTERM)
        until = time.monotonic() + PATIENCE
        while self.groups and time.monotonic() < until:
            self.reap()
            if self.groups:
                signal.sigtimedwait({signal.SIGCHLD}, 0.2)
        until = time.monotonic() + PATIENCE
        while (left := descendants()) and time.monotonic() < until:
            for number in left:
                with contextlib.suppress(ProcessLookupError):
                    os.kill(number, signal.SIGKILL)
            self.reap()
            time.sleep(0.02)
        self.groups = {}
