"""A farm in parts, each of which one process can plan."""

import re
import subprocess
import sys

from farm import Farm

# What one process takes.
MOST_MACHINES, MOST_FUNCTIONS, MOST_WORKERS = 256, 1024, 4096


class Part:
    """Some machines of a farm, with all functions that they list, and how many of their workers may do each."""

    def __init__(self, farm):
        self.farm = farm
        self.machines, self.able, self.workers = [], {}, 0

    def added(self, machine):
        """How many functions the part would have more with this machine."""
        return sum(function not in self.able for function in self.farm.lists[machine])

    def has_room(self, machine):
        fits = self.workers + self.farm.workers[machine] <= MOST_WORKERS and len(self.machines) < MOST_MACHINES
        return fits and len(self.able) + self.added(machine) <= MOST_FUNCTIONS

    def add(self, machine):
        self.machines.append(machine)
        self.workers += self.farm.workers[machine]
        for function in self.farm.lists[machine]:
            self.able[function] = self.able.get(function, 0) + self.farm.workers[machine]

    def alone(self, waiting):
        """The part as a farm of its own, with so many waiting jobs of each function."""
        number = {function: at for at, function in enumerate(sorted(self.able))}
        lists = [[number[function] for function in self.farm.lists[machine]] for machine in self.machines]
        return Farm([self.farm.workers[machine] for machine in self.machines], lists, [waiting[function] for function in number])

    def settings(self):
        functions = "".join(f"[functions.f{function:05}]\n" for function in self.able)
        return f"version = 1\n{functions}{''.join(map(self.table, self.machines))}"

    def table(self, machine):
        listed = ", ".join(f'"f{function:05}"' for function in self.farm.lists[machine])
        return f"[machines.m{machine:04}]\nworkers = {self.farm.workers[machine]}\nfunctions = [{listed}]\n"


def grown(farm, left):
    """A part with as many of these machines as fit, which are taken from them."""
    part = Part(farm)
    while fitting := [machine for machine in left if part.has_room(machine)]:
        part.add(min(fitting, key=part.added))
        left.remove(part.machines[-1])
    return part


def split(farm):
    """The parts of a farm. One after the other takes the machine that adds the fewest functions, the first of equals, until none fits."""
    left, parts = list(range(len(farm.workers))), []
    while left:
        parts.append(grown(farm, left))
        if not parts[-1].machines:
            sys.exit("bench/scale: a machine alone is too large for one process")
    return parts


def shared(jobs, weights):
    """So many jobs, in these proportions: each share is rounded up or down."""
    before, shares = 0, []
    for weight in weights:
        shares.append(jobs * (before + weight) // sum(weights) - jobs * before // sum(weights))
        before += weight
    return shares


def shares(farm, weights):
    """The waiting jobs of each function, shared between the parts in proportion to the weights that they have for it."""
    found = [{} for _ in weights]
    for function, jobs in enumerate(farm.waiting):
        serving = [part for part, weight in enumerate(weights) if function in weight]
        for part, share in zip(serving, shared(jobs, [weights[part][function] for part in serving])):
            found[part][function] = share
    return found


def status(waiting):
    """The status text of a server with so many waiting jobs of each function."""
    return "".join(f"f{function:05}\t{jobs}\t0\t0\n" for function, jobs in waiting.items()) + ".\n"


def plan(program, settings, text):
    """The backlog that the program reports for this settings file and status text, and how many workers serve each function."""
    ended = subprocess.run([program, "plan", settings], input=text, capture_output=True, text=True)
    found = re.match(r"report 1\n(backlog|unserved) (\d+)\n", ended.stdout)
    if ended.returncode or not found:
        sys.exit(f"bench/scale: plan {settings} ended with status {ended.returncode}: {ended.stdout[:80]}{ended.stderr}")
    served = {}
    for function in re.findall(r"^work m\d+/\d+ f(\d+)$", ended.stdout, re.M):
        served[int(function)] = served.get(int(function), 0) + 1
    return int(found[2]) if found[1] == "backlog" else float("inf"), served
