"""Farms that are too large for one process: 1,000 machines of 100 workers, and 10,000 functions."""

import random
from dataclasses import dataclass

MACHINES, WORKERS, FUNCTIONS = 1000, 100, 10000


@dataclass
class Farm:
    """Machines and functions are numbers from 0."""

    workers: list  # how many each machine has
    lists: list  # the functions that the workers of each machine may do, rising, each once
    waiting: list  # how many jobs wait for each function

    def machines_of(self):
        """The machines that list each function."""
        found = [[] for _ in self.waiting]
        for machine, functions in enumerate(self.lists):
            for function in functions:
                found[function].append(machine)
        return found


def drawn(draw, among, count):
    """So many of these, each once."""
    found = set()
    while len(found) < count:
        found.add(among[int(draw() * len(among))])
    return found


def chains(_draw):
    """Ten functions of its own, and the ten of the next machine."""
    return [{(10 * machine + step) % FUNCTIONS for step in range(20)} for machine in range(MACHINES)]


def groups(draw):
    """Thirty of the 250 functions of its group. A group has 25 machines, which do not follow each other by name."""
    size = FUNCTIONS // 40
    return [drawn(draw, range(machine % 40 * size, (machine % 40 + 1) * size), 30) for machine in range(MACHINES)]


def common(draw):
    """The same, and fifty functions that every machine may do."""
    return [functions | set(range(0, FUNCTIONS, FUNCTIONS // 50)) for functions in groups(draw)]


def anyhow(draw):
    """Twenty-five of all functions."""
    return [drawn(draw, range(FUNCTIONS), 25) for _ in range(MACHINES)]


def ranked(draw):
    """Twenty-five of all functions, the first ones far more often than the last."""
    among = [int(FUNCTIONS ** draw()) - 1 for _ in range(FUNCTIONS)]
    return [drawn(draw, among, 25) for _ in range(MACHINES)]


KINDS = {kind.__name__: kind for kind in (chains, groups, common, anyhow, ranked)}


def farm(kind):
    """The farm of this kind, always the same. Each function is listed, and has 1 to 9,999 waiting jobs, as often below 10 as from 1,000."""
    draw = random.Random(kind).random
    lists = KINDS[kind](draw)
    for function in set(range(FUNCTIONS)).difference(*lists):
        lists[function % MACHINES].add(function)
    waiting = [int(10 ** (4 * draw())) for _ in range(FUNCTIONS)]
    return Farm([WORKERS] * MACHINES, [sorted(functions) for functions in lists], waiting)
