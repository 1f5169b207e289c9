"""The least backlog that a farm can have, by a plain program: bisection over the level, with a maximum flow at each."""

import sys


def ceiling(jobs, workers):
    return -(-jobs // workers)


def needs(waiting, level):
    """How many workers each function needs, so that no more than so many jobs wait for each of them."""
    return [ceiling(jobs, level) for jobs in waiting]


class Flow:
    """Workers given to functions, counted by machine: as many as can be, by Dinic's way with shortest alternating paths."""

    def __init__(self, farm, need):
        self.machines_of = farm.machines_of()
        self.free = list(farm.workers)
        self.lack = list(need)
        self.given = [dict.fromkeys(functions, 0) for functions in farm.lists]
        self.give_free()
        while any(self.lack) and self.search():
            self.give_along_paths()

    def give_free(self):
        """Functions that few machines list come first, and take who is free."""
        pairs = [(function, machine) for function, machines in enumerate(self.machines_of) for machine in machines]
        for function, machine in sorted(pairs, key=lambda pair: len(self.machines_of[pair[0]])):
            count = min(self.lack[function], self.free[machine])
            self.given[machine][function] += count
            self.free[machine] -= count
            self.lack[function] -= count

    def search(self):
        """Whether a function that lacks workers has a path to a free one. Notes at which step of a path each function and machine is."""
        self.step_of = [0 if lack else None for lack in self.lack]
        self.step_to = [None] * len(self.free)
        step, row = 0, [function for function, lack in enumerate(self.lack) if lack]
        while row:
            machines = self.machines_after(row, step)
            if any(self.free[machine] for machine in machines):
                return True
            step += 1
            row = self.functions_after(machines, step)
        return False

    def machines_after(self, row, step):
        found = {machine for function in row for machine in self.machines_of[function] if self.step_to[machine] is None}
        for machine in found:
            self.step_to[machine] = step
        return found

    def functions_after(self, machines, step):
        given = (item for machine in machines for item in self.given[machine].items())
        found = {function for function, count in given if count and self.step_of[function] is None}
        for function in found:
            self.step_of[function] = step
        return found

    def give_along_paths(self):
        self.untried = [list(machines) for machines in self.machines_of]
        for function, lack in enumerate(self.lack):
            if lack:
                self.lack[function] -= self.give(function, lack)

    def give(self, function, wanted):
        """Gives the function up to so many workers more, and says how many."""
        got, machines = 0, self.untried[function]
        while machines and got < wanted:
            count = self.release(machines[-1], self.step_of[function], wanted - got)
            self.given[machines[-1]][function] += count
            got += count
            if not count:
                machines.pop()
        return got

    def release(self, machine, step, wanted):
        """Frees up to so many workers of a machine at this step of a path, and says how many. With 0 it can free none."""
        if self.step_to[machine] != step:
            return 0
        if self.free[machine]:
            count = min(self.free[machine], wanted)
            self.free[machine] -= count
            return count
        for function, held in self.given[machine].items():
            if held and self.step_of[function] == step + 1:
                count = self.give(function, min(held, wanted))
                self.given[machine][function] -= count
                if count:
                    return count
        return 0

    def short(self):
        """The functions that together need more workers than may do any of them, when some lack workers that nobody can give."""
        return [function for function, step in enumerate(self.step_of) if step is not None]


def is_plan(farm, level, given):
    """Whether this gives each function the workers that it needs, counted from the farm alone."""
    permitted = all(set(counts) <= set(functions) for counts, functions in zip(given, farm.lists))
    fits = all(sum(counts.values()) <= workers for counts, workers in zip(given, farm.workers))
    return permitted and fits and backlog(farm, given) <= level


def is_short(farm, level, functions):
    """Whether these functions need more workers than may do any of them, counted from the farm alone."""
    among = set(functions)
    able = sum(workers for workers, listed in zip(farm.workers, farm.lists) if among.intersection(listed))
    return sum(ceiling(farm.waiting[function], level) for function in among) > able


def backlog(farm, given):
    """The greatest number of waiting jobs for each worker of a function; infinite if a function with waiting jobs has none."""
    served = [0] * len(farm.waiting)
    for counts in given:
        for function, count in counts.items():
            served[function] += count
    return max(ceiling(jobs, workers) if workers else float("inf") for jobs, workers in zip(farm.waiting, served) if jobs)


def best(farm):
    """The least backlog. A plan shows that it can be had, and a set of functions that no lower one can; both are counted again here."""
    sys.setrecursionlimit(100 * len(farm.workers))
    low, high, short, given = 0, max(farm.waiting), None, None
    while high - low > 1 or given is None:
        level = high if given is None else (low + high) // 2
        flow = Flow(farm, needs(farm.waiting, level))
        if not any(flow.lack):
            high, given = level, flow.given
        elif given is None:
            sys.exit("bench/scale: in every plan a function with waiting jobs has no worker")
        else:
            low, short = level, flow.short()
    if not is_plan(farm, high, given) or (low and not is_short(farm, low, short)):
        sys.exit("bench/scale: the best backlog is not shown")
    return high
