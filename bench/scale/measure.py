"""How far the parts of a large farm are from the best plan of the whole: bench/scale/measure.py [PROGRAM]

Makes each kind of farm, finds the best backlog of the whole by a plain program, and splits the farm. A row has how many functions several
parts serve, the best backlog of the whole, and the worst backlog that a part has by its best plan, by how many jobs wait in the part for a
function that several serve:

- whole: all of them, as processes beside each other at one job server see it
- shared: its share, in proportion to the workers of the part that may do the function

With a PROGRAM `PROGRAM plan` plans each part, and has to report the backlogs that the plain program finds. Then come the backlogs of all
these plans together (for a function that several parts serve, their workers are added up), also

- again: as shared, then five times with shares in proportion to the workers that the last plan of the part gave the function

and processor seconds of the plans of all parts once, and of the longest plan.
"""

import os
import sys
import tempfile
import time

sys.dont_write_bytecode = True

from best import backlog, best
from farm import KINDS, farm as made
from parts import plan, shares, split, status

AGAIN = 5
COLUMNS = ("farm", "parts", "in several", "best", "whole", "shared", "best s", "split s")
PROGRAM_COLUMNS = ("together:", "whole", "shared", "again", "plans s", "longest s")


class Planned:
    """The parts of a farm, with their settings as files, and the processor seconds of each plan so far."""

    def __init__(self, program, folder, farm, parts):
        self.program, self.farm, self.parts, self.seconds = program, farm, parts, []
        self.settings = [f"{folder}/{number}.toml" for number in range(len(parts))]
        for path, part in zip(self.settings, parts):
            with open(path, "w", encoding="ascii") as file:
                file.write(part.settings())

    def plan_part(self, number, waiting):
        before = os.times()
        planned = plan(self.program, self.settings[number], status(waiting))
        after = os.times()
        self.seconds.append(after.children_user + after.children_system - before.children_user - before.children_system)
        return planned

    def plan(self, waiting):
        """What each part reports, the backlog of all together, and how many workers each part gives each function."""
        planned = [self.plan_part(number, of_part) for number, of_part in enumerate(waiting)]
        served = [{function: counts.get(function, 0) for function in part.able} for (_, counts), part in zip(planned, self.parts)]
        reported, together = [one for one, _ in planned], backlog(self.farm, served)
        if together > max(reported) or together == float("inf"):
            sys.exit(f"bench/scale: the parts together have a backlog of {together}, and report {max(reported)} at most")
        return reported, together, served

    def plan_as(self, waiting, expected):
        """The same, if the plain program has found these backlogs."""
        reported, together, served = self.plan(waiting)
        if reported != expected:
            sys.exit(f"bench/scale: the parts report {reported}, and the plain program finds {expected}")
        return together, served

    def again(self, served):
        """The backlog of all together, after so many times with shares by who was given to a function."""
        for _ in range(AGAIN):
            _, together, served = self.plan(shares(self.farm, served))
        return together


def timed(work, *given):
    start = time.process_time()
    return work(*given), time.process_time() - start


def above(least, worst):
    return f"{worst} (+{100 * (worst - least) / least:.0f}%)"


def best_of_parts(parts, waiting):
    return [best(part.alone(of_part)) for part, of_part in zip(parts, waiting)]


def cells_of_program(planned, least, ways, expected):
    whole, _ = planned.plan_as(ways[0], expected[0])
    shared, served = planned.plan_as(ways[1], expected[1])
    together = [above(least, one) for one in (whole, shared, planned.again(served))]
    plans = sum(planned.seconds) / len(planned.seconds) * len(planned.parts)
    return ["", *together, f"{plans:.2f}", f"{max(planned.seconds):.2f}"]


def row(program, kind, folder):
    farm = made(kind)
    least, best_seconds = timed(best, farm)
    parts, split_seconds = timed(split, farm)
    several = sum(sum(function in part.able for part in parts) > 1 for function in range(len(farm.waiting)))
    ways = [[dict(enumerate(farm.waiting))] * len(parts), shares(farm, [part.able for part in parts])]
    expected = [best_of_parts(parts, waiting) for waiting in ways]
    worst = [above(least, max(backlogs)) for backlogs in expected]
    cells = [kind, len(parts), several, least, *worst, f"{best_seconds:.2f}", f"{split_seconds:.2f}"]
    return cells if program is None else cells + cells_of_program(Planned(program, folder, farm, parts), least, ways, expected)


def main(program):
    print(*(f"{column:>12}" for column in COLUMNS + (PROGRAM_COLUMNS if program else ())))
    for kind in KINDS:
        with tempfile.TemporaryDirectory(prefix="scale-") as folder:
            print(*(f"{cell:>12}" for cell in row(program, kind, folder)), flush=True)


if __name__ == "__main__":
    main(os.path.realpath(sys.argv[1]) if len(sys.argv) > 1 else None)
