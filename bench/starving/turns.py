"""Experiments with several programs by turns, and the table of what they come to."""

import argparse
import collections
import dataclasses
import itertools
import math
import os
import signal
import statistics
import subprocess
import sys

from by_turns import in_turn
from measure import table

# So many seconds are measured for a part of a run, and so many turns are made, if nothing else is said; and at most.
SECONDS, MOST_SECONDS = 10, 60
TURNS, MOST_TURNS = 1, 20


class Figure(collections.namedtuple("Figure", "number form")):
    """A number, with the form in which it is shown. None is no number, as if it were endless: nothing has come, or nothing ends."""

    def __str__(self):
        return "-" if self.number is None else self.form.format(self.number)


Row = collections.namedtuple("Row", "part figures")

# What a run came to: its text, and its rows in the table.
Found = collections.namedtuple("Found", "text rows")


@dataclasses.dataclass
class Experiment:
    """How a run is made, which words it is given one after another if none are named, from which to which number other words may be, and
    whether it is also made with workers that never end."""

    act: object
    variants: tuple = ("",)
    ranges: tuple = ()
    has_ceiling: bool = False

    def takes(self, variant):
        numbers = variant.split(":")
        if variant in self.variants:
            return True
        if len(numbers) > len(self.ranges):
            return False
        return all(it.isdecimal() and low <= int(it) <= high for it, (low, high) in zip(numbers, self.ranges))


class Program:
    """A program, which keys its services file has for each function, and for how many seconds a part of its runs is measured."""

    is_ceiling = False

    def __init__(self, word, seconds):
        path, _, more = word.partition(":")
        self.word, self.path, self.seconds = word, os.path.abspath(path), seconds
        key, _, number = more.partition("=")
        if more and not number.isdecimal():
            sys.exit(f"{word}: neither an experiment nor a program with KEY=NUMBER")
        if not (os.path.isfile(self.path) and os.access(self.path, os.X_OK)):
            sys.exit(f"{word}: neither an experiment nor a program")
        self.keys = {key: int(number)} if more else {}


class CeilingProgram:
    """What stands in the place of a program for workers that never end."""

    is_ceiling = True
    word, path, keys = "ceiling", None, {}

    def __init__(self, seconds):
        self.seconds = seconds


def expanded(word, experiments):
    """What is run for a word: the names of experiments with their words."""
    name, _, variant = word.partition(":")
    if name not in experiments:
        sys.exit(f"{word}: no experiment, but for these: {' '.join(experiments)}")
    if variant and not experiments[name].takes(variant):
        sys.exit(f"{word}: {name} does not take this")
    variants = [variant] if variant else experiments[name].variants
    return [f"{name}:{it}" if it else name for it in variants]


def perform(title, program, experiments):
    """What an experiment comes to with a program, or None if it goes wrong. Prints either."""
    name, *words = title.split(":")
    print(f"{title}  {program.word}", flush=True)
    try:
        found = experiments[name].act(program, *words)
    except (AssertionError, OSError, subprocess.SubprocessError) as error:
        print(f"  went wrong: {error}", flush=True)
        return None
    print(found.text, flush=True)
    return found


def median(figures):
    """The middle of what a figure was in each turn."""
    number = statistics.median(math.inf if it.number is None else it.number for it in figures)
    return Figure(None if math.isinf(number) else number, figures[0].form)


def cell(founds, part):
    """What the table has of a part with a program, by its runs."""
    rows = [row.figures for found in founds for row in found.rows if row.part == part]
    return ", ".join(str(median(figures)) for figures in zip(*rows)) or "-"


def rows_of(title, runs):
    """The rows of an experiment, one for each part, by the runs of each program."""
    parts = next(([row.part for row in found.rows] for founds in runs for found in founds), ["-"])
    return [[title, part, *[cell(founds, part) for founds in runs]] for part in parts]


def whole(least, most):
    """A whole number in a range, as an option."""

    def number(word):
        if not (word.isdecimal() and least <= int(word) <= most):
            raise argparse.ArgumentTypeError(f"{word}: no number from {least} to {most}")
        return int(word)

    return number


def options(doc, words):
    """The programs and experiments, and the numbers of seconds and of turns."""
    usage = "%(prog)s PROGRAM.. [EXPERIMENT..] [--seconds N] [--turns N]"
    parser = argparse.ArgumentParser(usage=usage, description=doc, formatter_class=argparse.RawDescriptionHelpFormatter)
    parser.add_argument("words", nargs="+", metavar="PROGRAM, EXPERIMENT")
    parser.add_argument("--seconds", type=whole(1, MOST_SECONDS), default=SECONDS)
    parser.add_argument("--turns", type=whole(1, MOST_TURNS), default=TURNS)
    return parser.parse_intermixed_args(words)


class Comparison:
    """These experiments, with each of these programs."""

    def __init__(self, experiments, titles, programs, seconds):
        self.experiments, self.titles = experiments, titles
        self.columns = [*programs, *[CeilingProgram(seconds)] * any(map(self.has_ceiling, titles))]
        self.found = {(title, it): [] for title in titles for it in self.columns}
        self.goes_well = True

    def has_ceiling(self, title):
        return self.experiments[title.partition(":")[0]].has_ceiling

    def make(self, turn):
        """Makes each experiment with each program once."""
        for at, title in enumerate(self.titles):
            wanted = [it for it in self.columns if not it.is_ceiling or self.has_ceiling(title)]
            self.compare(title, in_turn(wanted, turn + at))

    def compare(self, title, programs):
        for program in programs:
            run = perform(title, program, self.experiments)
            self.goes_well = self.goes_well and run is not None
            self.found[title, program] += [run] if run else []

    def show(self, head):
        """The table of what all came to."""
        rows = [row for title in self.titles for row in rows_of(title, [self.found[title, it] for it in self.columns])]
        print()
        table([head, "part", *[it.word for it in self.columns]], rows)


def main(doc, head, experiments, words):
    """Makes the experiments with the programs that these words name, or all, and prints what they come to."""
    given = options(doc, words)
    named = list(itertools.takewhile(lambda word: word.partition(":")[0] not in experiments, given.words))
    if not named:
        sys.exit("no program is named: -h says how")
    programs = [Program(it, given.seconds) for it in named]
    titles = [title for word in given.words[len(named) :] or experiments for title in expanded(word, experiments)]
    # Whoever ends this process ends what it has started.
    for number in (signal.SIGTERM, signal.SIGHUP):
        signal.signal(number, lambda number, _: sys.exit(128 + number))
    comparison = Comparison(experiments, list(dict.fromkeys(titles)), programs, given.seconds)
    for turn in range(given.turns):
        comparison.make(turn)
    comparison.show(head)
    sys.exit(0 if comparison.goes_well else 1)
