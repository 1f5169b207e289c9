#!/usr/bin/env python3
"""Processor minutes of the gate by crate: bench/gate.py [COMMAND ..]

Runs the command, `bash .ci/run` if none is given, and looks twice a second at the processes that it started. Prints, for
each crate that the kit worked on, the processor minutes of its proof, of its tests and of its must-fail edits; then the longest
chain of crates, each of which stands on the one before it, by the minutes of their proofs; and the minutes by the clock, with the
processors and the most memory that was in use beyond what was before. What a process used in its last half second is not seen, so
the figures are a little low. Exits as the command did.
"""
import collections
import os
import pathlib
import re
import subprocess
import sys
import time

TICKS = os.sysconf("SC_CLK_TCK")


def processes():
    """The parent, start and processor seconds of each process."""
    found = {}
    for name in filter(str.isdigit, os.listdir("/proc")):
        try:
            with open(f"/proc/{name}/stat") as stat:
                fields = stat.read().rpartition(")")[2].split()
        except OSError:
            continue
        used = (int(fields[11]) + int(fields[12])) / TICKS
        found[int(name)] = (int(fields[1]), int(fields[19]), used)
    return found


def descendants(found, root):
    """The processes that come from this one, and it."""
    children = collections.defaultdict(list)
    for number, (parent, _, _) in found.items():
        children[parent].append(number)
    reached = [root]
    for number in reached:
        reached += children[number]
    return reached


def work_of(number):
    """The crate that a process works on, and the kind of work."""
    try:
        with open(f"/proc/{number}/cmdline") as line:
            words = line.read().split("\0")
        folder = os.readlink(f"/proc/{number}/cwd")
    except OSError:
        return None
    if "--crate-name" not in words:
        return ("", "other")
    crate = words[words.index("--crate-name") + 1]
    if re.match(r".*/rt-edit-\w+", folder):
        return (crate, "edits")
    return (crate, "tests" if "--test" in words else "proof")


def memory_in_use():
    """The bytes of memory that are not free for a new process."""
    with open("/proc/meminfo") as lines:
        found = {line.split(":")[0]: int(line.split()[1]) * 1024 for line in lines}
    return found["MemTotal"] - found["MemAvailable"]


def measure(command):
    """The exit status of the command, its seconds by the clock, the most memory, and processor seconds by process and its work."""
    used, works = {}, {}
    start, before, most = time.monotonic(), memory_in_use(), 0
    running = subprocess.Popen(command, stdin=subprocess.DEVNULL)
    while running.poll() is None:
        found, most = processes(), max(most, memory_in_use() - before)
        for number in descendants(found, running.pid):
            if number not in found:
                continue
            key = (number, found[number][1])
            if works.get(key) is None or works[key][1] == "other":
                works[key] = work_of(number)
            used[key] = found[number][2]
        time.sleep(0.5)
    seconds = [(works[key] or ("", "other"), used[key]) for key in used]
    return running.returncode, time.monotonic() - start, most, seconds


def longest_chain(minutes):
    """The crates of the longest chain, lowest first, by these minutes of each crate, and their sum."""
    top = pathlib.Path(__file__).resolve().parent.parent
    rows = [line.partition("#")[0].partition(":") for line in (top / "crates.txt").read_text().splitlines()]
    below = {head.split()[0]: libraries.split() for head, _, libraries in rows if head.strip()}
    chains = {}

    def chain(crate):
        if crate not in chains:
            under = max((chain(it) for it in below[crate] if it in below), key=lambda it: it[1], default=((), 0.0))
            chains[crate] = ((*under[0], crate), under[1] + minutes.get(crate, 0.0))
        return chains[crate]

    return max((chain(crate) for crate in below), key=lambda it: it[1])


def main():
    status, clock, most, measured = measure(sys.argv[1:] or ["bash", ".ci/run"])
    table = collections.defaultdict(lambda: collections.Counter())
    for (crate, kind), seconds in measured:
        table[crate or "the rest"][kind] += seconds / 60
    print("| crate | proof | tests | edits | other | together |")
    print("|---|---|---|---|---|---|")
    for crate, minutes in sorted(table.items(), key=lambda row: -sum(row[1].values())):
        cells = [minutes[kind] for kind in ("proof", "tests", "edits", "other")]
        print(f"| `{crate}` | " + " | ".join(f"{cell:.1f}" for cell in cells + [sum(cells)]) + " |")
    crates, sum_of_chain = longest_chain({crate: minutes["proof"] for crate, minutes in table.items()})
    print(f"the longest chain of proofs, {sum_of_chain:.0f} minutes: " + ", ".join(f"{it} {table[it]['proof']:.1f}" for it in crates))
    total = sum(sum(minutes.values()) for minutes in table.values())
    print(f"{total:.0f} processor minutes in {clock / 60:.0f} minutes by the clock, on {len(os.sched_getaffinity(0))} processors,"
          f" with {most / 1e9:.1f} GB at the most, exit status {status}")
    sys.exit(status)


if __name__ == "__main__":
    main()
