#!/usr/bin/env python3
"""What `page.backlog` adds to an attempt at the limits: bench/attempt.py [TURNS [KIND ..]]

Builds bench/planning/attempt.rt.txt in a scratch copy of the repository, without proofs and optimised, and runs it on each kind of farm of
bench/planning/generate.py: 256 machines, 1,024 functions and 4,096 workers. For each there are three wanted backlogs: that of the best plan,
for which nobody is missing, half of it, and 1. Prints milliseconds of processor time: of the search for the plan of the attempt; of `pose`,
which keeps its farm before the plan is posted; and of `size`, which finds the size of that farm once it is posted. Each is what so many
turns take more in one run, 40 by default, and the least of three such runs. The rest of what a wanted backlog adds is to copy a text.
"""
import os
import shutil
import subprocess
import sys
import tempfile

sys.dont_write_bytecode = True
TOP = os.path.join(os.path.dirname(os.path.abspath(__file__)), "..")
sys.path.insert(0, f"{TOP}/tests/together")

import program

USES = "gear_status level_search live_size plan_model pool_settings"
KINDS = ("all", "half", "sparse", "chains", "triangle", "detour", "steps")


def scratch_copy(folder):
    """The crates of the repository, and the one of this bench, whose place it gives."""
    subprocess.run(["git", "init", "-q", folder], check=True)
    shutil.copytree(f"{TOP}/crates", f"{folder}/crates", ignore=shutil.ignore_patterns("out"))
    for name in ("HANDLES", "crates.txt"):
        shutil.copy(f"{TOP}/{name}", folder)
    crate = f"{folder}/crates/attempt_bench"
    os.makedirs(f"{crate}/src")
    shutil.copy(f"{TOP}/bench/planning/attempt.rt.txt", f"{crate}/src/main.rt")
    with open(f"{folder}/crates.txt", "a") as rows:
        rows.write(f"attempt_bench: {USES} bumpalo anyhow\n")
    return crate


def farm(kind, folder):
    """The settings and the status text of a farm of this kind."""
    subprocess.run([sys.executable, f"{TOP}/bench/planning/generate.py", kind, f"{folder}/{kind}"], check=True)
    return [f"{folder}/{kind}/settings.toml", f"{folder}/{kind}/status.txt"]


def run(words):
    """What the program prints, and its milliseconds of processor time."""
    child = subprocess.Popen(list(map(str, words)), stdout=subprocess.PIPE, text=True)
    said = child.stdout.read().strip()
    _, status, used = os.wait4(child.pid, 0)
    if status:
        sys.exit(f"{words}: status {status}")
    return said, 1000 * (used.ru_utime + used.ru_stime)


def measured(bench, phase, turns, files, backlog):
    """What a phase prints, and its milliseconds."""
    spent = []
    for _ in range(3):
        said, once = run([bench, phase, 1, *files, backlog])
        spent.append((run([bench, phase, 1 + turns, *files, backlog])[1] - once) / turns)
    return said, min(spent)


def main(turns="40", *kinds):
    turns = int(turns)
    with tempfile.TemporaryDirectory(prefix="attempt-") as folder:
        crate = scratch_copy(f"{folder}/top")
        files = {kind: farm(kind, folder) for kind in kinds or KINDS}
        os.mkdir(f"{folder}/made")
        bench, form = program.made(crate, f"{folder}/made", ["pose", "1", *next(iter(files.values())), "1"], os.path.isfile)
        print(f"not proved, {form}; load {os.getloadavg()[0]:.1f}")
        print(f"{'kind':10} {'backlog':>8} {'search':>8} {'pose':>8} {'size':>8}  missing", flush=True)
        for kind in files:
            best, search = measured(bench, "search", turns, files[kind], 1)
            for backlog in (int(best), (int(best) + 1) // 2, 1):
                posed = measured(bench, "pose", turns, files[kind], backlog)[1]
                missing, sized = measured(bench, "size", turns, files[kind], backlog)
                print(f"{kind:10} {backlog:8} {search:8.1f} {posed:8.1f} {sized:8.1f}  {missing}", flush=True)


if __name__ == "__main__":
    main(*sys.argv[1:])
