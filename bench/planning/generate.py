#!/usr/bin/env python3
"""Writes settings and a status text of 256 machines, 1,024 functions and 4,096 workers: generate.py KIND FOLDER

The kinds are those of main.rt beside this file. Queues have 1 to 1,000 jobs unless a kind says otherwise:

all: every machine may do everything
half: half of the pairs
sparse: eight functions a machine
chains: four functions of its own and four of the next machine
triangle: machine m may do the first 4 * (256 - m) functions, queues of 1,000
detour: 500 functions share 176 machines, and one more may be done by 80 of them and 80 others; all workers are needed
steps: every machine may do everything, 312 functions have 2,260 jobs each and 334 have 218; the most looks of all inputs tried
"""
import os
import sys

MACHINES, FUNCTIONS, WORKERS = 256, 1024, 16


def mixed(machine, function):
    return ((machine * 2654435761 + function * 40503) & 0xFFFFFFFF) >> 15


MAY = {
    "all": lambda machine, function: True,
    "steps": lambda machine, function: True,
    "half": lambda machine, function: mixed(machine, function) % 2 == 0,
    "sparse": lambda machine, function: mixed(machine, function) % 128 == 0,
    "chains": lambda machine, function: function // 4 in (machine, machine + 1),
    "triangle": lambda machine, function: function < FUNCTIONS - 4 * machine,
    "detour": lambda machine, function: function < 500 if machine < 96 else function <= 500 if machine < 176 else function >= 500,
}


def waiting(kind, function):
    if kind == "triangle":
        return 1000
    if kind == "steps":
        return 2260 if function < 312 else 218 if function < 646 else 0
    if kind == "detour":
        return 1000 if function < 184 else 1200 if function < 500 else 256000 if function == 500 else 0
    return function * 7919 % 1000 + 1


def main():
    kind, folder = sys.argv[1:]
    names = [f"f{function:04}" for function in range(FUNCTIONS)]
    os.makedirs(folder, exist_ok=True)
    with open(os.path.join(folder, "settings.toml"), "w") as settings:
        settings.write("version = 1\n")
        for name in names:
            settings.write(f"[functions.{name}]\n")
        for machine in range(MACHINES):
            listed = [f'"{name}"' for function, name in enumerate(names) if MAY[kind](machine, function)]
            settings.write(f"[machines.m{machine:03}]\nworkers = {WORKERS}\nfunctions = [{', '.join(listed)}]\n")
    with open(os.path.join(folder, "status.txt"), "w") as status:
        for function, name in enumerate(names):
            status.write(f"{name}\t{waiting(kind, function)}\t0\t0\n")
        status.write(".\n")


main()
