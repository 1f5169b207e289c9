"""The parts of a trial, each of which has a folder and processes of its own."""

import os

import suite
from starting import Processes


def try_part(part, program, folder):
    os.mkdir(f"{folder}/{part.__name__}")
    with Processes(f"{folder}/{part.__name__}") as processes:
        part(program, processes)


def try_parts(parts, program, folder):
    for part in parts:
        try_part(part, program, folder)


def count_or_try(parts, words):
    """With the word `count` says how many parts there are, and else tries them: a program, a folder, and their names, or none for all."""
    if words == ["count"]:
        print(len(parts))
        return
    program, folder, *names = words
    try_parts([part for part in parts if not names or part.__name__ in names], program, folder)
    if not names:
        suite.passed("serve", len(parts))
