"""What earlier runs have shown, by the checksum of all that they read."""

import hashlib
import os
import re

import kit

TOP = os.path.dirname(os.path.dirname(os.path.dirname(os.path.abspath(__file__))))

# What is made here stays in this folder, which git ignores.
OUT = f"{TOP}/tests/out"


def libraries():
    """The libraries of each crate, as crates.txt has them."""
    found = {}
    with open(f"{TOP}/crates.txt", encoding="utf-8") as text:
        for line in text:
            head, _, listed = line.partition("#")[0].partition(":")
            if head.strip():
                found[head.split()[0]] = listed.split()
    return found


def with_those_below(names):
    """These crates and all crates that they stand on."""
    known, found, left = libraries(), set(), list(names)
    while left:
        name = left.pop()
        if name in known and name not in found:
            found.add(name)
            left += known[name]
    return found


def files_of(path):
    """A file, or all files of a folder but what was made there."""
    if os.path.isfile(path):
        yield path
    for folder, folders, names in os.walk(path):
        folders[:] = sorted(name for name in folders if name not in ("out", "__pycache__"))
        yield from (f"{folder}/{name}" for name in sorted(names))


def sum_of(crates, others):
    """The checksum of the kit, of the sources and definitions of these crates and of those below them, and of other files and folders."""
    crates = sorted(with_those_below(crates))
    paths = [f"{TOP}/crates/{name}/{part}" for name in crates for part in ("src", "specs")]
    total = hashlib.sha256(kit.version().encode())
    known = libraries()
    for name in crates:
        total.update(f"{name}: {known[name]}\n".encode())
    for path in (file for whole in [*paths, f"{TOP}/HANDLES", *others] for file in files_of(whole)):
        with open(path, "rb") as file:
            text = file.read()
        total.update(f"{os.path.relpath(path, TOP)} {len(text)}\n".encode() + text)
    return total.hexdigest()


def sum_of_file(path):
    """The checksum of one file."""
    with open(path, "rb") as file:
        return hashlib.sha256(file.read()).hexdigest()


def note_of(name):
    """The file that keeps what was shown under this name."""
    return f"{OUT}/kept/{re.sub(r'[^a-z_]', '-', name)}"


def recall(name, key):
    """What was kept under this name, if all that was read is the same."""
    try:
        with open(note_of(name), encoding="utf-8") as note:
            kept, _, told = note.read().partition("\n")
    except OSError:
        return None
    return told if kept == key else None


def keep(name, key, told):
    """Keeps this for the next run."""
    os.makedirs(f"{OUT}/kept", exist_ok=True)
    with open(f"{note_of(name)}.new", "w", encoding="utf-8") as note:
        note.write(f"{key}\n{told}")
    os.replace(f"{note_of(name)}.new", note_of(name))
