"""The front end of the kit, in a copy that does less."""

import functools
import os
import shutil
import stat
import subprocess
import sys

# `rt try` also asks the checker for names that it would refuse. That is a hint, and it takes as long as the rest, and up to 3 GB.
NO_HINT = """#!/bin/sh
case " $* " in *" --start no function "*) exit 0 ;; esac
exec "{kit}/bin/rattle" "$@"
"""


def kit_folder():
    """The folder of the kit whose `rt` is the one on PATH."""
    front_end = shutil.which("rt")
    if front_end is None:
        sys.exit("tests: no rt on PATH, so the kit of Rattle is not installed")
    return os.path.dirname(os.path.dirname(os.path.realpath(front_end)))


@functools.lru_cache(None)
def version(front_end="rt"):
    """What names the kit."""
    told = subprocess.run([front_end, "version"], stdin=subprocess.DEVNULL, capture_output=True, text=True)
    return told.stdout.strip() if told.returncode == 0 else ""


def write_script(path, text):
    """Writes a script that can be run, in place of the link that is there."""
    if os.path.lexists(path):
        os.remove(path)
    with open(path, "w", encoding="utf-8") as file:
        file.write(text)
    os.chmod(path, 0o755)


def link_all(source, folder, but=()):
    """Makes a folder with a link to each file of another one."""
    os.mkdir(folder)
    for name in os.listdir(source):
        if name not in but:
            os.symlink(f"{source}/{name}", f"{folder}/{name}")


def copy_front_end(folder):
    """Makes a kit in this folder whose `rt try` gives no hints, and returns the path of its `rt`. All else are links to the kit."""
    kit = kit_folder()
    link_all(kit, folder, but=("bin",))
    link_all(f"{kit}/bin", f"{folder}/bin", but=("rt", "rtlib.py"))
    for name in ("rt", "rtlib.py"):
        shutil.copy(f"{kit}/bin/{name}", f"{folder}/bin/{name}")
    os.chmod(f"{folder}/bin/rt", os.stat(f"{folder}/bin/rt").st_mode | stat.S_IXUSR)
    write_script(f"{folder}/bin/rattle", NO_HINT.format(kit=kit))
    return f"{folder}/bin/rt"
