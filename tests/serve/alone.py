"""Parts of a trial that have a network of their own, if this system lets a test have one."""

import fcntl
import shutil
import socket
import struct
import subprocess
import sys

import suite
from in_parts import try_part, try_parts

# What gives a part a network of its own.
ALONE = ("unshare", "--map-root-user", "--mount", "--net")

# What Linux calls a network interface that is up, the request for it, and that for a further address.
IFF_UP, SIOCSIFFLAGS, SIOCSIFADDR = 1, 0x8914, 0x8916


def can_be_alone():
    """Whether this system lets a test have a network of its own."""
    return subprocess.run([*ALONE, "true"], stdin=subprocess.DEVNULL, stderr=subprocess.DEVNULL).returncode == 0


def alone(part, program, processes):
    """A part in a network of its own, by its trial."""
    words = [*ALONE, sys.executable, part.__code__.co_filename, program, processes.folder, part.__name__]
    subprocess.run(words, stdin=subprocess.DEVNULL, check=True)


def raise_loopback():
    """Lets the loopback of a new network carry packets."""
    up = struct.pack("16sh14x", b"lo", IFF_UP)
    with socket.socket(socket.AF_INET, socket.SOCK_DGRAM) as it:
        fcntl.ioctl(it, SIOCSIFFLAGS, up)


def name_loopback(address):
    """Gives the loopback of a new network a further address."""
    named = struct.pack("16sHH4s8x", b"lo:1", socket.AF_INET, 0, socket.inet_aton(address))
    with socket.socket(socket.AF_INET, socket.SOCK_DGRAM) as it:
        fcntl.ioctl(it, SIOCSIFADDR, named)


def why_not_alone(tools):
    """Why no part can have a network of its own, for which it needs these tools: what is missing, and in which way. None if each can."""
    for package, tool in tools.items():
        if not shutil.which(tool):
            return package, "not installed"
    return None if can_be_alone() else ("a network of its own", "not allowed here")


def count_or_try(trial, parts, want_a_network, words, **tools):
    """With the word `count` says how many parts there are. Else tries those of a trial that it names, after a program and a folder, or all:
    those that want a network of their own, and these tools by their packages, are left out by name where they cannot have that."""
    if words == ["count"]:
        print(len(parts))
        return
    program, folder, *names = words
    for name in names:
        try_part(trial[name], program, folder)
    if not names:
        why = why_not_alone(tools)
        left_out = want_a_network if why else ()
        tried = [part for part in parts if part not in left_out]
        try_parts(tried, program, folder)
        for part in left_out:
            suite.skipped("serve", 1, f"{part.__name__}, {why[0]}", why[1])
        suite.passed("serve", len(tried))
