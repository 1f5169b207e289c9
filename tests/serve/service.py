#!/usr/bin/env python3
"""The service of examples/serve with four functions more: service.py PORT ORDER

If the file ORDER is there, the next job is never done: the file's name becomes ORDER.held, and the service waits until it is killed. A job
whose data is POISON is never answered: its connection is closed.
"""
import hashlib
import os
import sys
import threading

sys.dont_write_bytecode = True
sys.path.insert(0, os.path.join(os.path.dirname(os.path.abspath(__file__)), "../../examples/serve"))

import services

POISON = b"poison"


def reverse(data):
    return data[::-1]


def digest(data):
    return hashlib.sha256(data).hexdigest().encode()


def sort_lines(data):
    return b"\n".join(sorted(data.split(b"\n")))


def hold(data):
    return data


def held_on_order(do, order):
    """A function that does what another one does, but for a job that is held."""

    def do_or_hold(data):
        if data == POISON:
            # It ends the thread of the connection, and nothing is said of it.
            raise SystemExit
        try:
            os.rename(order, f"{order}.held")
        except FileNotFoundError:
            return do(data)
        threading.Event().wait()

    return do_or_hold


services.FUNCTIONS.update(reverse=reverse, digest=digest, sort_lines=sort_lines, hold=hold)

if __name__ == "__main__":
    for name, do in services.FUNCTIONS.items():
        services.FUNCTIONS[name] = held_on_order(do, sys.argv[2])
    services.main(int(sys.argv[1]))
