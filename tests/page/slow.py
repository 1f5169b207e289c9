#!/usr/bin/env python3
"""The service of examples/serve with jobs that take their time: slow.py PORT

A job whose data is `bad` fails.
"""
import os
import sys
import time

sys.dont_write_bytecode = True
sys.path.insert(0, os.path.join(os.path.dirname(os.path.abspath(__file__)), "../../examples/serve"))

import services

# The seconds of a job.
TIMES = {"mail": 0.005, "resize": 0.04, "thumbnail": 0.015, "transcode": 0.09}


def slow(seconds):
    """A function that takes so many seconds."""

    def do(data):
        time.sleep(seconds)
        if data == b"bad":
            raise ValueError("not a picture")
        return data

    return do


services.FUNCTIONS.update({name: slow(seconds) for name, seconds in TIMES.items()})

if __name__ == "__main__":
    services.main(int(sys.argv[1]))
