#!/usr/bin/env python3
"""The example with jobs of its own against Debian's gearmand: tests/gearmand/own_jobs.py PROGRAM

Three workers for its two jobs do 150 jobs, of which 50 fail. Status 0 says that each was answered as it should be, and accounted for."""

import os
import sys

sys.dont_write_bytecode = True

from farm import FAILED, Client, Gearmand, Pool, all_done, held, settings


def main(program):
    server = Gearmand()
    pool = Pool(os.path.abspath(program), settings(server.port, 3, ("lines", "whole"), least=1), 40, words=())
    client = Client(server.port)
    answers = client.ask([(b"lines", b"one\ntwo\n"), (b"whole", b"one\n"), (b"whole", b"one")] * 50)
    client.close()
    held(answers == [b"2", b"one\n", FAILED] * 50, f"other answers: {answers[:6]}")
    ended = all_done(server, pool, 150)
    held((ended.completed, ended.failed) == (100, 50), "not 100 completed and 50 failed")
    print(f"150 jobs, {ended.rounds} rounds")


if __name__ == "__main__":
    if len(sys.argv) != 2:
        sys.exit(__doc__)
    main(sys.argv[1])
