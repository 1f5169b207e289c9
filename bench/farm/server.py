#!/usr/bin/env python3
"""A job server without jobs, on a port of the loopback that the system picks: server.py WORKERS

Prints the port, and `ready` once so many workers sleep. It answers each GRAB_JOB_UNIQ by NO_JOB, wakes nobody, and tells the status of one
function for which nothing waits. It ends when its input does.
"""
import selectors
import socket
import struct
import sys

GRAB_JOB, PRE_SLEEP = 30, 4
NO_JOB = b"\0RES\0\0\0\x0a\0\0\0\0"


def heard(text):
    """The types of the packets in a text."""
    at = 0
    while at + 12 <= len(text):
        number, size = struct.unpack(">II", text[at + 4 : at + 12])
        yield number
        at += 12 + size


def main():
    workers, asleep = int(sys.argv[1]), 0
    server = socket.create_server(("127.0.0.1", 0), backlog=4096)
    print(server.getsockname()[1], flush=True)
    waiting = selectors.DefaultSelector()
    waiting.register(server, selectors.EVENT_READ)
    waiting.register(sys.stdin, selectors.EVENT_READ)
    while True:
        for key, _ in waiting.select():
            if key.fileobj is sys.stdin:
                return
            if key.fileobj is server:
                waiting.register(server.accept()[0], selectors.EVENT_READ)
                continue
            peer = key.fileobj
            try:
                text = peer.recv(65536)
            except ConnectionError:
                text = b""
            if not text:
                waiting.unregister(peer)
                peer.close()
            elif text == b"status\n":
                peer.sendall(b"echo\t0\t0\t0\n.\n")
            else:
                for number in heard(text):
                    if number == GRAB_JOB:
                        peer.sendall(NO_JOB)
                    asleep += number == PRE_SLEEP
                    if number == PRE_SLEEP and asleep == workers:
                        print("ready", flush=True)


main()
