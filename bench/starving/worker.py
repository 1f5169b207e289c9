#!/usr/bin/env python3
"""Workers that never end: worker.py SERVER SERVICE WORKERS FUNCTION..

SERVER is the port of a job server, and SERVICE that of a service. A job that the service does not do is answered as failed at once, and the
worker goes on over a new connection to the service: what a farm could do here at most.
"""
import http.client
import os
import sys
import threading

sys.dont_write_bytecode = True
HERE = os.path.dirname(os.path.abspath(__file__))
sys.path.insert(0, f"{HERE}/../../tests/gearmand")

from farm import CAN_DO, HOST, WORK_COMPLETE, WORK_FAIL, Client, held, request

PRE_SLEEP, NOOP, GRAB_JOB, NO_JOB, JOB_ASSIGN = 4, 6, 9, 10, 11

# A service answers in so many seconds.
PATIENCE = 60


class Worker:
    """A worker, with a link to the job server and one to the service."""

    def __init__(self, server, service, functions):
        self.link = Client(server, None)
        self.service = http.client.HTTPConnection(HOST, service, timeout=PATIENCE)
        self.link.socket.sendall(b"".join(request(CAN_DO, it.encode()) for it in functions))

    def work(self):
        while True:
            self.link.socket.sendall(request(GRAB_JOB))
            kind, body = self.packet_but_noop()
            if kind == JOB_ASSIGN:
                self.do(*body.split(b"\0", 2))
            else:
                held(kind == NO_JOB, f"a packet of kind {kind}: {body[:100]!r}")
                self.sleep()

    def packet_but_noop(self):
        """The next packet that is no call to wake up."""
        while (found := self.link.packet())[0] == NOOP:
            pass
        return found

    def sleep(self):
        """Waits until the job server has a job."""
        self.link.socket.sendall(request(PRE_SLEEP))
        kind, body = self.link.packet()
        held(kind == NOOP, f"a packet of kind {kind}: {body[:100]!r}")

    def do(self, handle, function, data):
        """Has a job done, and answers it."""
        self.service.request("POST", f"/jobs/{function.decode()}", data)
        response = self.service.getresponse()
        answer = response.read()
        if response.status == 200:
            self.link.socket.sendall(request(WORK_COMPLETE, handle, answer))
        else:
            self.service.close()
            self.link.socket.sendall(request(WORK_FAIL, handle))


def main(server, service, workers, *functions):
    """All work until this process is killed, or one cannot go on."""
    threads = [threading.Thread(target=Worker(int(server), int(service), functions).work, daemon=True) for _ in range(int(workers))]
    for it in threads:
        it.start()
    for it in threads:
        it.join()


if __name__ == "__main__":
    main(*sys.argv[1:])
