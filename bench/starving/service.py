#!/usr/bin/env python3
"""A service whose jobs take ten milliseconds: service.py PORT BUSY

It gives back each body, and has a thread for each connection. A job whose data is `bad` is answered 503 at once, as each job is while the
file BUSY is there. One whose data is `crash` has its connection closed, and one whose data is `late` takes three seconds.
"""
import os
import socketserver
import sys
import time

JOB_S, LATE_S = 0.01, 3

# A line of a head has so many bytes at most.
LINE_BYTES = 65_536


class Exchanges(socketserver.StreamRequestHandler):
    """The jobs of one kept connection, one after another."""

    disable_nagle_algorithm = True

    def handle(self):
        while (data := self.take()) is not None and self.answer(data):
            pass

    def take(self):
        """The data of the next job, or None if no whole job comes any more."""
        if not self.rfile.readline(LINE_BYTES):
            return None
        size = 0
        while (line := self.rfile.readline(LINE_BYTES)) not in (b"\r\n", b""):
            name, _, value = line.partition(b":")
            if name.lower() == b"content-length":
                size = int(value)
        data = self.rfile.read(size)
        return data if len(data) == size else None

    def answer(self, data):
        """Does a job. Whether the connection is kept."""
        if data == b"crash":
            return False
        if data == b"bad" or os.path.exists(self.server.busy):
            self.say(b"503 Service Unavailable", b"busy")
            return True
        time.sleep(LATE_S if data == b"late" else JOB_S)
        self.say(b"200 OK", data)
        return True

    def say(self, status, body):
        self.wfile.write(b"HTTP/1.1 %b\r\ncontent-length: %d\r\n\r\n%b" % (status, len(body), body))


class Service(socketserver.ThreadingTCPServer):
    """A thread for each connection, of which many may come at once."""

    allow_reuse_address = True
    daemon_threads = True
    request_queue_size = 1024

    def __init__(self, port, busy):
        self.busy = busy
        super().__init__(("127.0.0.1", port), Exchanges)

    def handle_error(self, request, address):
        """Says nothing of a connection that its peer has ended."""
        if not isinstance(sys.exc_info()[1], ConnectionError):
            super().handle_error(request, address)


if __name__ == "__main__":
    with Service(int(sys.argv[1]), sys.argv[2]) as service:
        service.serve_forever()
