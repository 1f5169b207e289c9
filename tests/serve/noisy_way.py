"""A way to a job server on which one worker is called without end."""

import threading

from way import Way

# GRAB_JOB_UNIQ, with which a worker asks for a job, and NOOP, with which the server calls one that sleeps.
GRAB, NOOP = b"\0REQ\0\0\0\x1e\0\0\0\0", b"\0RES\0\0\0\x06\0\0\0\0"


class NoisyWay(Way):
    """The first worker that asks for a job has no answer but calls, one after the other for as long as its connection lasts. The server does
    not hear that it asked."""

    def __init__(self, port, server):
        # The first worker takes the lock, and nobody gives it back.
        self.first, self.is_calling = threading.Lock(), threading.Event()
        super().__init__(port, server)

    def meet(self, piece, source, sink):
        if not piece.endswith(GRAB) or not self.first.acquire(blocking=False):
            sink.sendall(piece)
            return
        sink.sendall(piece.removesuffix(GRAB))
        self.is_calling.set()
        while True:
            source.sendall(1000 * NOOP)
