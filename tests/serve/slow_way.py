"""A way to a job server on which one report is taken a little at a time."""

import threading
import time

from way import Way

# The start of WORK_COMPLETE, which a worker sends.
REPORT = b"\0REQ\0\0\0\x0d"

# So many bytes of the slow report are taken each time, and then nothing for so many seconds.
LITTLE, PAUSE = 1024, 0.01


class SlowWay(Way):
    """The first report is taken a little at a time, until `hurry` is called."""

    def __init__(self, port, server):
        # The first report takes the lock, and nobody gives it back.
        self.first, self.may_hurry = threading.Lock(), threading.Event()
        super().__init__(port, server, 4096)

    def hurry(self):
        self.may_hurry.set()

    def meet(self, piece, source, sink):
        sink.sendall(piece)
        if piece.startswith(REPORT) and self.first.acquire(blocking=False):
            self.take_slowly(source, sink)

    def take_slowly(self, source, sink):
        while not self.may_hurry.is_set() and (piece := source.recv(LITTLE)):
            sink.sendall(piece)
            time.sleep(PAUSE)
