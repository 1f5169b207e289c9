"""A way to a job server, which hands on what comes over it."""

import contextlib
import socket
import threading

from farm import HOST


class Way:
    """Takes connections at one port, and hands on what comes over them to another and back. Each may hold so many bytes that nobody has taken,
    or as many as the system lets it."""

    def __init__(self, port, server, held_bytes=None):
        self.server = server
        self.listener = socket.socket()
        if held_bytes:
            # What a connection holds counts as taken for who sent it.
            self.listener.setsockopt(socket.SOL_SOCKET, socket.SO_RCVBUF, held_bytes)
        self.listener.setsockopt(socket.SOL_SOCKET, socket.SO_REUSEADDR, 1)
        self.listener.bind((HOST, port))
        self.listener.listen(64)
        threading.Thread(target=self.accept, daemon=True).start()

    def accept(self):
        while True:
            worker, _ = self.listener.accept()
            server = socket.create_connection((HOST, self.server))
            for ways in ((worker, server), (server, worker)):
                threading.Thread(target=self.hand_on, args=ways, daemon=True).start()

    def hand_on(self, source, sink):
        with contextlib.suppress(OSError):
            while piece := source.recv(1 << 16):
                self.meet(piece, source, sink)
        for end in (source, sink):
            with contextlib.suppress(OSError):
                end.shutdown(socket.SHUT_RDWR)

    def meet(self, piece, source, sink):
        """Hands on one piece."""
        sink.sendall(piece)
