"""A service that is renewed as one in a rolling restart: it takes no connection for a while, and does what comes over those that it has."""

import re
import socket
import threading

LENGTH = re.compile(rb"content-length: (\d+)", re.IGNORECASE)


class Renewed:
    """A service at a port of the loopback that answers each job with its data in capital letters. Once it leaves it refuses connections,
    and closes each one that it has after the next answer, in which it says so."""

    def __init__(self, port):
        self.port = port
        self.closes = threading.Event()
        self.come()

    def come(self):
        """Takes connections, and keeps them from one job to the next."""
        self.closes.clear()
        self.listener = socket.create_server(("127.0.0.1", self.port), backlog=64)
        self.acceptor = threading.Thread(target=self.accept, daemon=True)
        self.acceptor.start()

    def leave(self):
        """Takes no connection from now on, and closes those that it has one by one."""
        self.listener.shutdown(socket.SHUT_RDWR)
        self.acceptor.join()
        self.listener.close()
        # Not before: a worker whose connection was closed would be accepted and never heard.
        self.closes.set()

    def accept(self):
        while True:
            try:
                peer, _ = self.listener.accept()
            except OSError:
                return
            peer.setsockopt(socket.IPPROTO_TCP, socket.TCP_NODELAY, 1)
            threading.Thread(target=self.serve, args=(peer,), daemon=True).start()

    def serve(self, peer):
        """Does the jobs that come over a connection."""
        with peer, peer.makefile("rb") as asked:
            while data := self.next_job(asked):
                closes = self.closes.is_set()
                words = b"connection: close\r\n" if closes else b""
                peer.sendall(b"HTTP/1.1 200 OK\r\n%scontent-length: %d\r\n\r\n%s" % (words, len(data), data.upper()))
                if closes:
                    return

    def next_job(self, asked):
        """The data of the next job, or none if the peer has gone."""
        length = 0
        for line in iter(asked.readline, b"\r\n"):
            if not line:
                return b""
            if found := LENGTH.match(line):
                length = int(found[1])
        return asked.read(length)
