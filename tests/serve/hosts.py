"""Hosts that do no job: each takes connections, waits for a request, and then misbehaves in its own way until the peer has gone."""

import socket
import threading

HEAD = b"HTTP/1.1 200 OK\r\n"

# No whole response, and no beginning of one.
NOISE = (
    b"\0\1\2 what is this\r\n\r\n",
    b"HTTP/7.5 200 OK\r\ncontent-length: 0\r\n\r\n",
    HEAD + b"content-length: many\r\n\r\n",
    HEAD + b"content-length: 10\r\n\r\ncut",
    HEAD + b"transfer-encoding: chunked\r\n\r\nno size\r\n",
    b"",
)


def say_nothing(peer, _):
    """Reads on, and never answers."""
    while peer.recv(65536):
        pass


def make_noise(peer, turn):
    """Says something that is no response, and ends the connection."""
    peer.sendall(NOISE[turn % len(NOISE)])


def never_end(peer, turn):
    """By turns a head that goes on and on, and a body that comes in drops. No job takes so long that a body becomes too large for it."""
    pause = threading.Event()
    if turn % 2 == 0:
        peer.sendall(HEAD)
        while True:
            peer.sendall(b"more: to come\r\n")
    peer.sendall(HEAD + b"transfer-encoding: chunked\r\n\r\n")
    while True:
        peer.sendall(b"4\r\ndrop\r\n")
        pause.wait(0.01)


class Host:
    """A host on a port of the loopback. `asked` counts the connections over which something came."""

    def __init__(self, port, misbehave):
        self.misbehave = misbehave
        self.asked = 0
        self.lock = threading.Lock()
        self.listener = socket.create_server(("127.0.0.1", port), backlog=64)
        threading.Thread(target=self.accept, daemon=True).start()

    def accept(self):
        while True:
            peer, _ = self.listener.accept()
            threading.Thread(target=self.meet, args=(peer,), daemon=True).start()

    def meet(self, peer):
        with peer:
            try:
                if peer.recv(65536):
                    self.misbehave(peer, self.count())
            except OSError:
                # The peer has had enough.
                pass

    def count(self):
        with self.lock:
            self.asked += 1
            return self.asked
