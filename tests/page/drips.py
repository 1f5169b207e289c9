"""Clients that send a byte a second, of a request that never ends."""

import contextlib
import select
import socket
import threading
import time

from farm import HOST

REQUEST = b"POST /drain HTTP/1.1\r\nhost: localhost\r\npoolman: drain\r\nx: "


class Drips:
    """So many of them at a port of this machine, from this address of theirs, each with the number of bytes that it has sent. With `again`
    each comes again within a second when it is cut off. `lost` counts how often that was, and `cut` how often it was in mid request, and not
    at once."""

    def __init__(self, source, port, count, again):
        self.source, self.port, self.count, self.again = source, port, count, again
        self.done, self.cut, self.lost = threading.Event(), 0, 0
        self.peers = {self.connect(): 0 for _ in range(count)}
        self.thread = threading.Thread(target=self.drip, daemon=True)
        self.thread.start()

    def connect(self):
        peer = socket.create_connection((HOST, self.port), 60, (self.source, 0))
        peer.setsockopt(socket.IPPROTO_TCP, socket.TCP_NODELAY, 1)
        return peer

    def lose(self, peer):
        """The server has closed this one's connection."""
        self.cut += self.peers.pop(peer) > 1
        self.lost += 1
        peer.close()

    def send(self, peer):
        """Sends the next byte."""
        sent = self.peers[peer]
        try:
            peer.sendall(REQUEST[sent : sent + 1] or b"y")
            self.peers[peer] = sent + 1
        except OSError:
            self.lose(peer)

    def come_again(self):
        """Fills up the places of those who were cut off, as long as somebody listens."""
        with contextlib.suppress(OSError):
            while len(self.peers) < self.count:
                self.peers[self.connect()] = 0

    def drip(self):
        due = time.monotonic()
        while not self.done.is_set():
            # A peer that has something to read was answered, or is cut off.
            for peer in select.select([*self.peers], [], [], max(0, due - time.monotonic()))[0]:
                self.lose(peer)
            if time.monotonic() >= due:
                due += 1
                if self.again:
                    self.come_again()
                for peer in [*self.peers]:
                    self.send(peer)

    def stop(self):
        self.done.set()
        self.thread.join(60)
        for peer in self.peers:
            peer.close()
