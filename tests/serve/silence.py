"""Addresses of the loopback at which a port answers nobody, as if their machine were off."""

import contextlib
import socket
import struct

ADDRESSES = ("127.0.0.2", "127.0.0.3", "127.0.0.4")

# The state of a connection whose first packet has no answer yet, as /proc/net/tcp has it.
SYN_SENT = "02"


def is_connected(peer):
    try:
        peer.getpeername()
    except OSError:
        return False
    return True


class Silence:
    """A port that listens at each of these addresses, and whose queue is full: the system drops each further request to connect."""

    def __init__(self, port):
        self.port = port
        self.listeners = [socket.create_server((address, port), backlog=0) for address in ADDRESSES]
        self.peers = []
        for address in ADDRESSES:
            self.fill(address)

    def fill(self, address):
        """Connects until nothing comes back. The one that waits in vain is closed."""
        while True:
            peer = socket.socket()
            peer.settimeout(0.5)
            with contextlib.suppress(TimeoutError):
                peer.connect((address, self.port))
            if not is_connected(peer):
                peer.close()
                return
            self.peers.append(peer)

    def tried(self):
        """The addresses to which a request is under way."""
        with open("/proc/net/tcp") as table:
            lines = [line.split() for line in list(table)[1:]]
        ends = [line[2].split(":") for line in lines if line[3] == SYN_SENT]
        return {socket.inet_ntoa(struct.pack("<I", int(address, 16))) for address, port in ends if int(port, 16) == self.port}
