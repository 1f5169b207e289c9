"""A network of one's own, in which other machines are far away or off.

Whoever makes a Wire is alone in a network namespace. The addresses behind the wire are all this machine's: a packet for one of them comes
back as if that address had sent it to this one. So whoever listens here at all addresses is reached under each of them.
"""

import collections
import fcntl
import os
import socket
import struct
import sys
import threading
import time

from edges import ALONE, SIOCSIFADDR, can_be_alone, raise_loopback

# This machine, and the others behind the wire, at addresses of no network.
OWN, MASK = "192.0.2.1", "255.255.255.0"
OTHERS = [f"192.0.2.{number}" for number in range(2, 10)]

# The name of the interface, what Linux calls one of packets without a head of their own, and the requests for it.
NAME, IFF_TUN, IFF_NO_PI = b"wire", 1, 0x1000
TUNSETIFF, SIOCSIFNETMASK, SIOCSIFFLAGS, IFF_UP = 0x400454CA, 0x891C, 0x8914, 1

# So many bytes have the two addresses of an IPv4 packet, one after the other from there on.
ADDRESS, SOURCE = 4, 12


def be_alone(script, words):
    """Starts this script again in a network of its own, with a word before these, if it is in none. What its words are then."""
    if words[:1] == ["alone"]:
        return words[1:]
    if not can_be_alone():
        sys.exit(f"{os.path.basename(script)}: this system lets nobody have a network of his own: it wants unshare, and mostly root")
    os.execvp(ALONE[0], [*ALONE, sys.executable, script, "alone", *words])


def turned(packet):
    """The packet on its way back. The sums over its head and data stay right, since they do not depend on which address comes first."""
    source, target = SOURCE + ADDRESS, SOURCE + 2 * ADDRESS
    return packet[:SOURCE] + packet[source:target] + packet[SOURCE:source] + packet[target:]


class Wire:
    """The way to the other machines, on which a packet takes so many seconds. While they are off all packets are lost."""

    def __init__(self, seconds=0):
        self.seconds, self.is_off = seconds, False
        self.under_way, self.has_more = collections.deque(), threading.Condition()
        raise_loopback()
        self.device = os.open("/dev/net/tun", os.O_RDWR)
        fcntl.ioctl(self.device, TUNSETIFF, struct.pack("16sH22x", NAME, IFF_TUN | IFF_NO_PI))
        with socket.socket(socket.AF_INET, socket.SOCK_DGRAM) as it:
            for number, address in ((SIOCSIFADDR, OWN), (SIOCSIFNETMASK, MASK)):
                fcntl.ioctl(it, number, struct.pack("16sHH4s8x", NAME, socket.AF_INET, 0, socket.inet_aton(address)))
            fcntl.ioctl(it, SIOCSIFFLAGS, struct.pack("16sh14x", NAME, IFF_UP))
        for act in (self.take, self.give):
            threading.Thread(target=act, daemon=True).start()

    def take(self):
        while True:
            packet = os.read(self.device, 65536)
            if packet[0] >> 4 == 4 and not self.is_off:
                with self.has_more:
                    self.under_way.append((time.monotonic() + self.seconds, turned(packet)))
                    self.has_more.notify()

    def give(self):
        while True:
            with self.has_more:
                self.has_more.wait_for(lambda: self.under_way)
                due, packet = self.under_way.popleft()
            time.sleep(max(0, due - time.monotonic()))
            if not self.is_off:
                os.write(self.device, packet)
