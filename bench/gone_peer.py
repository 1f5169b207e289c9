#!/usr/bin/env python3
"""After how long a connection finds that its peer is gone: bench/gone_peer.py

In a network of its own, with a second one for the peers, each connection has the options of `LinkOptions::JOB_SERVER` or of
`LinkOptions::SERVICE` (crates/link_options). Two seconds after their last word the peers lose their address, so that nothing they are sent
is answered, and not refused either. Prints for each connection how many seconds later a read of it failed. Some write once more then, at
once or later. It takes no program, and 20 seconds.
"""
import contextlib
import os
import socket
import subprocess
import sys
import threading
import time

OWN, PEER, PORT = "10.9.0.1", "10.9.0.2", 7000

# Keepalive's seconds before the first probe and between probes, and the number of probes; milliseconds of the user timeout.
JOB_SERVER, SERVICE = (3, 1, 4, 7000), (5, 2, 4, 0)

# The connections, and after how many seconds each writes once more.
CONNECTIONS = {
    "job server, asleep": (JOB_SERVER, None),
    "job server, written to at once": (JOB_SERVER, 0),
    "job server, written to after 5 s": (JOB_SERVER, 5),
    "service, waited for": (SERVICE, None),
}

# After so many seconds a read is given up.
PATIENCE = 60

LISTENER = f"""
import socket
listener, kept = socket.create_server(("{PEER}", {PORT})), []
print("ready", flush=True)
while True:
    kept.append(listener.accept()[0])
"""


def ip(*words, of=()):
    """Changes this network, or another one by the words that enter it."""
    subprocess.run([*of, "ip", *words], check=True)


def connected(options):
    """A connection to a peer, with these options, which has been used."""
    link = socket.create_connection((PEER, PORT))
    link.setsockopt(socket.SOL_SOCKET, socket.SO_KEEPALIVE, 1)
    for name, value in zip((socket.TCP_KEEPIDLE, socket.TCP_KEEPINTVL, socket.TCP_KEEPCNT, socket.TCP_USER_TIMEOUT), options):
        link.setsockopt(socket.IPPROTO_TCP, name, value)
    link.sendall(b"hello")
    return link


def measure(name, link, pause):
    """Prints how long the connection takes to fail."""
    began = time.monotonic()
    said = "nothing"
    link.settimeout(PATIENCE)
    try:
        if pause is not None:
            time.sleep(pause)
            link.sendall(b"more")
        link.recv(1)
    except TimeoutError as error:
        said = error.strerror or f"nothing for {PATIENCE} s"
    print(f"{name}: {time.monotonic() - began:.1f} s: {said}", flush=True)


@contextlib.contextmanager
def started(*words, **how):
    child = subprocess.Popen(words, **how)
    try:
        yield child
    finally:
        child.kill()
        child.wait()


def main():
    with started("unshare", "--net", "sleep", "infinity") as holder:
        time.sleep(1)
        inside = ("nsenter", "--target", str(holder.pid), "--net")
        ip("link", "add", "own", "type", "veth", "peer", "name", "far")
        ip("link", "set", "far", "netns", str(holder.pid))
        ip("address", "add", f"{OWN}/24", "dev", "own")
        ip("link", "set", "own", "up")
        ip("address", "add", f"{PEER}/24", "dev", "far", of=inside)
        ip("link", "set", "far", "up", of=inside)
        with started(*inside, sys.executable, "-c", LISTENER, stdout=subprocess.PIPE) as listener:
            listener.stdout.readline()
            links = {name: connected(options) for name, (options, _) in CONNECTIONS.items()}
            time.sleep(2)
            ip("address", "delete", f"{PEER}/24", "dev", "far", of=inside)
            threads = [threading.Thread(target=measure, args=(name, links[name], pause)) for name, (_, pause) in CONNECTIONS.items()]
            for thread in threads:
                thread.start()
            for thread in threads:
                thread.join()


if __name__ == "__main__":
    if os.environ.get("GONE_PEER") == "alone":
        main()
    else:
        os.environ["GONE_PEER"] = "alone"
        os.execvp("unshare", ["unshare", "--map-root-user", "--net", sys.executable, *sys.argv])
