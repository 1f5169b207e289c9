#!/usr/bin/env python3
"""How soon `poolman serve` uses a host again after an outage: bench/outages.py PROGRAM.. [SECONDS..]

Wants Debian's gearman-job-server. A farm has one host with 16 workers, one thread of a process, which is ended for so many seconds (20 and
70 if none are named), and then listens again at its port. A client asks for a job at that moment. Prints after how many seconds it has the
answer, and how many workers joined in each attempt from then on. The programs are measured one after the other, each with a gearmand of its
own. Attempts are a second apart.
"""
import atexit
import multiprocessing
import os
import re
import socket
import subprocess
import sys
import tempfile
import threading
import time

sys.dont_write_bytecode = True
HERE = os.path.dirname(os.path.abspath(__file__))
sys.path.insert(0, f"{HERE}/../tests/gearmand")

from farm import HOST, Client, Gearmand, free_port, held, wait_until

WORKERS = 16

# After so many seconds a wait is given up.
PATIENCE = 300


def serve_peer(peer):
    """Answers each request by its body."""
    with peer, peer.makefile("rb") as lines:
        while lines.readline():
            size = 0
            while (line := lines.readline()) not in (b"\r\n", b""):
                name, _, value = line.partition(b":")
                size = int(value) if name.lower() == b"content-length" else size
            body = lines.read(size)
            peer.sendall(b"HTTP/1.1 200 OK\r\ncontent-length: %d\r\n\r\n%b" % (len(body), body))


def serve(port):
    with socket.create_server((HOST, port), backlog=1024) as listener:
        while True:
            peer, _ = listener.accept()
            threading.Thread(target=serve_peer, args=(peer,), daemon=True).start()


def start_service(port):
    """The service at this port, once it listens."""
    service = multiprocessing.Process(target=serve, args=(port,), daemon=True)
    service.start()

    def listens():
        with socket.socket() as it:
            return it.connect_ex((HOST, port)) == 0

    wait_until(listens, PATIENCE, "the service listens")
    return service


def write_files(folder, server, port):
    settings = f'version = 1\nserver = "{HOST}:{server}"\nround_ms = 1000\nlull_ms = 100\n[functions.echo]\n'
    settings += f'[machines.a]\nworkers = {WORKERS}\nfunctions = ["echo"]\n'
    services = f'version = 1\n[machines.a]\nurl = "http://{HOST}:{port}/jobs"\n'
    for name, text in (("settings", settings), ("services", services)):
        with open(f"{folder}/{name}.toml", "w") as it:
            it.write(text)
    return [f"{folder}/settings.toml", f"{folder}/services.toml"]


def joined_since(lines, mark):
    """How many workers joined in each attempt after so many lines."""
    counts = [0]
    for line in lines[mark:]:
        if re.search(r" attempt \d+ ", line):
            counts.append(0)
        counts[-1] += " joined " in line
    return " ".join(str(count) for count in counts if count)


def measure(program, seconds):
    """Prints what one outage of so many seconds comes to."""
    port, server = free_port(), Gearmand()
    service = start_service(port)
    with tempfile.TemporaryDirectory() as folder, open(f"{folder}/out", "w+") as out:
        child = subprocess.Popen([program, "serve", *write_files(folder, server.port, port), "--until-input"], stdin=subprocess.PIPE, stdout=out)
        atexit.register(child.kill)
        wait_until(lambda: server.workers("echo") == WORKERS, PATIENCE, "each worker has its function")
        client = Client(server.port, PATIENCE)
        held(client.ask([(b"echo", b"x")]) == [b"x"], "an answer is wrong")
        service.kill()
        service.join()
        time.sleep(seconds)
        with open(out.name) as it:
            mark = len(it.read().splitlines())
        service = start_service(port)
        begin = time.monotonic()
        held(client.ask([(b"echo", b"x")]) == [b"x"], "an answer is wrong")
        took = time.monotonic() - begin
        wait_until(lambda: server.workers("echo") == WORKERS, PATIENCE, "each worker has its function again")
        client.close()
        # It was started after poolman, and holds its input open too.
        service.kill()
        service.join()
        child.stdin.close()
        status = child.wait(PATIENCE)
        held(status == 0, f"poolman ended with status {status}")
        with open(out.name) as it:
            joined = joined_since(it.read().splitlines(), mark)
    server.stop()
    print(f"{program}: outage s {seconds}  first job s {took:.1f}  joined {joined}", flush=True)


def main(*words):
    seconds = [int(word) for word in words if word.isdigit()] or [20, 70]
    for outage in seconds:
        for program in (word for word in words if not word.isdigit()):
            measure(program, outage)


if __name__ == "__main__":
    main(*sys.argv[1:])
