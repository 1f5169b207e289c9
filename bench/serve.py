#!/usr/bin/env python3
"""`poolman serve` with 4,096 workers over 256 hosts, at one gearmand: bench/serve.py PROGRAM [JOBS]

Wants Debian's gearman-job-server, and 20,000 descriptors (`ulimit -n`). Each host is a port of the loopback with 16 workers; one process
serves all, and gives back each body. Prints how many seconds pass until each worker has its function at the server, how many jobs of 64
bytes are done in a second with 1,000 ahead of the answers, how many seconds the end takes, and memory when all sleep and at its peak.
"""
import asyncio
import atexit
import multiprocessing
import os
import subprocess
import sys
import tempfile
import time

sys.dont_write_bytecode = True
HERE = os.path.dirname(os.path.abspath(__file__))
sys.path.insert(0, f"{HERE}/../tests/gearmand")

from farm import HOST, TOTALS, Client, Gearmand, held, wait_until

HOSTS, WORKERS = 256, 16

# After so many seconds a wait is given up.
PATIENCE = 300


async def serve_peer(reader, writer):
    """Answers each request by its body."""
    try:
        while True:
            head = (await reader.readuntil(b"\r\n\r\n")).lower()
            size = int(head.rpartition(b"content-length:")[2].split(b"\r\n", 1)[0])
            body = await reader.readexactly(size)
            writer.write(b"HTTP/1.1 200 OK\r\ncontent-length: %d\r\n\r\n%b" % (size, body))
    except (asyncio.IncompleteReadError, ConnectionError):
        writer.close()


def serve_all(told):
    """The services of all hosts, which listen once their ports are told."""

    async def serve():
        servers = [await asyncio.start_server(serve_peer, HOST, 0, backlog=1024) for _ in range(HOSTS)]
        told.send([server.sockets[0].getsockname()[1] for server in servers])
        await asyncio.Event().wait()

    asyncio.run(serve())


def write_files(folder, server, ports):
    """The files of the farm, with its job server at this port and its hosts at these."""
    settings = ["version = 1", f'server = "{HOST}:{server}"', "round_ms = 1000", "lull_ms = 1000", "[functions.echo]"]
    services = ["version = 1"]
    for number, port in enumerate(ports):
        settings.append(f'[machines.host{number}]\nworkers = {WORKERS}\nfunctions = ["echo"]')
        services.append(f'[machines.host{number}]\nurl = "http://{HOST}:{port}/jobs"')
    files = {f"{folder}/settings.toml": settings, f"{folder}/services.toml": services}
    for file, lines in files.items():
        with open(file, "w") as it:
            it.write("\n".join([*lines, ""]))
    return list(files)


class Seconds:
    """How many seconds something takes."""

    def __enter__(self):
        self.begin = time.monotonic()
        return self

    def __exit__(self, *_):
        self.took = time.monotonic() - self.begin


def memory(child, key):
    """KiB of a process."""
    with open(f"/proc/{child.pid}/status") as it:
        return next(int(line.split()[1]) for line in it if line.startswith(f"{key}:"))


def measure(program, files, server, jobs):
    """Prints what a farm of these files takes."""
    with open(f"{os.path.dirname(files[0])}/out", "w") as out, Seconds() as start:
        words = [program, "serve", *files, "--until-input"]
        child = subprocess.Popen(words, stdin=subprocess.PIPE, stdout=out)
        atexit.register(child.kill)
        wait_until(lambda: server.workers("echo") == HOSTS * WORKERS, PATIENCE, "each worker has its function")
    asleep = memory(child, "VmRSS")
    client = Client(server.port, PATIENCE)
    with Seconds() as work:
        answers = client.ask([(b"echo", bytes(64))] * jobs)
    client.close()
    held(answers == [bytes(64)] * jobs, "an answer is wrong")
    peak = memory(child, "VmHWM")
    with Seconds() as end:
        child.stdin.close()
        status = child.wait(PATIENCE)
    with open(out.name) as it:
        last = it.read().splitlines()[-1]
    held(status == 0 and TOTALS.search(last), f"poolman ended with status {status}: {last}")
    print(f"start s {start.took:.1f}  jobs/s {jobs / work.took:.0f}  end s {end.took:.1f}  asleep KiB {asleep}  peak KiB {peak}")
    print(last)


def main(program, jobs="50000"):
    heard, told = multiprocessing.Pipe(duplex=False)
    services = multiprocessing.Process(target=serve_all, args=(told,), daemon=True)
    services.start()
    ports = heard.recv()
    server = Gearmand("--file-descriptors=8192")
    try:
        with tempfile.TemporaryDirectory() as folder:
            measure(program, write_files(folder, server.port, ports), server, int(jobs))
    finally:
        server.stop()
        services.terminate()


if __name__ == "__main__":
    main(*sys.argv[1:])
