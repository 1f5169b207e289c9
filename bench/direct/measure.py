#!/usr/bin/env python3
"""Jobs of 64 bytes by `poolman serve` beside clients that call the same services by libcurl: bench/direct/measure.py PROGRAM [TURNS]

Wants Debian's gearman-job-server, libcurl4-openssl-dev and gcc. Four services in C give back each body. They have 16 kept connections:
those of a farm's workers, whose jobs come over gearmand with 1,000 ahead of the answers, and by turns those of a client in C with as many
threads. Prints the medians of jobs a second and of the processor microseconds of a job, with the least and the greatest.
"""
import os
import subprocess
import sys
import tempfile

sys.dont_write_bytecode = True
HERE = os.path.dirname(os.path.abspath(__file__))
sys.path[:0] = [f"{HERE}/../gearmand", f"{HERE}/../../tests/gearmand"]

from measure import processor, shown
from farm import HOST, Gearmand, wait_until

HOSTS, WORKERS, JOBS = 4, 4, 100_000


def build(folder):
    """Compiles the C programs."""
    for name, source, words in ("service", "exchanges/service", []), ("asker", "gearmand/client", []), ("client", "direct/client", ["-lcurl", "-lpthread"]):
        subprocess.run(["gcc", "-O2", "-D_GNU_SOURCE", "-o", f"{folder}/{name}", f"{HERE}/../{source}.c", *words], check=True)


def write_files(folder, server, ports):
    """The files of the farm, with its job server at this port and its hosts at these."""
    settings = ["version = 1", f'server = "{HOST}:{server}"', "[functions.echo]"]
    services = ["version = 1"]
    for number, port in enumerate(ports):
        settings.append(f'[machines.host{number}]\nworkers = {WORKERS}\nfunctions = ["echo"]')
        services.append(f'[machines.host{number}]\nurl = "http://{HOST}:{port}/jobs"')
    for name, lines in ("settings", settings), ("services", services):
        with open(f"{folder}/{name}.toml", "w") as it:
            it.write("\n".join([*lines, ""]))


def said(*words):
    return subprocess.run(words, capture_output=True, text=True, timeout=300, check=True).stdout.split()


def by_farm(program, folder, ports):
    """Jobs a second, and the processor microseconds of a job in poolman and in gearmand."""
    server = Gearmand()
    write_files(folder, server.port, ports)
    words = [program, "serve", f"{folder}/settings.toml", f"{folder}/services.toml"]
    farm = subprocess.Popen(words, stdin=subprocess.DEVNULL, stdout=subprocess.DEVNULL)
    ask = [f"{folder}/asker", str(server.port)]
    try:
        wait_until(lambda: server.workers("echo") == HOSTS * WORKERS, 60, "each worker has its function")
        said(*ask, "2000", "1000")
        before = processor(farm.pid), processor(server.process.pid)
        rate = float(said(*ask, str(JOBS), "1000")[0])
        after = processor(farm.pid), processor(server.process.pid)
        return rate, *((late - early) / JOBS for early, late in zip(before, after))
    finally:
        farm.terminate()
        farm.wait()
        server.stop()


def directly(folder, ports):
    """Jobs a second of the client, and its processor microseconds of a job."""
    return tuple(map(float, said(f"{folder}/client", str(HOSTS * WORKERS), str(JOBS), *ports)))


def show(program, turns, folder, ports):
    farm, direct, loads = [], [], []
    for _ in range(turns):
        farm.append(by_farm(program, folder, ports))
        direct.append(directly(folder, ports))
        loads.append(os.getloadavg()[0])
    for name, found in ("farm: jobs/s, poolman µs, gearmand µs", farm), ("libcurl: jobs/s, µs", direct):
        print(f"{name}: " + ", ".join(shown(column, "{:,.0f}" if at == 0 else "{:.1f}") for at, column in enumerate(zip(*found))))
    print(f"load {min(loads):.1f} to {max(loads):.1f}, {turns} turns")


def main(program, turns="7"):
    with tempfile.TemporaryDirectory(prefix="bench-") as folder:
        build(folder)
        services = [subprocess.Popen([f"{folder}/service"], stdout=subprocess.PIPE, text=True) for _ in range(HOSTS)]
        try:
            show(os.path.abspath(program), int(turns), folder, [it.stdout.readline().strip() for it in services])
        finally:
            for it in services:
                it.kill()


if __name__ == "__main__":
    if len(sys.argv) < 2:
        sys.exit(__doc__)
    main(*sys.argv[1:])
