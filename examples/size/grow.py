#!/usr/bin/env python3
"""Adds the workers that are missing: grow.py SETTINGS SERVICES NEW_SETTINGS

Asks the page of the farm, which SERVICES names, how many workers are missing, and writes settings with these workers to NEW_SETTINGS. A
machine whose host is not reached gets none, and a line says so. `poolman settings` checks them. Then it starts a second `poolman serve` with
them, waits 5 seconds (`TOGETHER_SECONDS`) so that its workers have their functions, drains the first, and prints the process of the second.
If the second has ended by then, the first goes on. If nothing is to be added, nothing is written. `poolman` is looked for on the search
path.
"""
import os
import re
import subprocess
import sys
import time
import tomllib
import urllib.error
import urllib.request


def asked(page, path):
    """The text at a path of the page."""
    with urllib.request.urlopen(f"http://{page}{path}", timeout=10) as answer:
        return answer.read().decode()


def missing_on(size):
    """How many workers a size adds, by machine."""
    return {name: int(count) for name, count in re.findall(r"^on (\S+) (\d+)$", size, re.MULTILINE)}


def unreached_hosts(metrics):
    """The hosts that are not reached."""
    return set(re.findall(r'^poolman_host_reached\{host="([^"]*)"\} 0$', metrics, re.MULTILINE))


def with_workers(text, name, more):
    """The text of settings in which a machine has more workers."""
    table = re.compile(rf'(^\[machines\."?{re.escape(name)}"?\]\n(?:(?!\[).*\n)*?workers = )(\d+)', re.MULTILINE)
    grown, changes = table.subn(lambda found: f"{found[1]}{int(found[2]) + more}", text)
    if changes != 1:
        sys.exit(f"grow: the settings have no line of the workers of {name}")
    return grown


def started(settings, services):
    """A farm with these files, once its workers have had time to come. It has no page yet, since the first farm has the address."""
    if subprocess.run(["poolman", "settings", settings, services], stdout=subprocess.DEVNULL).returncode:
        sys.exit("grow: the new settings are refused, and the first farm goes on")
    second = subprocess.Popen(["poolman", "serve", settings, services], start_new_session=True)
    time.sleep(float(os.environ.get("TOGETHER_SECONDS", "5")))
    if second.poll() is not None:
        sys.exit(f"grow: the second farm ended with status {second.returncode}, and the first goes on")
    return second


def main(settings, services, new_settings):
    with open(services, "rb") as it:
        page = tomllib.load(it)["page"]["listen"]
    try:
        size, metrics = asked(page, "/size"), asked(page, "/metrics")
    except urllib.error.HTTPError as error:
        sys.exit(f"grow: {error.read().decode().strip()}")
    with open(settings) as it:
        text = it.read()
    unreached, added = unreached_hosts(metrics), 0
    for name, more in missing_on(size).items():
        if name in unreached:
            print(f"leave {name}: its host is not reached")
            continue
        text, added = with_workers(text, name, more), added + more
        print(f"add {more} to {name}")
    if not added:
        print("add 0")
        return
    with open(new_settings, "w") as it:
        it.write(text)
    second = started(new_settings, services)
    subprocess.run(["poolman", "drain", services], check=True, stdout=subprocess.DEVNULL)
    print(f"serves {second.pid}")


if __name__ == "__main__":
    if len(sys.argv) != 4:
        sys.exit(__doc__)
    main(*sys.argv[1:])
