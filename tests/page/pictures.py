"""Pictures of the page in a browser: of a farm that is well, one with a host that is down, one without a plan, and one that had none for a
while, which has a red ground; by day and by night, wide and narrow. They are to be looked at."""

import contextlib
import math
import os
import signal
import struct
import subprocess
import tempfile
import threading
import time
import zlib

from farm import HOST, Client, held, wait_until
from slow import TIMES
from stage import PATIENCE, TOP, Stage

HOSTS = ("attic", "north", "south")
SERVICE = f"{TOP}/tests/page/slow.py"
WORKERS = 8

# The ground of the page, as its style has it.
GROUNDS = {"day": (0xFB, 0xFB, 0xFA), "night": (0x14, 0x14, 0x13)}

# Blink's number of a scheme of colours.
SCHEMES = {"day": 1, "night": 0}

WIDTHS = {"wide": 1160, "narrow": 390}
HEIGHT = 1300

# Jobs that come in a second, and for how many seconds a curve is drawn.
RATES = {"mail": 130, "resize": 250, "thumbnail": 240, "transcode": 62}
DRAWN_SECONDS = 33


class Waves:
    """Jobs in the background that come in waves, one job of 200 bad."""

    def __init__(self, port):
        self.client = Client(port)
        self.done = threading.Event()
        self.sent = 0
        self.thread = threading.Thread(target=self.send, daemon=True)
        self.thread.start()

    def job(self, name):
        self.sent += 1
        return name.encode(), b"bad" if self.sent % 200 == 0 else b"good"

    def send(self):
        while not self.done.wait(0.25):
            height = 1 + 0.6 * math.sin(time.monotonic() / 2)
            self.client.leave([self.job(name) for name, rate in RATES.items() for _ in range(int(rate * height / 4))])

    def stop(self):
        self.done.set()
        self.thread.join(PATIENCE)
        self.client.close()


def seen(file):
    """The width, the height and the first point of a picture in PNG."""
    with open(file, "rb") as it:
        data = it.read()
    held(data.startswith(b"\x89PNG\r\n\x1a\n"), f"{file} is no PNG")
    width, height = struct.unpack(">II", data[16:24])
    at, packed = 8, b""
    while at < len(data):
        (length,) = struct.unpack(">I", data[at : at + 4])
        if data[at + 4 : at + 8] == b"IDAT":
            packed += data[at + 8 : at + 8 + length]
        at += 12 + length
    # A row begins with the number of its filter, of which none changes the first point of the first row.
    return width, height, tuple(zlib.decompress(packed)[1:4])


def take(url, file, width, time_of_day):
    """Takes one picture."""
    with tempfile.TemporaryDirectory() as profile:
        words = ["chromium", "--headless", "--no-sandbox", "--disable-gpu", "--hide-scrollbars", "--no-first-run", f"--user-data-dir={profile}"]
        words += [f"--blink-settings=preferredColorScheme={SCHEMES[time_of_day]}", f"--window-size={width},{HEIGHT}", f"--screenshot={file}", url]
        # In a group of its own, of which it leaves some.
        browser = subprocess.Popen(words, stdin=subprocess.DEVNULL, stdout=subprocess.DEVNULL, stderr=subprocess.PIPE, text=True, start_new_session=True)
        try:
            said = browser.communicate(timeout=PATIENCE)[1]
        finally:
            with contextlib.suppress(ProcessLookupError):
                os.killpg(browser.pid, signal.SIGKILL)
    held(browser.returncode == 0, f"chromium: {said[-2000:]}")
    shown = seen(file)
    held((shown[0], shown[2]) == (width, GROUNDS[time_of_day]), f"{file} is {shown}")


def take_all(stage, folder, name):
    """Takes the pictures of a farm as it is now."""
    for time_of_day in GROUNDS:
        for form, width in WIDTHS.items():
            take(f"http://{HOST}:{stage.page.port}/?still", f"{folder}/{name}-{time_of_day}-{form}.png", width, time_of_day)


def farm(program, transcoders):
    """A farm of slow jobs. Only these hosts do `transcode`, which is to have two workers at least."""
    functions = {"mail": {}, "resize": {"least": 2}, "thumbnail": {"least": 1}, "transcode": {"least": 2, "most": 8}}
    machines = {host: (WORKERS, [name for name in TIMES if name != "transcode" or host in transcoders]) for host in HOSTS}
    return Stage(program, functions, machines, round_ms=50)


def begin(stage):
    """Starts a farm, whose services are all there."""
    for name in HOSTS:
        stage.start_service(name, SERVICE)
    stage.start()
    stage.page.wait_until_well()
    return Waves(stage.server.port)


def says(stage, words):
    return lambda: f"</span>{words}" in stage.page.text("/")


def has_red_ground(stage):
    """Whether a drawing has an attempt without a value."""
    return '<rect class="gap"' in stage.page.text("/?still")


def begin_without_plan(stage):
    """Starts a farm, and kills the only host of a function: soon there is no plan."""
    waves = begin(stage)
    time.sleep(DRAWN_SECONDS / 2)
    stage.kill_service("attic")
    wait_until(says(stage, "No plan: "), PATIENCE, "the page says that there is no plan")
    time.sleep(DRAWN_SECONDS / 8)
    return waves


def take_red_ground(program, folder):
    """The pictures of a farm that had no plan while the only host of a function was down, and is well again."""
    with farm(program, ("attic",)) as stage:
        waves = begin_without_plan(stage)
        stage.start_service("attic", SERVICE)
        wait_until(says(stage, "Well: "), PATIENCE, "the page says that the farm is well again")
        time.sleep(DRAWN_SECONDS / 8)
        take_all(stage, folder, "red_ground")
        held(has_red_ground(stage), "the attempts without a plan are not drawn any more")
        waves.stop()


def pictures(program):
    """The pictures of four farms, each in four forms, in a folder that stays."""
    folder = tempfile.mkdtemp(prefix="pictures-")
    with farm(program, HOSTS) as stage:
        waves = begin(stage)
        time.sleep(DRAWN_SECONDS)
        wait_until(says(stage, "Well: backlog 1"), PATIENCE, "the page says that the farm is well, and jobs wait")
        take_all(stage, folder, "well")
        stage.kill_service("attic")
        wait_until(says(stage, "Host attic is not reached: "), PATIENCE, "the page says that a host is down")
        time.sleep(DRAWN_SECONDS / 4)
        take_all(stage, folder, "host_down")
        waves.stop()
    with farm(program, ("attic",)) as stage:
        waves = begin_without_plan(stage)
        take_all(stage, folder, "no_plan")
        waves.stop()
    take_red_ground(program, folder)
    return f"16 pictures in {folder}"
