"""Farms of which one small thing would take much: starved.py PROGRAM FOLDER

tests/serve/run calls this. A farm has two hosts that do jobs. Jobs of others are done though no host serves one job, which fails after its
retries if it has a bound; though one is too large for each worker; though a host is off whose function is to have a worker, so that there is
no plan; though the status of the job server cannot be read; though workers end between two attempts; and though a service is renewed. What
its processes write is in the folder.
"""

import contextlib
import html
import os
import re
import sys
import threading

sys.dont_write_bytecode = True
TOP = os.path.join(os.path.dirname(os.path.abspath(__file__)), "../..")
sys.path[:0] = [f"{TOP}/tests/gearmand", f"{TOP}/tests/together"]

from farm import JOB_CREATED, SUBMIT_JOB, WORK_FAIL, Client, at_once, held, request, wait_until

from asking import WORK_WARNING
from edge import HOSTS, OWN, UNREADABLE, WORKERS, Edge, good_jobs, settings, settings_of_own
from in_parts import count_or_try
from renewed import Renewed
from service import POISON
from starting import PATIENCE

# The status of a farm of which some attempts led to no plan.
SOME_WITHOUT_A_PLAN = 1

# So many bytes are more than a worker takes.
TOO_LARGE = 17_000_000

# Attempts so far apart that none comes twice.
APART_MS = 600_000


def one_job_is_never_served(program, processes):
    """A job comes again and again, and each time its connection is closed without a response. No host is left alone for that, and the jobs
    of others are done. The job is held before it comes again, for longer each time: it ends two workers or fewer for each slot."""
    edge = Edge(program, processes)
    edge.start()
    with contextlib.closing(Client(edge.server, PATIENCE)) as client:
        client.socket.sendall(request(SUBMIT_JOB, b"upper", b"poison", POISON))
        for turn in range(5):
            wait_until(lambda: edge.lost() >= turn + 2, PATIENCE, "the job is lost again")
            edge.keeps_pace_while(lambda: edge.ask(good_jobs(f"beside-{turn}", 50)))
    # Without its client the job is gone.
    wait_until(edge.has_all_workers, PATIENCE, "all workers are back")
    edge.ask(good_jobs("after", 50))
    edge.end(300)
    held(edge.lost() <= 2 * WORKERS * len(HOSTS), f"one job ended {edge.lost()} workers")
    edge.holds_no_good_host_unreached()


def one_job_leaves_workers_to_others(program, processes):
    """No attempt replaces the workers that a job without an answer ends. It is held before it comes again, for longer each time, so that the
    sixteenth worker would have it after more than four minutes. The jobs of others are done meanwhile."""
    edge = Edge(program, processes)
    edge.write("settings", settings(edge.server, (), round_ms=APART_MS, workers=8))
    edge.start()
    wait_until(lambda: edge.sessions() == 8 * len(HOSTS), PATIENCE, "the job server knows all workers")
    with contextlib.closing(Client(edge.server, PATIENCE)) as client:
        client.socket.sendall(request(SUBMIT_JOB, b"upper", b"poison", POISON))
        wait_until(lambda: edge.lost() >= 4, PATIENCE, "the job is lost again")
        edge.ask(good_jobs("beside", 50))
        edge.end(50)
    edge.holds_no_good_host_unreached()


def a_job_that_is_too_large_leaves_workers_to_others(program, processes):
    """So it is with a job that no worker can read. Each worker that gets it ends, its link is held, and its slot has another one."""
    edge = Edge(program, processes)
    edge.write("settings", settings(edge.server, (), round_ms=APART_MS, workers=8))
    edge.start()
    wait_until(lambda: edge.sessions() == 8 * len(HOSTS), PATIENCE, "the job server knows all workers")
    with contextlib.closing(Client(edge.server, PATIENCE)) as client:
        client.socket.sendall(request(SUBMIT_JOB, b"upper", b"large", bytes(TOO_LARGE)))
        wait_until(lambda: edge.joined() >= 8 * len(HOSTS) + 5, PATIENCE, "five workers that ended are replaced")
        edge.ask(good_jobs("beside", 50))
        edge.end(50)
    ends = edge.causes()
    held(set(ends) == {"BadPacket", "Stopped"} and ends.count("BadPacket") <= 2 * 8, f"workers ended so: {ends}")
    edge.holds_no_good_host_unreached()


def one_job_fails_after_its_retries(program, processes):
    """With `retries = 2` a job whose connection is closed without a response fails the third time: its client hears how often it was left,
    a line says so, and the worker that had it last goes on."""
    edge = Edge(program, processes)
    with open(f"{processes.folder}/services.toml", "a") as it:
        it.write("[functions.upper]\nretries = 2\n")
    edge.start()
    said = "left unserved too often (3): the connection ended before the response was whole"
    with contextlib.closing(Client(edge.server, PATIENCE)) as client:
        client.socket.sendall(request(SUBMIT_JOB, b"upper", b"poison", POISON))
        (created, handle), warning, failure = client.packet(), client.packet(), client.packet()
    held(created == JOB_CREATED, f"a packet of kind {created}: {handle[:100]!r}")
    held(warning == (WORK_WARNING, handle + b"\0" + said.encode()), f"no warning: {warning}")
    held(failure == (WORK_FAIL, handle), f"no failure: {failure}")
    edge.keeps_pace_while(lambda: edge.ask(good_jobs("after", 50)))
    edge.end(51)
    failed = [line for line in edge.lines() if line.startswith("failed ")]
    held(len(failed) == 1 and failed[0].endswith(f": {said}"), f"what failed: {failed}")
    ends = edge.causes()
    held((edge.lost(), ends.count("Unserved")) == (2, 2), f"the job was lost {edge.lost()} times, and workers ended so: {ends}")
    edge.holds_no_good_host_unreached()


def jobs_of_both(name, count):
    """So many jobs of each host's own function."""
    return [job for function in OWN.values() for job in good_jobs(f"{name}-{function}", count, function)]


def says_no_plan(edge):
    status, _, body = edge.page.ask("GET", "/health")
    return status == 503 and body.startswith(b"No plan: ")


def serves_north_alone(edge, name):
    """The farm has no plan, and says so. The function of the host that is there is done, and its plan is shown. No probe ends the farm."""
    wait_until(lambda: edge.page.is_unwell() and says_no_plan(edge), PATIENCE, "the farm says that it has no plan")
    edge.keeps_pace_while(lambda: edge.ask(good_jobs(name, 50, OWN["north"])))
    held(says_no_plan(edge), "the farm says that it has a plan")
    status = edge.page.ask("GET", "/live")[0]
    held(status == 200, f"a farm that makes attempts is live with status {status}")
    edge.page.check_relaxed(edge.program, edge.processes.folder)


def serves_both_again(edge, name):
    """The other host comes back, and all is as before."""
    edge.bring_back("south")
    wait_until(lambda: edge.is_well() and edge.has_all_workers(), PATIENCE, "the farm has a plan, and all workers")
    edge.ask(jobs_of_both(name, 50))
    for path in ("/relaxed/settings", "/relaxed/report"):
        status = edge.page.ask("GET", path)[0]
        held(status == 503, f"a plan with all least numbers has {path} with status {status}")


def with_least(program, processes):
    """A farm that is not begun, in which each host has a function of its own. It is to have more workers than try a host that is off."""
    edge = Edge(program, processes)
    edge.write("settings", settings_of_own(edge.server, least=2))
    return edge


def a_host_is_off_from_the_start(program, processes):
    """The host of a function is off that is to have workers, so no plan exists. The other host does its function, and all is well once the
    host is there."""
    edge = with_least(program, processes)
    edge.kill("south")
    edge.begin()
    serves_north_alone(edge, "alone")
    serves_both_again(edge, "both")
    edge.end(150, SOME_WITHOUT_A_PLAN)


def a_host_goes_before_workers_are_replaced(program, processes):
    """The same for a host that goes away. Then the job server is restarted, so that no worker is left that was there while a plan was."""
    edge = with_least(program, processes)
    edge.start()
    edge.ask(jobs_of_both("before", 50))
    edge.kill("south")
    wait_until(lambda: says_no_plan(edge), PATIENCE, "the farm says that it has no plan")
    edge.restart_server()
    serves_north_alone(edge, "alone")
    serves_both_again(edge, "both")
    edge.end(250, SOME_WITHOUT_A_PLAN)


def new_workers_have_work_without_a_status(program, processes):
    """A client asks for a function whose name makes the status unreadable, and then all workers are replaced. Each does what the last one of
    its slot did. The page names the line, and goes on to say no plan."""
    edge = Edge(program, processes)
    edge.write("settings", settings_of_own(edge.server))
    edge.start()
    wait_until(edge.has_all_workers, PATIENCE, "all workers are there")
    edge.leave_unreadable_name()
    wait_until(lambda: edge.page.is_unwell(), PATIENCE, "the status cannot be read")
    for name in HOSTS:
        edge.kill(name)
    first = r"\S+#1"
    wait_until(lambda: len(edge.causes(first)) == WORKERS * len(HOSTS), PATIENCE, "the workers of both hosts end")
    for name in HOSTS:
        edge.bring_back(name)
    wait_until(lambda: edge.sessions() == WORKERS * len(HOSTS), PATIENCE, "all workers are back")
    edge.keeps_pace_while(lambda: edge.ask(jobs_of_both("unread", 50)))
    line = 1 + edge.server_says(b"status").index(UNREADABLE.partition(b"\n")[0] + b"\n")
    said = re.search(r"Line (\d+) of the job server's status text cannot be read", html.unescape(edge.page.text("/")))
    held(said and int(said[1]) == line, f"of line {line}, which cannot be read, the page says {said and said[0]}")
    # A farm on a slow machine has no plan in the attempts before its first workers are there.
    had_no_plan = any(line.endswith(" noplan") for line in edge.lines())
    edge.end(100, SOME_WITHOUT_A_PLAN if had_no_plan else 0)


def workers_are_replaced_between_attempts(program, processes):
    """Each function has one worker, which ends with a job that has no answer, or once it has had two. No attempt comes, and each time the
    slot has a new one, which does the same."""
    edge = Edge(program, processes)
    edge.write("settings", settings_of_own(edge.server, workers=1, round_ms=APART_MS, max_runs=2))
    edge.start()
    for turn in range(3):
        with contextlib.closing(Client(edge.server, PATIENCE)) as client:
            client.socket.sendall(request(SUBMIT_JOB, b"upper", b"poison-%d" % turn, POISON))
            wait_until(lambda: edge.lost() > turn, PATIENCE, "the job is lost")
        # Without its client the job is gone.
        edge.ask(jobs_of_both(f"after-{turn}", 5))
    held(edge.metric("poolman_attempts_total") == 1, "there was a further attempt")
    edge.end(30)
    causes = set(edge.causes())
    held(causes == {"Unserved", "Retired", "Stopped"}, f"workers ended so: {causes}")


def a_service_that_is_renewed_loses_no_job(program, processes):
    """A service takes no connection for a while, and closes those that it has after one more job each. Its workers ask for no job that they
    could not do: so none is lost, while others come. Once it is back they do jobs again. So it goes three times."""
    edge = Edge(program, processes)
    edge.kill("north")
    service = Renewed(edge.places["north"])
    edge.start()
    wait_until(edge.has_all_workers, PATIENCE, "all workers are there")
    is_over = threading.Event()
    asked = 0

    def ask_on():
        nonlocal asked
        while not is_over.is_set():
            edge.ask(good_jobs(f"some-{asked}", 50))
            asked += 50

    def renew():
        try:
            for _ in range(3):
                ended = len(edge.causes(r"north/\S+"))
                service.leave()
                wait_until(lambda: len(edge.causes(r"north/\S+")) >= ended + WORKERS, PATIENCE, "the workers of north end")
                service.come()
                wait_until(edge.has_all_workers, PATIENCE, "all workers are back")
        finally:
            is_over.set()

    at_once([ask_on, renew])
    edge.end(asked)
    held(edge.lost() == 0, f"{edge.lost()} jobs were lost")


PARTS = (
    one_job_is_never_served,
    one_job_leaves_workers_to_others,
    a_job_that_is_too_large_leaves_workers_to_others,
    one_job_fails_after_its_retries,
    a_host_is_off_from_the_start,
    a_host_goes_before_workers_are_replaced,
    new_workers_have_work_without_a_status,
    workers_are_replaced_between_attempts,
    a_service_that_is_renewed_loses_no_job,
)

if __name__ == "__main__":
    count_or_try(PARTS, sys.argv[1:])
