"""Runs the parts of a test, each as a process group of its own and within a limit."""

import os
import signal
import subprocess
import sys
import time
import traceback


def leftovers(group):
    """Whether a process of the group is still there."""
    try:
        os.killpg(group, 0)
        return True
    except ProcessLookupError:
        return False


def run_part(words, limit):
    """Runs a part as a process, and gives whether it passed and what it said."""
    child = subprocess.Popen(words, stdin=subprocess.DEVNULL, stdout=subprocess.PIPE, stderr=subprocess.STDOUT, start_new_session=True, text=True)
    try:
        said, passed = child.communicate(timeout=limit)[0], child.returncode == 0
        if leftovers(child.pid):
            passed, said = False, f"{said.strip()} (left a process)"
    except subprocess.TimeoutExpired:
        passed, said = False, f"not within {limit} seconds"
    if leftovers(child.pid):
        os.killpg(child.pid, signal.SIGKILL)
    child.wait()
    return passed, said.strip()


def alone(program, part):
    """Runs one part in this process."""
    try:
        print(part(program))
    except BaseException:
        traceback.print_exc()
        return 1
    return 0


def run_parts(program, names, parts, apart):
    """Runs the parts of these names, or all, prints a line for each, and gives the exit status. `parts` are functions of the program with
    their limits in seconds; those in `apart` get a network of their own."""
    program, script = os.path.abspath(program), os.path.abspath(sys.argv[0])
    if names[:1] == ["--alone"]:
        # The threads of a part that failed may still wait, and what they started is ended with the group.
        status = alone(program, next(it for it in parts if it.__name__ == names[1]))
        sys.stdout.flush()
        os._exit(status)
    failed = 0
    for part, limit in parts.items():
        if names and part.__name__ not in names:
            continue
        if part in apart and os.geteuid() != 0:
            print(f"skipped {part.__name__}: it wants root, for a network of its own", flush=True)
            continue
        words = [sys.executable, script, program, "--alone", part.__name__]
        start = time.monotonic()
        passed, said = run_part(["unshare", "--net", *words] if part in apart else words, limit)
        failed += not passed
        print(f"{'passed' if passed else 'FAILED'} {part.__name__} {time.monotonic() - start:.1f} s: {said}", flush=True)
    print(f"{failed} failed")
    return 1 if failed else 0
