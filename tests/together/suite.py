"""What the suites share: the program that they try, and the lines that say what they came to."""

import os
import sys

TOP = os.path.dirname(os.path.dirname(os.path.dirname(os.path.abspath(__file__))))


def program():
    """The program that POOLMAN names, or else the one that `rt run` or `rt ci` left."""
    path = os.path.abspath(os.environ.get("POOLMAN") or f"{TOP}/crates/poolman/out/poolman")
    if not (os.path.isfile(path) and os.access(path, os.X_OK)):
        sys.exit(f"there is no program at {path}: tests/unproved makes one, and POOLMAN=FILE names it")
    return path


def has_sanitizer(path):
    """Whether this is a checking build, which a limit on memory stops, and of which no package can be made."""
    with open(path, "rb") as file:
        return b"__asan_init" in file.read()


def passed(suite, count):
    print(f"{suite}: {count} passed", flush=True)


def skipped(suite, count, what, reason="not installed"):
    """Says that so many tests are left out, for want of what is named, or for another reason."""
    print(f"{suite}: {count} skipped: {what}: {reason}", flush=True)
