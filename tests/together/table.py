"""The suites, and the parts in which they run side by side. A new suite, or a new folder of tests/run_only, is a row here."""

import dataclasses
import os
import re
import sys

import kept

TESTS = f"{kept.TOP}/tests"


@dataclasses.dataclass(frozen=True)
class Part:
    """One process: `tests/SUITE/run WORDS`, which takes so many gigabytes at most, and so many minutes on a core of its own. The longest parts
    begin first."""

    suite: str
    gigabytes: float
    minutes: float
    words: tuple = ()
    # A part that reads nothing but files is kept. It stands on these crates, on those that its words and its texts name, and on those below.
    is_kept: bool = False
    crates: tuple = ()
    wants_program: bool = False

    @property
    def script(self):
        return f"{TESTS}/{self.suite}/run" if self is not UNPROVED else f"{TESTS}/unproved"

    @property
    def command(self):
        """What runs it alone."""
        return " ".join(["tests/run", self.suite, *self.words]) if self is not UNPROVED else "tests/unproved"

    @property
    def title(self):
        more = len(self.words) - 1
        return " ".join([self.suite, *self.words[:1]]) + (f" and {more} more" if more > 0 else "")

    def texts(self):
        """The files of the suite that it reads."""
        folder = f"{TESTS}/{self.suite}"
        if self.suite == "run_only":
            names = [f"{word}/{name}" for word in self.words for name in os.listdir(f"{folder}/{word}")]
        else:
            words = {*self.words, *[used for word in self.words for used in used_by(f"{folder}/{word}.rt.txt")]}
            names = [f"{word}.rt.txt" for word in ("lib", *words)] if words else os.listdir(folder)
        return sorted(f"{folder}/{name}" for name in {"run", *names} - {"README.md"})

    def key(self):
        """The checksum of all that it reads, or None if it is not kept."""
        if not self.is_kept:
            return None
        texts = self.texts()
        named = {name for text in texts if os.path.isfile(text) for name in re.findall(r"\b(\w+)::", read(text))}
        return kept.sum_of([*self.crates, *self.words, *named], [*texts, f"{TESTS}/together/kit.py"])


def read(path):
    with open(path, encoding="utf-8") as text:
        return text.read()


def used_by(path):
    """The texts of a suite from which one of its texts takes something."""
    return re.findall(r"^use crate::([a-z_]+)::", read(path), re.M)


# The tests of crates that run_only compiles into one program. The top of the program, which changes most, stands apart.
RUN_ONLY = (
    ("serve_command", "farm_notes", "farm_page", "page_server"),
    ("program", "drain_command", "fault_detail", "run_command", "settings_command", "tests_run_command"),
    ("tests_pool_supervisor", "farm_hosts", "http_jobs", "pool_supervisor", "tests_job_runner"),
)
MEMORY = (("served", "open_job", "supervised"), ("commands",), ("machine", "relaxing", "service", "session", "sizing", "texts", "turns"))


def run_only_parts():
    """A part for each row, and one for all other folders."""
    folders = sorted(name for name in os.listdir(f"{TESTS}/run_only") if os.path.isdir(f"{TESTS}/run_only/{name}"))
    others = [name for name in folders if not any(name in row for row in RUN_ONLY)]
    return [Part("run_only", 3.0, 5.0, words=tuple(words), is_kept=True) for words in (*RUN_ONLY, others)]


# A word for all suites that try the whole program.
PROGRAM = "program"

# Suites of which a part can be named.
IN_PARTS = ("run_only", "memory", "http", "serve")

UNPROVED = Part("unproved", 3.0, 3.0)

PARTS = (
    *run_only_parts(),
    *[Part("memory", 3.0, 5.0, words=words, is_kept=True) for words in MEMORY],
    Part("misuse", 2.0, 2.0, is_kept=True, crates=("pool_core",)),
    Part("http", 2.0, 2.0),
    Part("serve", 1.0, 1.0, words=("edges",), wants_program=True),
    Part("serve", 1.0, 0.5, words=("starved",), wants_program=True),
    Part("serve", 0.5, 1.0, words=("gone",), wants_program=True),
    Part("serve", 1.0, 0.5, words=("sized",), wants_program=True),
    Part("serve", 1.0, 0.5, words=("trial",), wants_program=True),
    Part("serve", 0.5, 0.5, words=("handover",), wants_program=True),
    Part("pages", 0.5, 0.9, wants_program=True),
    Part("limits", 0.5, 0.3, wants_program=True),
    Part("package", 0.5, 0.3, wants_program=True),
    Part("signals", 0.2, 0.2, wants_program=True),
    Part("watched", 0.2, 0.1, wants_program=True),
    Part("shape", 0.2, 0.1),
    Part("tables", 0.2, 0.1),
    Part("links", 0.2, 0.1),
)


def parts(words):
    """The parts that these words of a command name."""
    if not words:
        return PARTS
    suite, *arguments = words
    found = [part for part in PARTS if part.suite == suite or (suite == PROGRAM and part.wants_program)]
    if not found:
        names = sorted({part.suite for part in PARTS})
        sys.exit(f"tests/run: there is no suite {suite}, but {', '.join(names)}, and {PROGRAM} for those that try the whole program")
    if arguments and suite not in IN_PARTS:
        sys.exit(f"tests/run: {suite} takes no arguments, but {', '.join(IN_PARTS)} do")
    # What somebody asks for by name is run.
    return [dataclasses.replace(found[0], words=tuple(arguments), is_kept=False)] if arguments else found
