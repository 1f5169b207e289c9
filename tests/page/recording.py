#!/usr/bin/env python3
"""A recording of docs/getting-started.md as text: tests/page/recording.py PROGRAM

Runs the commands of the page, one after another, in a copy of the repository with this program on its path, and writes
docs/pictures/getting_started.txt: each command after `$`, and what it prints. It takes half a minute, and the ports of the page.
"""
import importlib.machinery
import importlib.util
import os
import shutil
import sys
import tempfile

sys.dont_write_bytecode = True
TOP = os.path.join(os.path.dirname(os.path.abspath(__file__)), "../..")
sys.path.insert(0, f"{TOP}/tests/together")
PAGE, RECORDING = f"{TOP}/docs/getting-started.md", f"{TOP}/docs/pictures/getting_started.txt"


def pages():
    """The suite that runs the commands of pages."""
    loader = importlib.machinery.SourceFileLoader("pages", f"{TOP}/tests/pages/run")
    module = importlib.util.module_from_spec(importlib.util.spec_from_loader("pages", loader))
    loader.exec_module(module)
    return module


def recorded(suite, shell):
    """The lines of the recording."""
    with open(PAGE, encoding="utf-8") as text:
        blocks = [text for language, text, _ in suite.blocks(text.read()) if language == "sh"]
    for line in "\n".join(blocks).splitlines():
        status, printed, errors = shell.run(line)
        if status != suite.wanted_status(line):
            sys.exit(f"{line}\n  ended with status {status}: {errors}")
        yield f"$ {line}\n{printed}"


def main(program):
    suite = pages()
    if lacking := suite.obstacle():
        sys.exit(f"{lacking[0]}: {lacking[1]}")
    with tempfile.TemporaryDirectory(prefix="recording-") as where:
        shutil.copytree(TOP, f"{where}/top", ignore=shutil.ignore_patterns(".git", "out"))
        os.mkdir(f"{where}/bin")
        shutil.copy(program, f"{where}/bin/poolman")
        shell = suite.Shell(f"{where}/top", {**os.environ, "PATH": f"{where}/bin:{os.environ['PATH']}"})
        try:
            text = "".join(recorded(suite, shell))
        finally:
            shell.end()
    with open(RECORDING, "w", encoding="utf-8") as out:
        out.write(text)


if __name__ == "__main__":
    main(*sys.argv[1:])
