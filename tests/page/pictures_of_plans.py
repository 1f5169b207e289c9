#!/usr/bin/env python3
"""The picture of a plan in docs/concepts.md: tests/page/pictures_of_plans.py PROGRAM [--check]

Asks the program for the plan of an example, and draws the plan and its evidence as bars in docs/pictures/plan.svg. With --check it draws
nothing, and fails if the file is not what it would draw."""

import html
import os
import subprocess
import sys

TOP = os.path.dirname(os.path.dirname(os.path.dirname(os.path.abspath(__file__))))
EXAMPLE = f"{TOP}/examples/first_hour"
PICTURE = f"{TOP}/docs/pictures/plan.svg"

# In pixels: a line of text or a bar, the names of workers, the longest bar, half of the picture, and what is left free around.
ROW, NAMES, LONGEST, PANEL, MARGIN = 24, 130, 150, 340, 16

STYLE = """
text { font: 13px sans-serif; fill: #1c1c1a }
.head { font-weight: bold }
.ground { fill: #fbfbfa }
.first { fill: #2f6fb3 }
.second { fill: #b3722f }
.missing { fill: none; stroke: #b32f2f; stroke-dasharray: 4 3 }
.limit { stroke: #1c1c1a; stroke-dasharray: 2 3 }
@media (prefers-color-scheme: dark) {
text { fill: #e8e8e4 }
.ground { fill: #141413 }
.first { fill: #5b9be0 }
.second { fill: #e0a05b }
.missing { stroke: #e87070 }
.limit { stroke: #e8e8e4 }
}
"""


def waiting_jobs(status):
    """The waiting jobs of each function of a status text."""
    rows = [line.rsplit("\t", 3) for line in status.splitlines() if "\t" in line]
    return {name: max(0, int(total) - int(running)) for name, total, running, _ in rows}


class Report:
    """What a report of a plan with evidence says."""

    def __init__(self, text):
        words = [line.split(" ") for line in text.splitlines()]
        self.backlog = next(int(row[1]) for row in words if row[0] == "backlog")
        self.workers = {}
        for row in words:
            if row[0] == "work":
                self.workers.setdefault(row[2], []).append(row[1])
        self.need, self.have = next((int(row[2]), int(row[4])) for row in words if row[0] == "short")
        self.needs = {row[1]: int(row[3]) for row in words if row[0] == "in"}


class Panel:
    """One half of the picture, whose lines come one below the other. A job in a bar is so long."""

    def __init__(self, left, job):
        self.left, self.job = left, job
        self.top = MARGIN
        self.parts = []

    def text(self, words, kind="line"):
        self.top += ROW
        self.parts.append(f'<text class="{kind}" x="{self.left}" y="{self.top - 7}">{html.escape(words)}</text>')

    def bar(self, name, jobs, kind):
        self.text(name)
        width = max(jobs * self.job, 2)
        self.parts.append(f'<rect class="{kind}" x="{self.left + NAMES}" y="{self.top - ROW + 3}" width="{width}" height="{ROW - 6}" rx="2"/>')

    def limit(self, jobs, begin):
        """A line at so many jobs, from there to here."""
        x = self.left + NAMES + jobs * self.job
        self.parts.append(f'<path class="limit" d="M{x} {begin}V{self.top}"/>')
        self.parts.append(f'<text x="{x + 6}" y="{self.top - 7}">{jobs} each</text>')


def shares(jobs, workers):
    """So many jobs, shared by so many workers."""
    least, more = divmod(jobs, workers)
    return [least + 1] * more + [least] * (workers - more)


def drawn(settings, status, text):
    """The picture of a report."""
    report, waiting = Report(text), waiting_jobs(status)
    kinds = dict(zip(waiting, ("first", "second")))
    job = LONGEST // report.backlog
    plan = Panel(MARGIN, job)
    plan.text(f"The best plan has backlog {report.backlog}", "head")
    begin = plan.top
    for function, jobs in sorted(waiting.items(), key=lambda row: -row[1]):
        workers = report.workers[function]
        plan.text(f"{function}: {jobs} jobs wait, {len(workers)} worker{'' if len(workers) == 1 else 's'}")
        for worker, share in zip(workers, shares(jobs, len(workers))):
            plan.bar(worker, share, kinds[function])
    plan.limit(report.backlog, begin)
    less = report.backlog - 1
    why = Panel(MARGIN + PANEL, job)
    why.text(f"Backlog {less} is not possible", "head")
    begin = why.top
    number = 0
    for function, need in report.needs.items():
        why.text(f"{function}: {waiting[function]} jobs need {need} workers")
        for share in shares(waiting[function], need):
            number += 1
            is_there = number <= report.have
            why.bar("a worker" if is_there else "missing", share, kinds[function] if is_there else "missing")
    why.limit(less, begin)
    why.text(f"{report.need} are needed, and {report.have} may do it")
    width, height = 2 * (MARGIN + PANEL), max(plan.top, why.top) + MARGIN
    words = f"A plan of {os.path.relpath(settings, TOP)} with backlog {report.backlog}, and why backlog {less} is not possible"
    lines = [f'<svg xmlns="http://www.w3.org/2000/svg" width="{width}" height="{height}" viewBox="0 0 {width} {height}" role="img">']
    lines += [f"<title>{html.escape(words)}</title>", f"<style>{STYLE}</style>"]
    lines += [f'<rect class="ground" width="{width}" height="{height}" rx="6"/>', *plan.parts, *why.parts, "</svg>"]
    return "\n".join(lines) + "\n"


def main(program, *flags):
    settings = f"{EXAMPLE}/settings.toml"
    with open(f"{EXAMPLE}/status.txt", encoding="utf-8") as file:
        status = file.read()
    report = subprocess.run([program, "plan", settings], input=status, stdout=subprocess.PIPE, text=True, check=True).stdout
    picture = drawn(settings, status, report)
    if flags == ("--check",):
        with open(PICTURE, encoding="utf-8") as file:
            if file.read() != picture:
                sys.exit(f"{PICTURE} is not what {__file__} draws")
        return
    with open(PICTURE, "w", encoding="utf-8") as file:
        file.write(picture)


if __name__ == "__main__":
    if len(sys.argv) not in (2, 3) or sys.argv[2:] not in ([], ["--check"]):
        sys.exit(__doc__)
    main(*sys.argv[1:])
