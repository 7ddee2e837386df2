"""Tables in Markdown, what a run was made on, and the pages that keep the tables of the last run."""
import os
import re
import shutil
import subprocess
import time
from dataclasses import dataclass

from .fault import Fault
from .processes import HERE
from .usage import block_device


@dataclass
class Table:
    """A table: a column that begins with `|` is of numbers, and printed on the right."""

    columns: list[str]
    rows: list[list[str]]

    def markdown(self):
        names = [name.lstrip("|") for name in self.columns]
        rules = ["--:" if name.startswith("|") else "---" for name in self.columns]
        lines = [names, rules, *self.rows]
        return "\n".join("| " + " | ".join(cells) + " |" for cells in lines)


def number(value, digits=0):
    """Prints a number with thousands separated; a dash where there is none."""
    return "–" if value is None else f"{value:,.{digits}f}"


def ratio(value, base):
    """Prints value / base with two figures or more; a dash where one of them is missing."""
    if not value or not base:
        return "–"
    share = value / base
    return f"{share:,.2f}" if share >= 0.1 else f"{share:.2g}"


def _git(*words):
    """Returns what git prints, or nothing where there is no git or no repository."""
    if not shutil.which("git"):
        return ""
    ran = subprocess.run(["git", *words], capture_output=True, text=True, check=False, cwd=HERE)
    return ran.stdout.strip() if ran.returncode == 0 else ""


def _moment(seconds):
    return time.strftime("%Y-%m-%d %H:%M", time.gmtime(seconds))


def _processor():
    with open("/proc/cpuinfo") as file:
        names = re.findall(r"^model name\s*: (.*)$", file.read(), re.M)
    return names[0] if names else os.uname().machine


def _file_system(folder):
    """Returns the kind of the file system that a folder is on."""
    best = ("", "unknown")
    with open("/proc/mounts") as file:
        for line in file:
            _, at, kind, *_ = line.split()
            if os.path.commonpath([at, folder]) == at and len(at) >= len(best[0]):
                best = (at, kind)
    return best[1]


def conditions(settings):
    """Says when, of what and on what a run was made."""
    commit = _git("rev-parse", "--short=12", "HEAD") or "unknown"
    # The pages change in a run with --write.
    changes = " with changes" if _git("status", "--porcelain", "--untracked-files=no", "--", ":/", ":!*.md") else ""
    programs = ", ".join(f"{os.path.basename(it)} of {_moment(os.path.getmtime(it))}" for it in (settings.sim, settings.server))
    folder = os.path.realpath(settings.folder)
    load = " ".join(f"{it:.2f}" for it in os.getloadavg())
    options = f"rows of {settings.seconds:g} s" + (f", each sync {settings.slow_ms:g} ms longer" if settings.slow_ms else "")
    return (f"{_moment(time.time())} UTC, commit {commit}{changes}, {options}.\nPrograms: {programs}.\n"
            f"Processors: {os.cpu_count()} of {_processor()}. Kernel: {os.uname().release}.\n"
            f"Disk: {block_device(folder) or 'unknown'}, {_file_system(folder)}. Load average before the part: {load}.")


def write_page(path, mark, text):
    """Replaces what a page has between its marker lines."""
    begin, end = f"<!-- {mark}: begin -->", f"<!-- {mark}: end -->"
    with open(path) as file:
        page = file.read()
    before, found, rest = page.partition(begin)
    _, closed, after = rest.partition(end)
    if not found or not closed:
        raise Fault(f"{path} has no lines {begin} and {end}")
    with open(path, "w") as file:
        file.write(f"{before}{begin}\n{text}\n{end}{after}")
