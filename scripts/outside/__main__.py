"""Checks the two built programs from outside.

  python3 scripts/outside PROGRAM_SIM PROGRAM_SERVER [SUBJECT ..]

PROGRAM_SIM is a built cg_sim, PROGRAM_SERVER a built cg_server. A SUBJECT is the name of a module of this folder with a
function `check`; all are run by default, and `wakeups` runs neither program. Each check that fails is printed, and so is each that
is left out. The last line is `N passed, M failed`, and the status is 1 if one failed. How long each subject took is on standard
error.
"""
import importlib
import os
import sys
import tempfile
import time
from dataclasses import dataclass

sys.path.insert(0, os.path.dirname(os.path.dirname(os.path.abspath(__file__))))

from outside.report import Report  # noqa: E402

SUBJECTS = ["wakeups", "command_lines", "log_files", "faults", "status", "written_log", "snapshots", "read_log", "damaged_logs",
            "stops", "failing_disk", "lines", "loading", "drawn_logs", "drawn_lines", "refused_memory", "client", "runs"]


@dataclass(frozen=True)
class Programs:
    """The paths of the two programs."""
    sim: str
    server: str


def main(words):
    if len(words) < 2:
        print(__doc__, file=sys.stderr)
        return 2
    programs = Programs(*(os.path.abspath(it) for it in words[:2]))
    report = Report()
    for name in words[2:] or SUBJECTS:
        begun = time.monotonic()
        with tempfile.TemporaryDirectory() as folder, report.check(name):
            importlib.import_module(f"outside.{name}").check(report, programs, folder)
        print(f"{name}: {time.monotonic() - begun:.1f} s", file=sys.stderr, flush=True)
    print(f"{report.passed} passed, {report.failed} failed")
    return 1 if report.failed else 0


if __name__ == "__main__":
    sys.exit(main(sys.argv[1:]))
