"""What the provers of a run take of processor time, crate by crate: their counts in /proc, read every second. What a prover takes after the
last reading of it is missed, so a row is up to a second a prover too small; the sum of the whole run is the system's own."""
import os
import threading
import time
from collections import defaultdict

SECONDS = 1.0
TICKS = os.sysconf("SC_CLK_TCK")
KINDS = ("proof", "tests", "edits")
# A check of an edit runs in a folder of this name.
EDIT = "rt-edit-"


def _text(path):
    with open(path, encoding="utf-8", errors="replace") as file:
        return file.read()


def _reading(pid):
    """Returns whose prover this process is, what for, its parent and what it has taken, or None where it is none."""
    words = _text(f"/proc/{pid}/cmdline").split("\0")
    fields = _text(f"/proc/{pid}/stat").rpartition(")")[2].split()
    if "--crate-name" not in words:
        return None, None, int(fields[1]), 0
    kind = "edits" if EDIT in os.readlink(f"/proc/{pid}/cwd") else "tests" if "--test" in words else "proof"
    return words[words.index("--crate-name") + 1], kind, int(fields[1]), sum(map(int, fields[11:15])) / TICKS


class Times:
    """Reads the provers below a process while the `with` statement runs. Its rows are by crate, in seconds."""

    def __init__(self, top):
        self.top, self.whole, self.begun = top, 0.0, time.time()
        self._taken, self._is_over = {}, threading.Event()
        self._reader = threading.Thread(target=self._read_on, daemon=True)

    def __enter__(self):
        self._reader.start()
        return self

    def __exit__(self, *_):
        self._is_over.set()
        self._reader.join()
        self.seconds = time.time() - self.begun

    def _read_on(self):
        while not self._is_over.wait(SECONDS):
            self._read()

    def _read(self):
        found = {}
        for pid in filter(str.isdigit, os.listdir("/proc")):
            try:
                found[int(pid)] = _reading(pid)
            except (OSError, ValueError, IndexError):
                continue
        for pid, (name, kind, parent, taken) in found.items():
            # What a prover's own processes take is in its count once they have ended.
            is_helper = found.get(parent, (None,))[0] is not None
            if name and not is_helper and self._is_below(pid, found):
                self._taken[pid, name, kind] = max(taken, self._taken.get((pid, name, kind), 0))

    def _is_below(self, pid, found):
        while pid in found and pid != self.top:
            pid = found[pid][2]
        return pid == self.top

    def rows(self):
        rows = defaultdict(lambda: dict.fromkeys(KINDS, 0.0))
        for (_, name, kind), taken in self._taken.items():
            rows[name][kind] += taken
        return rows

    def table(self):
        """Returns the lines of a table: seconds of processor time by crate, and the whole."""
        lines = [f"{'seconds of processor time':26} {'proof':>7} {'tests':>7} {'edits':>7}"]
        lines += [f"{name:26} {row['proof']:7.0f} {row['tests']:7.0f} {row['edits']:7.0f}" for name, row in self.rows().items()]
        return [*lines, f"rt ci took {self.whole / 60:.0f} minutes of processor time, {self.seconds / 60:.0f} minutes by the clock"]
