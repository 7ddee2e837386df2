"""The kit's gate, `rt ci`: runs it, shows what a reader wants of its output, and returns how it ended."""
import os
import re
import subprocess

from times import Times

LAST = re.compile(r"(\d+) passed, (\d+) failed")


def version():
    """Returns the kit's line, which names what proves."""
    return subprocess.run(["rt", "version"], capture_output=True, text=True, check=True).stdout.strip()


def _shown(lines):
    """Yields the lines to show. What the prover wrote of a crate comes between `== NAME` and its verdict, and is shown where that is not
    `proved`."""
    held, name = [], None
    for line in lines:
        if line.startswith("== "):
            held, name = [line], line[3:].partition(":")[0].strip()
        elif name and re.match(rf"rt: {re.escape(name)}\b.* (NOT PROVED|proved)$", line):
            yield from held if line.rstrip().endswith("NOT PROVED") else []
            yield line
            held, name = [], None
        elif name:
            held.append(line)
        elif line.strip():
            yield line
    yield from held


def ci(room=".", anew=False, on_line=print):
    """Runs `rt ci` at the top of a repository, and calls on_line(line) for each line to show. Returns how many passed and how many failed,
    and what each crate took of processor time."""
    words = ["rt", "ci", *["--anew"][: anew]]
    with subprocess.Popen(words, cwd=room, stdin=subprocess.DEVNULL, stdout=subprocess.PIPE, stderr=subprocess.STDOUT, text=True) as process:
        with Times(process.pid) as times:
            last = ""
            for line in _shown(process.stdout):
                last = line.rstrip("\n")
                if not LAST.fullmatch(last):
                    on_line(last)
        _, status, usage = os.wait4(process.pid, 0)
        process.returncode = os.waitstatus_to_exitcode(status)
    times.whole = usage.ru_utime + usage.ru_stime
    counts = LAST.fullmatch(last)
    if not counts or (process.returncode == 0) != (counts[2] == "0"):
        on_line(f"rt ci ended with status {process.returncode}, and its last line is not that of a gate: {last}")
        return 0, 1, times
    return int(counts[1]), int(counts[2]), times
