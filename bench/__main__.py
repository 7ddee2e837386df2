"""Runs parts of the benchmarks, and prints their tables: `make bench [PART ..] ARGS=..`."""
import os
import shutil
import signal
import sys
import tempfile

from . import compact, load, machine, server, settings as options
from .fault import Fault
from .processes import HERE
from .report import conditions, write_page

MEASURES = {"machine": machine.measure, "server": server.measure, "load": load.measure, "compact": compact.measure}
SIGNALS = [signal.SIGINT, signal.SIGTERM, signal.SIGHUP]


def run_part(part, settings):
    """Runs a part in a folder of its own, which is removed at its end. Prints its tables."""
    print(f"{part}:", flush=True)
    made_on = conditions(settings)
    folder = tempfile.mkdtemp(prefix=f"{part}-", dir=settings.folder)
    os.chmod(folder, 0o755)
    try:
        tables = MEASURES[part](settings, folder)
    finally:
        shutil.rmtree(folder, ignore_errors=True)
    text = "\n\n".join([made_on, *(it for it in tables if it)])
    print(f"\n{text}\n", flush=True)
    if settings.write:
        mark = "slow table" if settings.slow_ms else "table"
        write_page(os.path.join(HERE, f"{part}.md"), mark, f"\n{text}\n")


def end(*_):
    """Ends the run. A second signal does not disturb the stop of what was started."""
    for number in SIGNALS:
        signal.signal(number, signal.SIG_IGN)
    raise KeyboardInterrupt


def main(words):
    # PostgreSQL runs as another user, and reads the library of the slower disk.
    os.umask(0o022)
    for number in SIGNALS:
        signal.signal(number, end)
    try:
        settings = options.read(words)
        os.makedirs(settings.folder, exist_ok=True)
        for part in settings.parts:
            run_part(part, settings)
    except (Fault, OSError) as fault:
        print(f"bench: {fault}", file=sys.stderr)
        return 2
    except KeyboardInterrupt:
        print("bench: ended early; what was started is stopped", file=sys.stderr)
        return 130
    return 0


if __name__ == "__main__":
    sys.exit(main(sys.argv[1:]))
