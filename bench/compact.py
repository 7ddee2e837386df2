"""Commits to a cg_server that compacts its log all the time, beside one that never does, and the peaks of their memory."""
import os
import statistics
import threading
import time
from dataclasses import dataclass

from . import log_file
from .loads import Load, Loaded, run_load, wrong_offsets
from .processes import compile_c, has_room
from .report import Table, number, ratio
from .servers import Coordinator, Target
from .usage import block_device, memory_bytes

LOADS = [Load(1, 1), Load(16, 1), Load(64, 1), Load(64, 16)]
SEGMENTS = 200
# Segments of the state: four commits of 64 partitions with this many bytes of metadata fill one.
STATE_SEGMENTS = 45
STATE_GROUPS = 4 * STATE_SEGMENTS
METADATA = bytes(4073)
# More than are free after a switch, so the next compaction begins with the next tick. Half of it is always free, below which
# batches would wait for a compaction.
ALWAYS = ["--compact-free", "160", "--tick-ms", "10"]
NEVER = ["--compact-free", "0", "--tick-ms", "10"]
# Compacting or not, so that a drift of the machine counts on both sides.
TURNS = [True, False, False, True]
ROOM_MIB = 1024
POLL_SECONDS = 0.005


@dataclass(frozen=True)
class Run:
    """What a load measured, how many compactions a second came to their end meanwhile, and the server's peak of memory."""

    loaded: Loaded
    compactions: float
    peak: int


class Compactions(threading.Thread):
    """Counts the compactions of a log, by its root."""

    def __init__(self, path):
        super().__init__(daemon=True)
        self.path, self.seen, self.over = path, set(), threading.Event()

    def run(self):
        while not self.over.wait(POLL_SECONDS):
            self.seen.add(log_file.snapshot_number(self.path))

    def __enter__(self):
        self.begin = time.monotonic()
        self.start()
        return self

    def __exit__(self, *_):
        self.over.set()
        self.join()
        self.seconds = time.monotonic() - self.begin

    def rate(self):
        return max(0, len(self.seen) - 1) / self.seconds


def _write_state(path):
    """Writes a log whose state has 64 offsets with large metadata in each group."""
    offsets = [log_file.Offset(partition, 1, METADATA) for partition in range(64)]
    commands = (log_file.committed(f"state{group}", offsets) for group in range(STATE_GROUPS))
    log_file.write_log(path, SEGMENTS, log_file.segments_of(log_file.frames_of(commands)))


def _run(settings, folder, program, load, compacts):
    """Runs a load against a server with a fresh log."""
    path = os.path.join(folder, "log")
    _write_state(path)
    with Coordinator(settings.server, folder, ["--disk", path, *(ALWAYS if compacts else NEVER)]) as server:
        target = Target("cg_server", "line", server, server.port, server.stored)
        with Compactions(path) as compactions:
            loaded = run_load(program, load, target, settings.seconds, folder, block_device(folder))
        wrong = wrong_offsets(target, loaded.expected)
        if wrong:
            raise server.fault(f"held {wrong} wrong offsets after {load.name}")
        print(f"  {load.name}, {'compacting' if compacts else 'not compacting'}: {loaded.rate:,.0f}/s", flush=True)
        return Run(loaded, compactions.rate(), memory_bytes(server.pid, "VmHWM"))


def _mean(runs, of):
    return statistics.mean(of(run) for run in runs)


def _row(settings, folder, program, load):
    runs = [(compacts, _run(settings, folder, program, load, compacts)) for compacts in TURNS]
    beside = [run for compacts, run in runs if compacts]
    alone = [run for compacts, run in runs if not compacts]
    rates = [_mean(it, lambda run: run.loaded.rate) for it in (beside, alone)]
    late = [_mean(it, lambda run: run.loaded.p999) for it in (beside, alone)]
    peaks = [max(run.peak for run in it) for it in (beside, alone)]
    compactions = [_mean(it, lambda run: run.compactions) for it in (beside, alone)]
    return [number(load.connections), str(load.depth), number(rates[0]), number(rates[1]), ratio(*rates),
            number(late[0], 2), number(late[1], 2), number(compactions[0], 1), number(compactions[1], 1),
            number(peaks[0] / 1024), number(peaks[1] / 1024), ratio(*peaks), number(sum(run.loaded.refused for _, run in runs))]


COLUMNS = ["|Connections", "|In flight", "|Commits/s, compacting", "|Never", "|Ratio", "|99.9 % ms, compacting", "|Never",
           "|Compactions/s", "|Never", "|Peak KiB, compacting", "|Never", "|Ratio of the peaks", "|Refused"]


def measure(settings, folder):
    """Returns the table of this part."""
    has_room(folder, ROOM_MIB)
    program = compile_c("load.c", os.path.join(folder, "load"))
    rows = [_row(settings, folder, program, load) for load in LOADS if settings.wants(load.name)]
    return ["Look at `Ratio`, of the commits with compactions beside them and without, and at `Ratio of the peaks`.",
            Table(COLUMNS, rows).markdown()]
