"""How long cg_server takes to load a log that is full of commits, beside a plain read of its file, and its peak of memory."""
import itertools
import os
import statistics
import time
from dataclasses import dataclass

from . import log_file
from .fault import Fault
from .processes import has_room
from .report import Table, number, ratio
from .servers import GROUPS, PARTITIONS, Coordinator
from .usage import memory_bytes

ROUNDS = 5
ROOM_MIB = 512
PIECE = 1 << 20


@dataclass(frozen=True)
class Row:
    """A full log: its segments, and whether its frames are full or have one commit each."""

    segments: int
    full: bool

    @property
    def name(self):
        return f"{self.segments} segments {'of full frames' if self.full else 'of single commits'}"


ROWS = [Row(segments, full) for segments in (8, 200) for full in (False, True)]
# Frames of one commit that a segment has room for: a gate and a sector each, and the gate after the last.
SMALL_FRAMES = (log_file.SEGMENT_SECTORS - 1) // 2


def _small_frames():
    """Yields frames of one commit each, which go round all partitions."""
    for at in itertools.count(1):
        group, partition = at % GROUPS, at // GROUPS % PARTITIONS
        yield log_file.frame([log_file.committed(f"g{group}", [log_file.Offset(partition, at)])])


def _write(path, row):
    """Writes the log of a row. Returns how many commands it has."""
    if row.full:
        frame, commits = log_file.full_frame(log_file.committed("g7", [log_file.Offset(3, 42)]))
        frames, commands = itertools.repeat(frame, row.segments), row.segments * commits
    else:
        commands = row.segments * SMALL_FRAMES
        frames = itertools.islice(_small_frames(), commands)
    log_file.write_log(path, row.segments, log_file.segments_of(frames))
    return commands


def _plain_read(path):
    """Returns the seconds that a read of a whole file takes, in pieces of 1 MiB."""
    buffer = bytearray(PIECE)
    with open(path, "rb", buffering=0) as file:
        begin = time.perf_counter()
        while file.readinto(buffer):
            pass
        return time.perf_counter() - begin


def _load(settings, folder, path, commands):
    """Returns the seconds that a server takes to load a log, and its peak of memory."""
    with Coordinator(settings.server, folder, ["--disk", path, "--compact-free", "0"]) as server:
        if server.loaded[0] != commands:
            raise Fault(f"{server.loaded[0]} commands of {commands} were loaded")
        return server.load_seconds, memory_bytes(server.pid, "VmHWM")


def _measure_row(settings, folder, row, empty_peak):
    path = os.path.join(folder, "full")
    commands = _write(path, row)
    plain, loads, peaks = [], [], []
    for _ in range(ROUNDS):
        plain.append(_plain_read(path))
        seconds, peak = _load(settings, folder, path, commands)
        loads.append(seconds)
        peaks.append(peak)
        plain.append(_plain_read(path))
    size = os.path.getsize(path)
    read, load = statistics.median(plain), statistics.median(loads)
    print(f"  {row.name}: {load:.3f} s", flush=True)
    return [str(row.segments), number(commands // row.segments if row.full else 1), number(commands), number(load * 1000, 1),
            number(commands / load), number(size / load / PIECE), number(size / read / PIECE), ratio(read, load),
            number(max(peaks) / 1024), ratio(max(peaks), empty_peak)]


COLUMNS = ["|Segments", "|Commits a frame", "|Commits", "|Load ms", "|Commits/s", "|MiB/s", "|Plain read, MiB/s",
           "|Ratio of the times", "|Peak KiB", "|Of an empty log's peak"]


def measure(settings, folder):
    """Returns the table of this part."""
    has_room(folder, ROOM_MIB)
    path = os.path.join(folder, "empty")
    log_file.write_log(path, 1, [])
    _, empty_peak = _load(settings, folder, path, 0)
    rows = [_measure_row(settings, folder, row, empty_peak) for row in ROWS if settings.wants(row.name)]
    return ["Look at `Ratio of the times`, of the plain read and of the load: 1 is as fast.", Table(COLUMNS, rows).markdown()]
