"""Runs load.c against a server, and returns what it measured."""
import os
import subprocess
from dataclasses import dataclass

from .processes import Process
from .usage import Rates, Usage

WARM_SECONDS = 0.5


@dataclass(frozen=True)
class Loaded:
    """What a row of a load measured: replies a second, times in milliseconds, refused replies, and what was used."""

    rate: float
    median: float
    p99: float
    p999: float
    refused: int
    used: Rates
    expected: dict


@dataclass(frozen=True)
class Load:
    """A load: how many connections, and how many requests of each are in flight."""

    connections: int
    depth: int

    @property
    def name(self):
        return f"{self.connections}x{self.depth}"

    @property
    def threads(self):
        return min(2, self.connections)


def _offsets(path):
    with open(path) as file:
        rows = (line.split() for line in file)
        return {(group, int(partition)): int(offset) for group, partition, offset in rows}


def run_load(program, load, target, seconds, folder, device, lines=None):
    """Loads a server. With `lines`, a file of request lines, each connection sends its own again and again."""
    file = lines or os.path.join(folder, "offsets")
    words = [program, "run", "beat" if lines else target.protocol, target.port, load.connections, load.depth, load.threads,
             WARM_SECONDS, seconds, file]
    with Process("load", [str(word) for word in words], folder, stdout=subprocess.PIPE, text=True) as process:
        process.expect("begin")
        before = Usage.now(target.process.pid, process.pid, device)
        process.expect("end")
        used = Usage.now(target.process.pid, process.pid, device).since(before)
        found = dict(line.split() for line in process.popen.stdout)
        if process.popen.wait() or target.process.popen.poll() is not None:
            raise process.fault(f"failed on {target.name}")
    return Loaded(float(found["good"]) / seconds, float(found["median"]) / 1000, float(found["p99"]) / 1000,
                  float(found["p999"]) / 1000, int(found["refused"]), used, {} if lines else _offsets(file))


def wrong_offsets(target, expected):
    """Counts the partitions of which a server does not hold the last offset that was sent."""
    held = target.stored()
    return sum(held.get(key) != offset for key, offset in expected.items())
