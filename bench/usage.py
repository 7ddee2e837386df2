"""What processes, processors, the host and the disk did meanwhile, from /proc and /sys."""
import os
import time
from dataclasses import dataclass

TICKS = os.sysconf("SC_CLK_TCK")


def block_device(path):
    """Returns the name of the disk that has a file, or nothing where the file system has none of its own."""
    device = os.stat(path).st_dev
    link = f"/sys/dev/block/{os.major(device)}:{os.minor(device)}"
    if not os.path.exists(link):
        return None
    folder = os.path.realpath(link)
    # A partition does not count flushes: its disk does.
    return os.path.basename(os.path.dirname(folder) if os.path.exists(f"{folder}/partition") else folder)


def flushes(device):
    """Returns how many flushes a disk has completed."""
    if device is None:
        return 0
    with open(f"/sys/class/block/{device}/stat") as file:
        fields = file.read().split()
    return int(fields[15]) if len(fields) > 15 else 0


def _stat(pid):
    """Returns the state of a process, its parent, its processor seconds and those of its children that ended."""
    with open(f"/proc/{pid}/stat") as file:
        fields = file.read().rpartition(")")[2].split()
    own, ended = (sum(int(it) for it in fields[at:at + 2]) / TICKS for at in (11, 13))
    return fields[0], int(fields[1]), own, ended


def state(pid):
    """Returns the letter of a process's state, as S for asleep."""
    return _stat(pid)[0]


def processor_seconds(pid):
    """Returns the processor seconds of a process and of its children, also of those that ended."""
    total = 0.0
    for name in os.listdir("/proc"):
        if name.isdigit():
            try:
                _, parent, own, ended = _stat(name)
            except (FileNotFoundError, ProcessLookupError):
                continue
            if pid in (int(name), parent):
                total += own + (ended if pid == int(name) else 0)
    return total


def memory_bytes(pid, field):
    """Returns a field of /proc/PID/status, as VmHWM, the peak of a process's memory, or VmRSS, its memory now."""
    with open(f"/proc/{pid}/status") as file:
        for line in file:
            if line.startswith(field + ":"):
                return int(line.split()[1]) * 1024
    return 0


@dataclass(frozen=True)
class Usage:
    """What was used up to a moment, in seconds of a processor and in flushes."""

    moment: float
    server: float
    load: float
    busy: float
    stolen: float
    flushes: int

    @staticmethod
    def now(server_pid, load_pid, device):
        with open("/proc/stat") as file:
            user, nice, system, _, _, interrupts, soft, stolen, *_ = [int(it) / TICKS for it in file.readline().split()[1:]]
        busy = user + nice + system + interrupts + soft
        return Usage(time.monotonic(), processor_seconds(server_pid), processor_seconds(load_pid), busy, stolen, flushes(device))

    def since(self, before):
        """Returns the rates between two moments: processors, and flushes a second."""
        span = self.moment - before.moment
        server, load = (self.server - before.server) / span, (self.load - before.load) / span
        others = max(0.0, (self.busy - before.busy) / span - server - load)
        return Rates(server, load, others, (self.stolen - before.stolen) / span, (self.flushes - before.flushes) / span)


@dataclass(frozen=True)
class Rates:
    """Processors that were used, and flushes a second."""

    server: float
    load: float
    others: float
    stolen: float
    flushes: float
