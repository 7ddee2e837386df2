"""Durable commits and BEATs by many connections, in cg_server, Redis, PostgreSQL and a stub, row by row in turns."""
import os
import resource
import subprocess
from contextlib import ExitStack

from .fault import Fault
from .loads import Load, run_load, wrong_offsets
from .processes import compile_c, has_room
from .report import Table, number, ratio
from .servers import ask, preloaded, start_coordinator, start_postgres, start_redis, start_stub
from .usage import block_device

COMMITS = [Load(connections, depth) for connections in (1, 16, 64, 256, 1000) for depth in (1, 16)]
BEATS = [Load(connections, 16) for connections in (1, 16, 64)]
ROOM_MIB = 4096
BATCH = "1 KiB, sync, 512 B, sync"
# Descriptors that a server needs beside those of its connections.
SPARE_FILES = 100


def _file_limit():
    """Lets this process and those that it starts open as many files as they may. Returns how many."""
    _, most = resource.getrlimit(resource.RLIMIT_NOFILE)
    resource.setrlimit(resource.RLIMIT_NOFILE, (most, most))
    return most


def _disk(settings, load, env, folder):
    """Returns what one thread does on the disk: batches a second and times in microseconds, by kind."""
    words = [load, "disk", folder, str(min(settings.seconds, 2))]
    ran = subprocess.run(words, env=env, capture_output=True, text=True, check=False)
    if ran.returncode:
        raise Fault(f"the disk was not measured: {ran.stderr.strip()}")
    rows = (line.split("\t") for line in ran.stdout.splitlines())
    return {name: [float(it) for it in figures] for name, *figures in rows}


def _disk_table(before, after):
    columns = ["One thread, no server", "|Batches/s before", "|Median ms", "|99 % ms", "|99.9 % ms", "|Batches/s after", "|Ratio"]
    rows = [[name, number(figures[0]), *(number(it / 1000, 3) for it in figures[1:]), number(after[name][0]),
             ratio(after[name][0], figures[0])] for name, figures in before.items()]
    return Table(columns, rows)


class Turns:
    """Rows of a table, each measured on all servers in turns, another one first each time."""

    def __init__(self, settings, load, folder):
        self.settings, self.load, self.folder = settings, load, folder
        self.device = block_device(folder)
        self.wrong = []
        self.turn = 0

    def measure(self, load, targets, lines=None):
        """Returns what each target did under a load, by its name. Checks the offsets that it holds afterwards."""
        found = {}
        first = self.turn % len(targets)
        self.turn += 1
        for target in targets[first:] + targets[:first]:
            it = run_load(self.load, load, target, self.settings.seconds, self.folder, self.device, lines)
            if target.name != "stub" and it.expected and (count := wrong_offsets(target, it.expected)):
                self.wrong.append(f"{target.name} held {count} wrong offsets after {load.name}")
            found[target.name] = it
            print(f"  {load.name} {target.name}: {it.rate:,.0f}/s", flush=True)
        return found


def _times(it):
    return [number(share, 2) for share in (it.median, it.p99, it.p999)]


def _used(it):
    used = it.used
    return [number(share, 2) for share in (used.server, used.load, used.others, used.stolen)] + [number(it.refused)]


def _rate(found, name):
    return found[name].rate if name in found else None


USED_COLUMNS = ["|Processors: server", "|Load", "|Others", "|Host", "|Refused"]
COMMIT_COLUMNS = ["|Connections", "|In flight", "Server", "|Commits/s", "|Of Redis", "|Of the disk", "|Median ms",
                  "|99 % ms", "|99.9 % ms", "|Flushes/s", "|Commits a flush", *USED_COLUMNS]
BEAT_COLUMNS = ["|Connections", "|In flight", "Server", "|BEATs/s", "|Of the stub", "|Median ms", "|99 % ms", "|99.9 % ms",
                *USED_COLUMNS]


def _commit_row(load, name, found, batches):
    """Prints the commits of a server beside those of Redis, and beside the batches of the disk. The stub has no disk."""
    it = found[name]
    flushes = it.used.flushes if name != "stub" else 0
    return [number(load.connections), str(load.depth), name, number(it.rate), ratio(it.rate, _rate(found, "Redis")),
            ratio(it.rate, batches) if name != "stub" else "–", *_times(it), number(flushes),
            number(it.rate / flushes if flushes >= 1 else None, 1), *_used(it)]


def _beat_row(load, name, found):
    """Prints the BEATs of a server beside the replies of the stub."""
    it = found[name]
    return [number(load.connections), str(load.depth), name, number(it.rate), ratio(it.rate, _rate(found, "stub")),
            *_times(it), *_used(it)]


def _members(target, count, path):
    """Makes groups of one member each that have their assignments, and writes a BEAT line for each to a file."""
    with open(path, "w") as file:
        for group in (f"beat{it}" for it in range(count)):
            joined = ask(target.port, [f"JOIN {group} - - c 1800000 20000 consumer range=x01"])[0].split()
            if joined[:2] != ["JOINED", "1"]:
                raise Fault(f"a JOIN was answered by {' '.join(joined)}")
            member = joined[5]
            synced = ask(target.port, [f"SYNC {group} 1 {member} - {member}=xaa"])
            if synced != ["SYNCED xaa"]:
                raise Fault(f"a SYNC was answered by {synced[0]}")
            file.write(f"BEAT {group} 1 {member} -\n")


def _commit_table(turns, targets, loads, batches):
    rows = []
    for load in loads:
        found = turns.measure(load, targets)
        rows += [_commit_row(load, target.name, found, batches) for target in targets]
    return Table(COMMIT_COLUMNS, rows).markdown()


def _beat_table(turns, targets, loads):
    path = os.path.join(turns.folder, "beats")
    _members(targets[0], max(load.connections for load in loads), path)
    rows = []
    for load in loads:
        found = turns.measure(load, targets, path)
        rows += [_beat_row(load, target.name, found) for target in targets]
    return Table(BEAT_COLUMNS, rows).markdown()


def _subfolder(folder, name):
    path = os.path.join(folder, name)
    os.mkdir(path)
    return path


def _start(stack, settings, load, folder, env):
    """Starts all servers that are installed. Returns them, and a line for each that is missing."""
    coordinator = start_coordinator(stack, settings, _subfolder(folder, "cg_server"), env)
    stub = start_stub(stack, load, folder, 2)
    most = max(it.connections for it in COMMITS)
    others = {"Redis": start_redis(stack, _subfolder(folder, "redis"), env),
              "PostgreSQL": start_postgres(stack, _subfolder(folder, "postgres"), env, most)}
    missing = [f"{name} is not installed, so its rows are left out." for name, target in others.items() if not target]
    return [target for target in (coordinator, *others.values(), stub) if target], missing


def _rows(settings):
    """Returns the loads of commits and of BEATs that are to be measured, and a line for each that cannot be."""
    most = _file_limit()
    fits = [load for load in COMMITS if load.connections + SPARE_FILES <= most]
    notes = [f"No row of {load.name}: the limit of open files is {most}." for load in COMMITS if load not in fits]
    commits = [load for load in fits if settings.wants(f"commits {load.name}")]
    beats = [load for load in BEATS if settings.wants(f"beats {load.name}")]
    return commits, beats, notes


def measure(settings, folder):
    """Returns the tables of this part, with the lines that say what to look at."""
    has_room(folder, ROOM_MIB)
    commits, beats, notes = _rows(settings)
    load = compile_c("load.c", os.path.join(folder, "load"))
    library = compile_c("slow_sync.c", os.path.join(folder, "slow_sync.so"), "-shared", "-fPIC")
    env = preloaded(settings, library)
    with ExitStack() as stack:
        targets, missing = _start(stack, settings, load, folder, env)
        turns = Turns(settings, load, folder)
        before = _disk(settings, load, env, folder)
        tables = []
        if commits:
            tables += ["Look at `Of Redis`, and at `Of the disk` where Redis is not installed:",
                       _commit_table(turns, targets, commits, before[BATCH][0])]
        if beats:
            ours = [target for target in targets if target.protocol == "line"]
            tables += ["Look at `Of the stub`, which is the limit of the load:", _beat_table(turns, ours, beats)]
        after = _disk(settings, load, env, folder)
    tables += ["Look at `Ratio`, which says how much the disk changed during the run:", _disk_table(before, after).markdown()]
    checked = [f"{it}." for it in turns.wrong] or ["After each row each server held the last offset of each partition."]
    return tables + [" ".join(notes + missing + (checked if commits else []))]
