"""Fills a log that is too short for a snapshot of its state, looks for the warnings, and makes it longer as OPERATING.md says. Then
commits to a log that always has fewer segments free than --compact-free says.

  python3 scripts/short_log.py PROGRAM

PROGRAM is a built cg_server. 62 groups, together 8 MiB, are committed to a log of 12 segments, and then a 63rd group again and
again, each commit after the reply to the one before, until the server says that the log is full and no reply comes. By then
the server has to have said, once each and in this order, that it has no room for a snapshot and that the log is full. It is
killed, the file is made longer, and the server started again with more segments for --compact-free. Now it has to have every
group and the last acknowledged offset, and to acknowledge more bytes of commits than the log has room for, without a warning:
so it compacts the log.

A log of 5 segments has at most 3 free after a compaction. With 4 for --compact-free and a tick of a minute it must not become
full either: the commits have to wake the compactor.

The exit status is 0 if all of this held. A run takes some seconds on a fast disk.
"""
import os
import queue
import sys
import tempfile
import threading

from outside.serving import WAIT_SECONDS, Server

GROUPS, PARTITIONS, METADATA = 62, 64, "x" + "6d" * 2000
# Partitions of the 63rd group, and how many of its commits fill the short log at most.
FEW, FILL_MAX = 8, 1_000
# Commits of a whole group after the log was made longer: 75 MiB.
FURTHER = 600
SEGMENTS, LONGER = 12, 64
# How long a reply may come after the warning that the log is full, and how often the warnings are looked at before it.
LATE_SECONDS, LOOK_SECONDS = 2, 0.2
# The root's sectors, and those of a segment, in bytes.
ROOT_BYTES, SEGMENT_BYTES = 4 * 512, 2048 * 512
NO_ROOM, FULL = "no room for a snapshot", "the log is full"
TICK = ["--tick-ms", "100"]
# A log that is always low, with ticks that come too late, and commits of 64 KiB to one group: 12 MiB.
LOW = ["--segments", "5", "--compact-free", "4", "--tick-ms", "60000"]
LOW_PARTITIONS, LOW_COMMITS = 32, 200


def commit_line(group, partitions, offset):
    return f"COMMIT {group} -1 - - " + " ".join(f"t:{it}:{offset}:{METADATA}" for it in range(partitions))


def said(server):
    """Returns which warnings the server said, in their order."""
    return [text for line in [*server.warnings] for text in (NO_ROOM, FULL) if text in line]


class Replies:
    """Replies that are read in a thread, since the last one may never come."""

    def __init__(self, connection):
        self.lines = queue.Queue()
        threading.Thread(target=self._read, args=[connection], daemon=True).start()

    def _read(self, connection):
        # A full log holds its reply back until the server is killed.
        connection.stream.settimeout(None)
        try:
            while line := connection.reply():
                self.lines.put(line)
        except OSError:
            pass

    def next(self, server):
        """Returns the next reply, or None if the log is full and none comes."""
        for _ in range(int(WAIT_SECONDS / LOOK_SECONDS)):
            is_full = FULL in said(server)
            try:
                return self.lines.get(timeout=LATE_SECONDS if is_full else LOOK_SECONDS)
            except queue.Empty:
                if is_full:
                    return None
        raise SystemExit("a commit has no reply, and the log is not full")


def fill(server, connection):
    """Commits until no reply comes. Returns the last acknowledged offset of the 63rd group."""
    replies = Replies(connection)
    for group in range(GROUPS):
        connection.send(commit_line(f"g{group}", PARTITIONS, 1))
        if replies.next(server) != "OK":
            raise SystemExit("a group was not committed")
    for offset in range(1, FILL_MAX):
        connection.send(commit_line("h", FEW, offset))
        reply = replies.next(server)
        if reply is None:
            return offset - 1
        if reply != "OK":
            raise SystemExit("a commit was refused")
    raise SystemExit("the log is not full")


def fill_and_kill(program, disk):
    with Server(program, *TICK, "--disk", disk, "--format", "--segments", str(SEGMENTS)) as server:
        server.load()
        last = fill(server, server.connect())
        server.kill()
        return last, said(server)


def offset_of(connection, group, partition):
    reply = connection.ask(f"FETCH {group} t:{partition}")
    return int(reply.split(":")[2]) if reply.startswith("FETCHED") else None


def go_on(program, disk, last):
    """Returns how many groups are whole, whether the last offset is there, how many further commits were acknowledged, and what
    was said."""
    with Server(program, *TICK, "--disk", disk, "--compact-free", str(LONGER - SEGMENTS + 1)) as server:
        server.load()
        connection = server.connect()
        groups = sum(offset_of(connection, f"g{group}", it) == 1 for group in range(GROUPS) for it in (0, PARTITIONS - 1)) // 2
        # The last commit may have been stored though its reply was held back.
        is_kept = offset_of(connection, "h", FEW - 1) in (last, last + 1)
        further = sum(connection.ask(commit_line("g0", PARTITIONS, offset)) == "OK" for offset in range(2, FURTHER + 2))
        server.kill()
        return groups, is_kept, further, said(server)


def commit_to_low_log(program, disk, count=LOW_COMMITS):
    """Returns how many commits were acknowledged, and what was said."""
    with Server(program, *LOW, "--disk", disk, "--format") as server:
        server.load()
        connection = server.connect()
        replies = Replies(connection)
        for done in range(count):
            connection.send(commit_line("g", LOW_PARTITIONS, done))
            if replies.next(server) != "OK":
                return done, said(server)
        server.kill()
        return count, said(server)


def main(words):
    (program,) = words
    with tempfile.TemporaryDirectory() as folder:
        disk = os.path.join(folder, "log")
        last, warnings = fill_and_kill(program, disk)
        os.truncate(disk, ROOT_BYTES + LONGER * SEGMENT_BYTES)
        groups, is_kept, further, warnings_later = go_on(program, disk, last)
        low, warnings_low = commit_to_low_log(program, os.path.join(folder, "low"))
    print(f"{last} commits, then {warnings}; later {groups} groups, last offset kept: {is_kept}, {further} further commits, "
          f"then {warnings_later}; {low} commits to a log that is low, then {warnings_low}")
    is_longer = (groups, is_kept, further, warnings_later) == (GROUPS, True, FURTHER, [])
    return 0 if warnings == [NO_ROOM, FULL] and is_longer and (low, warnings_low) == (LOW_COMMITS, []) else 1


if __name__ == "__main__":
    sys.exit(main(sys.argv[1:]))
