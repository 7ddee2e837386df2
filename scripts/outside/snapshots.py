"""What a snapshot holds: commands that Python wrote are compacted by the server, and the base that it wrote is read back.

Each row has its commands and the snapshot that they must make. The groups of a row get the number of the row before their
ids, so that all rows are one log, and the snapshots follow each other in the order of the rows.
"""
import os
from dataclasses import replace

from outside.folding import state_of
from outside.logfile import LogFile, Root, frame_of, write_log
from outside.records import (LIST_MAX, METADATA_MAX, MOMENT_MAX, Assigned, Committed, Deleted, Dropped, Emptied, Entry, Expired,
                             Member, Replaced)
from outside.serving import Server
from outside.written_log import read_when

N = Member("n")
M = Member("m", "i", subscription=b"\x09", assignment=b"\x08")
# What takes over from the member m: another id, or the same one, with another client, timeouts, and bytes.
P = Member("p", "i", "d", 6_000, 5, b"", b"\x03")
M_AGAIN = replace(P, id="m")


def assigned(leader, *members):
    return Assigned("g", 7, "k", "r", leader, members)


# Moments that are not due while the check runs.
LATE, LATER = MOMENT_MAX - 1, MOMENT_MAX


def offsets(group, *entries, moment=None):
    return Committed(group, tuple(Entry("t", *it) for it in entries), moment)


def partitions(*numbers):
    return tuple(("t", it) for it in numbers)


def full(first, count, length=METADATA_MAX):
    """A commit in this many partitions, each with metadata of this length."""
    return offsets("g", *((it, 7, b"m" * length) for it in range(first, first + count)))


def seven(first, count):
    """A commit of offset 7 with metadata in this many partitions."""
    return offsets("g", *((it, 7, b"m") for it in range(first, first + count)))


ASSIGNED = assigned("m", M, N)
EMPTIED, EMPTIED_B = Emptied("g", 8, "k"), Emptied("b", 8, "k")
G42, G43, A42, H42 = offsets("g", (0, 42)), offsets("g", (0, 43)), offsets("a", (0, 42)), offsets("h", (0, 42))
BOTH, BOTH_TURNED = offsets("g", (0, 5), (1, 6)), offsets("g", (1, 9), (0, 8, b"m"))
BOTH_LATER = offsets("g", (0, 8, b"m"), (1, 9))

ROWS = [
    ([G42], [G42]),
    ([G42, EMPTIED], [EMPTIED, G42]),
    ([A42, EMPTIED], [A42, EMPTIED]),
    ([ASSIGNED], [ASSIGNED]),
    ([ASSIGNED, EMPTIED], [EMPTIED]),
    ([EMPTIED, ASSIGNED], [ASSIGNED]),
    ([ASSIGNED, EMPTIED, Deleted("g")], []),
    ([Deleted("g"), G42], [G42]),
    # A replacement takes the position and the lead of the member with its instance.
    ([ASSIGNED, Replaced("g", P)], [assigned("p", P, N)]),
    ([ASSIGNED, Replaced("g", M_AGAIN)], [assigned("m", M_AGAIN, N)]),
    ([assigned("n", M, N), Replaced("g", P)], [assigned("n", P, N)]),
    # One of no group, of another group, of an instance that no member has, or by the id of another member changes nothing.
    ([Replaced("g", P)], []),
    ([EMPTIED, Replaced("g", P)], [EMPTIED]),
    ([ASSIGNED, Replaced("h", P)], [ASSIGNED]),
    ([ASSIGNED, Replaced("g", replace(P, instance="j"))], [ASSIGNED]),
    ([ASSIGNED, Replaced("g", replace(P, id="n"))], [ASSIGNED]),
    # Later offsets replace earlier ones, partition by partition.
    ([G42, H42, G43], [G43, H42]),
    ([G42, H42, Deleted("g")], [H42]),
    ([BOTH, BOTH_TURNED], [BOTH_LATER]),
    ([G42, BOTH_TURNED], [BOTH_LATER]),
    # Groups come in the order of their ids, each with its record before its offsets.
    ([H42, A42, EMPTIED, G42, EMPTIED_B], [A42, EMPTIED_B, EMPTIED, G42, H42]),
    # 300 offsets are two commits, of 256 and of 44.
    ([seven(150, 150), seven(0, 150)], [seven(0, 256), seven(256, 44)]),
    # One commit has the metadata of 64 partitions, and further partitions without any.
    ([full(0, LIST_MAX), full(LIST_MAX, 1)], [full(0, LIST_MAX), full(LIST_MAX, 1)]),
    ([full(0, LIST_MAX), full(LIST_MAX, 1, 0)], [Committed("g", full(0, LIST_MAX).entries + full(LIST_MAX, 1, 0).entries)]),
    # Moments are kept, and one commit has one moment.
    ([Emptied("g", 8, "k", LATE)], [Emptied("g", 8, "k", LATE)]),
    ([Emptied("g", 8, "k", LATE), Emptied("g", 8, "k", LATER)], [Emptied("g", 8, "k", LATER)]),
    ([offsets("g", (0, 1), (1, 1), moment=LATE), offsets("g", (1, 2), moment=LATER)],
     [offsets("g", (0, 1), moment=LATE), offsets("g", (1, 2), moment=LATER)]),
    ([offsets("g", (0, 1), moment=LATE), offsets("g", (1, 2), moment=LATE)], [offsets("g", (0, 1), (1, 2), moment=LATE)]),
    ([offsets("g", (0, 1), (2, 1), moment=LATE), offsets("g", (1, 2))],
     [offsets("g", (0, 1), moment=LATE), offsets("g", (1, 2)), offsets("g", (2, 1), moment=LATE)]),
    # What expired or was dropped is gone; partitions without an offset and other groups are as they were.
    ([BOTH, Expired("g", partitions(0, 7))], [offsets("g", (1, 6))]),
    ([BOTH, Dropped("g", partitions(0, 7))], [offsets("g", (1, 6))]),
    ([BOTH, EMPTIED, Expired("g", partitions(0, 1))], [EMPTIED]),
    ([BOTH, H42, Dropped("g", partitions(1, 0))], [H42]),
    ([G42, Expired("h", partitions(0)), Dropped("h", partitions(0))], [G42]),
]


def of_row(number, command):
    return replace(command, group=f"{number:02}{command.group}")


def check(report, programs, folder):
    path = os.path.join(folder, "log")
    commands = [of_row(number, it) for number, row in enumerate(ROWS) for it in row[0]]
    snapshot = [of_row(number, it) for number, row in enumerate(ROWS) for it in row[1]]
    report.equal("the snapshot that Python makes", state_of(commands).snapshot(), snapshot)
    # Half of the commands are in frames of their own.
    half = len(commands) // 2
    frames = [frame_of(*commands[:half]), *map(frame_of, commands[half:])]
    base = compacted(report, programs.server, path, frames, len(commands), state_of(commands).numbers())
    for number, row in enumerate(ROWS):
        found = [it for it in base if it.group.startswith(f"{number:02}")]
        report.equal(f"the snapshot of row {number}", found, [of_row(number, it) for it in row[1]])
    report.equal("the order of the groups in a snapshot", base, snapshot)
    empty = compacted(report, programs.server, path, [frame_of(Deleted("g"))] * 3, 3, (0, 0))
    report.equal("the snapshot of an empty state", empty, [])


def compacted(report, program, path, frames, number, numbers):
    """Returns the commands of the base after the server has compacted a log of these frames."""
    write_log(path, 4, [Root(1), None], {0: frames})
    with Server(program, "--disk", path, "--compact-free", "4", "--tick-ms", "10") as server:
        report.equal("the numbers of a load before a compaction", server.load(), (number, *numbers))
        read_when(path, lambda log: log.root.base_number == number)
        server.kill()
    log = LogFile.read(path)
    report.equal("the commands that the base replaces", (log.root.base_number, log.tail_commands), (number, []))
    return log.base_commands
