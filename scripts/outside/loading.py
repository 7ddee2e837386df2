"""Requests while the log is loading: a BEAT gets 14 at once, and the load goes on."""
import os

from outside.logfile import PAYLOAD_MAX, Frame, Root, write_log
from outside.records import VERSION, Committed, Entry, encode
from outside.serving import Server

LOADING = "ERR 14 COORDINATOR_LOAD_IN_PROGRESS"
SEGMENTS = 200
# How many of the segments the root names, each with one frame of the greatest length.
TAILS = 100
PARTITIONS = 32


def large_frame():
    """A frame of commits of a few bytes each."""
    few = b"".join(encode(Committed("g", (Entry("t", it, it),))) for it in range(PARTITIONS))
    rounds = (PAYLOAD_MAX - 1) // len(few)
    return Frame(rounds * PARTITIONS, bytes([VERSION]) + few * rounds)


def check(report, programs, folder):
    path = os.path.join(folder, "large")
    frame = large_frame()
    write_log(path, SEGMENTS, [Root(1, tails=tuple(range(TAILS))), None], {it: [frame] for it in range(TAILS)})
    with Server(programs.server, "--disk", path, "--compact-free", "0") as server:
        with server.listen().connect() as client:
            reply = client.ask("BEAT g 1 m -")
            if reply == LOADING:
                report.equal("a BEAT while the log is loading", reply, LOADING)
            else:
                report.leave_out("a BEAT while the log is loading", "the log was loaded before the BEAT")
            report.equal("the numbers of a long load", server.load(), (TAILS * frame.count, 0, PARTITIONS))
            report.equal("a BEAT after the load", client.ask("BEAT g 1 m -"), "ERR 25 UNKNOWN_MEMBER_ID")
