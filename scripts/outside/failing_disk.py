"""Groups on a disk that fails: rows with `fuse K` or `once K` before them, for each K until a run meets no failure, with both
crashes.

What the load finds is what some first commands of the row make, and these hold each command on which a printed reply rests.
Both are written down here, by the rules of PROTOCOL.md.
"""
import os
from concurrent.futures import ThreadPoolExecutor
from dataclasses import dataclass

from outside.scripting import run_script
from outside.stops import CALLS_MAX, CRASHES, FUSES

U1, U2 = (f"00000000-0000-0000-0000-{it:012}" for it in (1, 2))
C1, C2 = (f"c{it} 10000 20000 consumer range=x0{it}" for it in (1, 2))
LONG_1, LONG_2 = (f"c{it} 60000 20000 consumer range=x0{it}" for it in (1, 2))
NOTHING = ["LOADED 0 0 0", "s8 GROUPS", "s8 GROUP Dead 0 - -", "s8 FETCHED t:0:-1:x"]
NO_OFFSET = "s8 FETCHED t:0:-1:x"
ONLY_COMMITS = ["s8 GROUPS g:-:Empty", "s8 GROUP Empty 0 - -"]
WAS_LEFT = ["s8 GROUPS g:consumer:Empty", "s8 GROUP Empty 2 consumer -"]
RETENTION_MS = 604_800_000
REFUSED = "ERR 15 COORDINATOR_NOT_AVAILABLE"
LOOK = ["s8 LIST", "s8 DESCRIBE g", "s8 FETCH g t:0"]


@dataclass(frozen=True)
class Row:
    """The lines of a script, what is found of it by its first N commands, and its replies with the number of the last command
    on which each rests."""
    name: str
    lines: list
    found: list
    replies: list


ROWS = [
    Row("a commit", ["s1 COMMIT g -1 - - t:0:42:x", "flush"],
        [NOTHING, ["LOADED 1 0 1", "s8 GROUPS g:-:Empty", "s8 GROUP Empty 0 - -", "s8 FETCHED t:0:42:x"]],
        [("s1 OK", 1)]),
    Row("a rebalance", [f"s1 JOIN g - - {C1}", f"s2 JOIN g - - {C2}", f"s1 JOIN g c1-{U1} - {C1}", f"s2 SYNC g 2 c2-{U2} -",
                        f"s1 SYNC g 2 c1-{U1} - c1-{U1}=xaa", "flush"],
        [NOTHING, ["LOADED 1 1 0", "s8 GROUPS g:consumer:Stable",
                   f"s8 GROUP Stable 2 consumer range c1-{U1}:-:c1:x01:xaa c2-{U2}:-:c2:x02:x", NO_OFFSET]],
        [(f"s1 JOINED 1 consumer range c1-{U1} c1-{U1} c1-{U1}:-:x01", 0),
         (f"s1 JOINED 2 consumer range c1-{U1} c1-{U1} c1-{U1}:-:x01 c2-{U2}:-:x02", 0),
         (f"s2 JOINED 2 consumer range c1-{U1} c2-{U2}", 0), ("s1 SYNCED xaa", 1), ("s2 SYNCED x", 1)]),
    Row("a static member that is replaced", [f"s1 JOIN g - i1 {C1}", f"s1 SYNC g 1 i1-{U1} i1 i1-{U1}=xaa", "flush",
                                             f"s2 JOIN g - i1 {C1}", "flush", f"s1 BEAT g 1 i1-{U1} i1"],
        [NOTHING,
         ["LOADED 1 1 0", "s8 GROUPS g:consumer:Stable", f"s8 GROUP Stable 1 consumer range i1-{U1}:i1:c1:x01:xaa", NO_OFFSET],
         ["LOADED 2 1 0", "s8 GROUPS g:consumer:Stable", f"s8 GROUP Stable 1 consumer range i1-{U2}:i1:c1:x01:xaa", NO_OFFSET]],
        [(f"s1 JOINED 1 consumer range i1-{U1} i1-{U1} i1-{U1}:i1:x01", 0), ("s1 SYNCED xaa", 1),
         (f"s2 JOINED 1 consumer range i1-{U1} i1-{U2}", 2), ("s1 ERR 82 FENCED_INSTANCE_ID", 2)]),
    Row("deletions", [f"s1 JOIN g - - {C1}", "s1 DELETE g", f"s1 LEAVE g c1-{U1} -", "flush", "s2 DELETE g", "s3 DELETE g",
                      "flush", "s4 COMMIT g -1 - - t:0:7:x", "flush"],
        [NOTHING, ["LOADED 1 1 0", "s8 GROUPS g:consumer:Empty", "s8 GROUP Empty 2 consumer -", NO_OFFSET],
         ["LOADED 2 0 0", *NOTHING[1:]],
         ["LOADED 3 0 1", "s8 GROUPS g:-:Empty", "s8 GROUP Empty 0 - -", "s8 FETCHED t:0:7:x"]],
        [(f"s1 JOINED 1 consumer range c1-{U1} c1-{U1} c1-{U1}:-:x01", 0), ("s1 ERR 68 NON_EMPTY_GROUP", 0), ("s1 OK", 1),
         ("s2 OK", 2), ("s3 ERR 69 GROUP_ID_NOT_FOUND", 2), ("s4 OK", 3)]),
    Row("members whose time is over", [f"s1 JOIN g - i1 {LONG_1}", f"s2 JOIN g - i2 {LONG_2}", f"s1 JOIN g i1-{U1} i1 {LONG_1}",
                                       "s3 LEAVE g - i2", "tick 20000", "s4 DESCRIBE g", "tick 60000", "s4 DESCRIBE g", "flush"],
        [NOTHING, ["LOADED 1 1 0", "s8 GROUPS g:consumer:Empty", "s8 GROUP Empty 3 consumer -", NO_OFFSET]],
        [(f"s1 JOINED 1 consumer range i1-{U1} i1-{U1} i1-{U1}:i1:x01", 0),
         (f"s1 JOINED 2 consumer range i1-{U1} i1-{U1} i1-{U1}:i1:x01 i2-{U2}:i2:x02", 0),
         (f"s2 JOINED 2 consumer range i1-{U1} i2-{U2}", 0), ("s3 OK", 0),
         (f"s4 GROUP PreparingRebalance 2 consumer - i1-{U1}:i1:c1:x:x", 0), ("s4 GROUP Empty 3 consumer -", 1)]),
    Row("drops", ["s1 COMMIT g -1 - - t:0:1:x t:1:2:x", "s2 DROP g t:9", "flush", "s3 DROP g t:0 t:9", "s4 DROP g t:0", "flush",
                  "s5 DROP g t:1", "s6 DROP g t:1", "flush", "s7 COMMIT g -1 - - t:0:3:x", "flush"],
        [NOTHING,
         ["LOADED 1 0 2", *ONLY_COMMITS, "s8 FETCHED t:0:1:x"], ["LOADED 2 0 1", *ONLY_COMMITS, NO_OFFSET],
         ["LOADED 3 0 0", *NOTHING[1:]], ["LOADED 4 0 1", *ONLY_COMMITS, "s8 FETCHED t:0:3:x"]],
        [("s1 OK", 1), ("s2 OK", 1), ("s3 OK", 2), ("s4 OK", 2), ("s5 OK", 3), ("s6 ERR 69 GROUP_ID_NOT_FOUND", 3), ("s7 OK", 4)]),
    Row("offsets that expire", ["s1 COMMIT g -1 - - t:0:1:x", "at 1", "s2 COMMIT g -1 - - t:1:2:x", "flush", f"tick {RETENTION_MS}",
                                "s3 FETCH g t:0 t:1", "flush", f"tick {RETENTION_MS + 1}", "s4 LIST", "flush",
                                "s5 COMMIT g -1 - - t:0:3:x", "flush"],
        [NOTHING, ["LOADED 1 0 1", *ONLY_COMMITS, "s8 FETCHED t:0:1:x"], ["LOADED 2 0 2", *ONLY_COMMITS, "s8 FETCHED t:0:1:x"],
         ["LOADED 3 0 1", *ONLY_COMMITS, NO_OFFSET], ["LOADED 4 0 0", *NOTHING[1:]],
         ["LOADED 5 0 1", *ONLY_COMMITS, "s8 FETCHED t:0:3:x"]],
        [("s1 OK", 1), ("s2 OK", 2), ("s3 FETCHED t:0:-1:x t:1:2:x", 3), ("s4 GROUPS", 4), ("s5 OK", 5)]),
    Row("a group that expires", [f"s1 JOIN g - - {C1}", f"s2 LEAVE g c1-{U1} -", "flush", "s3 COMMIT g -1 - - t:0:7:x", "flush",
                                 f"tick {RETENTION_MS - 1}", "s4 DESCRIBE g", f"tick {RETENTION_MS}", "s5 DESCRIBE g", "flush",
                                 "s6 COMMIT g -1 - - t:0:8:x", "flush"],
        [NOTHING, ["LOADED 1 1 0", *WAS_LEFT, NO_OFFSET], ["LOADED 2 1 1", *WAS_LEFT, "s8 FETCHED t:0:7:x"],
         ["LOADED 3 0 0", *NOTHING[1:]], ["LOADED 4 0 1", *ONLY_COMMITS, "s8 FETCHED t:0:8:x"]],
        [(f"s1 JOINED 1 consumer range c1-{U1} c1-{U1} c1-{U1}:-:x01", 0), ("s2 OK", 1), ("s3 OK", 2),
         ("s4 GROUP Empty 2 consumer -", 2), ("s5 GROUP Dead 0 - -", 3), ("s6 OK", 4)]),
    Row("ticks that find nothing due after a commit", ["s1 COMMIT g -1 - - t:0:1:x", "flush", f"at {RETENTION_MS - 1}",
                                                       "s2 COMMIT g -1 - - t:0:2:x", f"tick {RETENTION_MS}", "s3 FETCH g t:0",
                                                       "flush"],
        [NOTHING, ["LOADED 1 0 1", *ONLY_COMMITS, "s8 FETCHED t:0:1:x"], ["LOADED 2 0 1", *ONLY_COMMITS, "s8 FETCHED t:0:2:x"]],
        [("s1 OK", 1), ("s2 OK", 2), ("s3 FETCHED t:0:2:x", 2)]),
]


def check(report, programs, _):
    runs = [(row, fuse, crash) for row in ROWS for fuse in FUSES for crash in CRASHES]
    with ThreadPoolExecutor(os.cpu_count()) as pool:
        for (row, fuse, crash), problem in zip(runs, pool.map(lambda it: fail_at_each_call(programs.sim, *it), runs)):
            report.holds(f"{row.name}, {fuse}, stop {crash}", not problem, problem)


def fail_at_each_call(program, row, fuse, crash):
    """Returns what is wrong with the first run that is, or None."""
    for calls in range(CALLS_MAX):
        ran = run_script(program, [f"{fuse} {calls}", *row.lines, f"stop {crash}", "load", *LOOK])
        problem = problem_of(ran, row)
        if problem:
            return f"after {calls} calls: {problem}"
        if "FAULT Device" not in ran.lines:
            found = ran.lines[1 + len(row.replies):]
            return None if calls and found == row.found[-1] else f"without a failure: {ran.lines}"
    return f"each run met a failure up to {calls} calls"


def problem_of(ran, row):
    """Compares what was found after the load with the commands on which the printed replies rest."""
    first, *told = ran.lines[:-len(NOTHING)]
    found = ran.lines[-len(NOTHING):]
    if ran.status or first != NOTHING[0]:
        return f"status {ran.status}, {ran.lines}"
    told = [it for it in told if it != "FAULT Device" and not it.endswith(REFUSED)]
    rests = dict(row.replies)
    unknown = [it for it in told if it not in rests]
    if unknown:
        return f"{unknown}"
    least = max((rests[it] for it in told), default=0)
    if found not in row.found[least:]:
        return f"{found} is not of the first commands, of {least} at least"
    return None
