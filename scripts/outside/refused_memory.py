"""Refuses each request for memory in turn: the Nth of a run, for each N until a run meets no refusal. Of a long run it refuses
those of a part, and of the others one in some three hundred.

What a script prints before memory is missing is what it prints with ample memory, and what it acknowledged is there after the
next load. In the server a refusal costs a request its answer, or a connection, and nothing else: what the flusher or the
compactor was refused it asks for again, and each reply comes.
"""
import contextlib
import os
import re
import shutil
import subprocess
import tempfile
import time
from concurrent.futures import ThreadPoolExecutor
from dataclasses import dataclass, field

from outside.logfile import Root, frame_of, write_log
from outside.records import Committed, Emptied, Entry, encode_payload
from outside.serving import WAIT_SECONDS, Server
from outside.stops import COMPACTION, EXPIRE_0, EXPIRE_1, PARTITIONS, RETENTION_MS, THREE, Played, commit, session_of

HERE = os.path.dirname(os.path.abspath(__file__))
SAID = "memory was refused"
COUNTED = re.compile(r"(\d+) requests for memory\n")
# Of the requests for memory outside the part of a long run one in so many is refused.
STRIDE = 331
GROUPS_MAX, ENTRIES_MAX, METADATA_BYTES_MAX = 4_096, 256, 4_096
# So many entries with as much metadata as one may have are a commit with as much as it may have.
LARGE_ENTRIES = 64
MINUS_1, FAULTS = "ERR -1 UNKNOWN_SERVER_ERROR", ("FAULT Memory", "FAULT Device")
# A run that is refused memory after so many requests still is a failure of the check.
REQUESTS_MAX = 1_000_000
# A server that is loaded and asked makes some 150 requests. With fewer than this the check has not refused them all.
SERVER_REQUESTS_LEAST = 100

C1, C2 = "c1 10000 20000 consumer range=x01", "c2 10000 20000 consumer range=x02"
U1, U2 = (f"00000000-0000-0000-0000-{it:012}" for it in (1, 2))
LONG_1, LONG_2 = "c1 60000 20000 consumer range=x01", "c2 60000 20000 consumer range=x02"
DYNAMIC = [f"s1 JOIN g - - {C1}", f"s2 JOIN g - - {C2}", f"s1 JOIN g c1-{U1} - {C1}"]
STATIC = [f"s1 JOIN g - i1 {LONG_1}", f"s2 JOIN g - i2 {LONG_2}", f"s1 JOIN g i1-{U1} i1 {LONG_1}"]


def large(offset):
    """Returns the lines of a commit with as much metadata as there may be."""
    entries = " ".join(f"t:{it}:{offset}:x{'61' * METADATA_BYTES_MAX}" for it in range(100, 100 + LARGE_ENTRIES))
    return [f"s8 COMMIT h -1 - - {entries}", "flush"]


def wide(kind, first):
    """Returns a COMMIT or a DROP of as many partitions as there may be."""
    return " ".join([f"s8 {kind} h", *(["-1 - -"] if kind == "COMMIT" else []),
                     *(f"t:{it}{':1:x' if kind == 'COMMIT' else ''}" for it in range(first, first + ENTRIES_MAX))])


@dataclass(frozen=True)
class Row:
    """Lines of a script, as those of `stops`, and the segments of its disk. With lines before them the run is long, and the lines
    are its part of which each request is refused."""
    name: str
    lines: list
    segments: int = 5
    before: list = field(default_factory=list)

    def play(self, crash):
        fetch = "s9 FETCH g " + " ".join(f"t:{it}" for it in range(PARTITIONS))
        # The last two lines of each kind are for a run whose refusal falls into the first of them.
        return Played([*self.before, *self.lines, "flush", "flush", f"stop {crash}", "load", "reload", fetch, fetch])


ROWS = [
    Row("a commit", [*commit(), "reload", "s8 FETCH g t:0"]),
    Row("commits in one batch", [*commit(), *THREE, "flush", *commit(2)]),
    Row("a member and its syncs", [*DYNAMIC, f"s2 SYNC g 2 c2-{U2} -", f"s1 SYNC g 2 c1-{U1} - c1-{U1}=xaa", "flush",
                                   f"s1 BEAT g 2 c1-{U1} -", "s8 DESCRIBE g", f"s2 LEAVE g c2-{U2} -", "s8 LIST", "reload"]),
    Row("a static member that is replaced", [f"s1 JOIN g - i1 {C1}", f"s1 SYNC g 1 i1-{U1} i1 i1-{U1}=xaa", "flush",
                                             f"s2 JOIN g - i1 {C1}", "flush", f"s1 BEAT g 1 i1-{U1} i1", "reload",
                                             f"s2 SYNC g 1 i1-{U2} i1"]),
    Row("deletions", [DYNAMIC[0], "s8 DELETE g", f"s1 LEAVE g c1-{U1} -", "flush", "s8 DELETE g", "s8 DELETE g", "flush",
                      *commit(), "s8 DESCRIBE g", "s8 FETCH g t:0 t:1", "reload"]),
    Row("drops", [*commit(), *commit(1), "drop 0", "flush", "s8 DROP g t:0 t:9", "s8 DROP h t:0", *commit(), "drop 1", "drop 0",
                  "flush", "s8 DROP g t:0", *commit(2), "s8 LIST", "reload"]),
    Row("offsets that expire", [*commit(), "at 1", *commit(1), EXPIRE_0, "flush", "s8 FETCH g t:0 t:1", *commit(2), EXPIRE_1, "flush",
                                f"expire {2 * RETENTION_MS} 2", "flush", "s8 LIST", *commit(), "reload"]),
    Row("a group that expires", [f"s1 JOIN h - - {C1}", f"s1 LEAVE h c1-{U1} -", "flush", "s8 COMMIT h -1 - - t:0:7:x", "flush",
                                 f"at {RETENTION_MS - 1}", *commit(), f"tick {RETENTION_MS}", "s8 DESCRIBE h", "flush", "reload",
                                 "s8 LIST"]),
    Row("many offsets that are dropped or expire", [wide("DROP", 0), "flush", f"tick {RETENTION_MS}", "flush", *commit(), "s8 LIST",
                                                    "reload"],
        5, [*(wide("COMMIT", it) for it in range(0, 3 * ENTRIES_MAX, ENTRIES_MAX)), "flush"]),
    Row("time", [*STATIC, "s3 LEAVE g - i2", "tick 20000", "s8 DESCRIBE g", "tick 60000", "s8 DESCRIBE g", "flush", "gone s1"]),
    Row("a compaction beside commits", [*commit(), *commit(2), *COMPACTION, "compact"]),
    Row("a log of one segment", [*commit(), "compact", *commit()], 1),
    Row("a full group", [*(f"s{it} JOIN g - {'i64' if it == 64 else '-'} c{it} 10000 20000 consumer range=x" for it in range(1, 65)),
                         "s65 JOIN g - - c65 10000 20000 consumer range=x", "s66 JOIN g - i64 c64 10000 20000 consumer range=x",
                         "close"]),
    Row("a compaction of large commits", [*["compact read"] * 4, "compact write", "compact write", "compact switch", *commit(), "reload"],
        8, [*large(1), *large(2), *large(3), "compact start", *(line for it in range(4, 11) for line in large(it))]),
    Row("as many groups as there may be", ["s8 COMMIT h -1 - - t:0:1:x", "s8 JOIN h - - c1 10000 20000 consumer range=x", *commit(),
                                           "s8 DELETE h1", "flush", "s8 COMMIT h -1 - - t:0:1:x", "flush"],
        5, ["commit 0", *(f"s8 COMMIT h{it} -1 - - t:0:1:x" for it in range(1, GROUPS_MAX)), "flush", "flush", "s8 LIST"]),
]


def check(report, programs, folder):
    library = os.path.join(folder, "refuse_memory.so")
    subprocess.run(["cc", "-O2", "-shared", "-fPIC", "-o", library, os.path.join(HERE, "refuse_memory.c")], check=True)
    with ThreadPoolExecutor(os.cpu_count()) as pool:
        runs = [(row, crash) for row in ROWS for crash in ("keep", "lose")]
        for (row, crash), problem in zip(runs, pool.map(lambda it: refuse_each(programs.sim, library, *it), runs)):
            report.holds(f"{row.name}, stop {crash}", not problem, problem)
    check_server(report, programs.server, library, folder)


def refusing(library, at):
    return {**os.environ, "LD_PRELOAD": library, "REFUSE_AT": str(at)}


@dataclass(frozen=True)
class Ran:
    status: int
    lines: list
    is_refused: bool
    requests: int


class Script:
    """A script in a file, which each read fills as far as it can: from a pipe some runs would ask for memory once more."""

    def __init__(self, lines, segments):
        self.words = ["--segments", str(segments)]
        self.file = tempfile.NamedTemporaryFile("w")
        self.file.writelines(f"{it}\n" for it in lines)
        self.file.flush()

    def play(self, program, library, at):
        with open(self.file.name, encoding="utf-8") as lines:
            ran = subprocess.run([program, *self.words], stdin=lines, capture_output=True, text=True, env=refusing(library, at),
                                 timeout=WAIT_SECONDS)
        counted = COUNTED.search(ran.stderr)
        return Ran(ran.returncode, ran.stdout.splitlines(), SAID in ran.stderr, int(counted[1]) if counted else 0)


def requests_of(program, library, row, ample):
    """Returns which requests are refused. The last one is a request that no run makes."""
    if not row.before:
        return range(1, REQUESTS_MAX)
    first, last = (Script(Played(lines).lines, row.segments).play(program, library, 0).requests
                   for lines in (row.before, row.before + row.lines))
    return [*sorted({*range(1, ample.requests, STRIDE), *range(first + 1, last + 1)}), REQUESTS_MAX]


def refuse_each(program, library, row, crash):
    """Returns what is wrong with the first run that is, or None."""
    played = row.play(crash)
    script = Script(played.lines, row.segments)
    ample = script.play(program, library, 0)
    if ample.status or any(is_short(it) for it in ample.lines):
        return f"with ample memory: status {ample.status}, {ample.lines}"
    for at in requests_of(program, library, row, ample):
        ran = script.play(program, library, at)
        problem = problem_of(ran, ample.lines, played)
        if problem:
            return f"request {at}: {problem}"
        if not ran.is_refused:
            return None if at > 1 else "no request was refused"
    return f"each run was refused memory, up to request {REQUESTS_MAX}"


def is_short(line):
    return line in FAULTS or line.endswith(MINUS_1)


def problem_of(ran, ample, played):
    """Compares a run with the one that had ample memory, up to the first line of missing memory, and what it acknowledged with
    what was found after the load."""
    short = [it for it, line in enumerate(ran.lines) if is_short(line)]
    if not ran.is_refused and (short or ran.status):
        return f"nothing was refused, but status {ran.status}, {ran.lines}"
    if ran.lines[:short[0] if short else None] != ample[:short[0] if short else None]:
        return f"{ran.lines} for {ample}"
    # Such a run is over: FAULT Memory ends it, and so does a FAULT Device of the first format.
    if ran.status == 4 or "FAULT Memory" in ran.lines:
        return None if ran.status == 4 and ran.lines[-1] in FAULTS else f"status {ran.status}, {ran.lines}"
    fetched = [line for line in ran.lines[-2:] if line.startswith("s9 FETCHED ")]
    if ran.status or not fetched:
        return f"status {ran.status}, {ran.lines[-3:]}"
    found = [max(int(word.split(":")[2]), 0) for word in fetched[0].split()[2:]]
    wrong = [(it, offset) for it, offset in enumerate(found) if offset not in possible(ran.lines, played, it)]
    return f"partition and offset {wrong} were found, which is not possible after {ran.lines}" if wrong else None


def possible(lines, played, partition):
    """Returns the offsets that a partition may have: that of the last command for it which was acknowledged, or of a later one.
    Its requests are answered in their order."""
    answers = iter([line.partition(" ")[2] for line in lines if line.startswith(f"s{session_of(partition)} ")])
    offsets = [0]
    for command in played.commands:
        if partition in command.partitions:
            offsets.append(command.offset)
            if command.is_answered and next(answers, None) == "OK":
                offsets = offsets[-1:]
    return offsets


# A server that ends does so within this time. It is a pause only where the test fails.
ENDING_SECONDS = 5
# What two clients ask, each in turn, and how the replies begin with ample memory.
ASKED = [(0, "JOIN h - - c 1800000 60000 consumer range=x", "JOINED "), (1, "COMMIT g -1 - - t:1:1:x", "OK"),
         (0, "COMMIT g -1 - - t:0:1:x", "OK"), (1, "FETCH g t:0 t:1", "FETCHED t:0:1:x t:1:1:x"), (0, "LIST", "GROUPS "),
         (1, "COMMIT g -1 - - t:1:2:x", "OK"), (1, "DESCRIBE h", "GROUP "), (0, "COMMIT g -1 - - t:0:2:x", "OK"),
         (1, "COMMIT g -1 - - t:2:1:x", "OK"), (0, "DROP g t:2", "OK"), (1, "DROP g t:9 t:2", "OK")]
# What the first tick of a server removes: an offset, and a group that had members.
OLD = [Committed("old", (Entry("t", 0, 1),), 0), Emptied("left", 3, "k", 0)]
TICKS = ["--tick-ms", "10"]


def check_server(report, program, library, folder):
    """The log is made first, so that a refusal falls into the start of a server, into its work or into its first tick."""
    made = os.path.join(folder, "made")
    write_log(made, 2, [Root(1), None], {0: [frame_of(*OLD)]})

    def refuse(at):
        path = os.path.join(folder, f"log{at}")
        shutil.copyfile(made, path)
        try:
            return serve(program, library, path, at)
        finally:
            os.remove(path)

    at, is_over = 1, False
    with ThreadPoolExecutor(os.cpu_count()) as pool:
        while not is_over and at < REQUESTS_MAX:
            runs = range(at, at + 4 * os.cpu_count())
            for run, (problem, is_refused) in zip(runs, pool.map(refuse, runs)):
                if problem:
                    report.holds(f"a server without request {run} for memory", False, problem)
                is_over = is_over or bool(problem) or not is_refused
            at += len(runs)
    report.holds("a server that is refused memory", at > SERVER_REQUESTS_LEAST, f"only {at} requests")


def serve(program, library, path, at):
    """Starts a server on a log and asks it. Returns what is wrong, or None, and whether it was refused memory."""
    with Server(program, "--disk", path, *TICKS, env=refusing(library, at)) as server:
        try:
            server.load()
            found, sent, lost = ask(server)
        except (RuntimeError, ConnectionError):
            found, sent, lost = {}, {}, []
        if not found and has_ended(server):
            status, lines = server.end()
            is_right = status == 1 and is_told(server) and lines[-1:] in ([], ["FAULT Memory"])
            return None if is_right else f"status {status}, {lines}, {server.warnings}", True
        problem = await_expiry(server)
        if server.process.poll() is not None:
            return f"the server ended with {server.process.returncode}, {server.warnings}", True
        server.kill()
        is_refused = is_told(server)
    # One reply at most is -1, or is missing with its connection, and none where nothing was refused.
    if problem or [it for it in lost if it[1] not in ("", MINUS_1)] or len(lost) > (1 if is_refused else 0):
        return problem or f"{lost}", is_refused
    with Server(program, "--disk", path, "--tick-ms", "60000") as server:
        numbers = server.load()
        with server.connect() as client:
            reply, left = client.ask("FETCH g t:0 t:1"), client.ask("LIST")
    is_right = is_within(reply, found, sent) and (numbers[1], left) == (0, "GROUPS g:-:Empty")
    return None if is_right else f"acknowledged {found}, found {reply}, {left} and {numbers}", is_refused


def has_ended(server):
    """Returns whether a server that accepts no connection has ended, or ends now."""
    try:
        server.process.wait(ENDING_SECONDS)
        return True
    except subprocess.TimeoutExpired:
        return False


def ask(server):
    """Asks what there is to ask. Returns the offsets that were acknowledged and those that were sent, and the lines whose reply
    is another than with ample memory, with that."""
    found, sent, lost, clients = {}, {}, [], [server.connect(), server.connect()]
    for client, line, wanted in ASKED:
        try:
            reply = clients[client].ask(line)
        except ConnectionError:
            reply = ""
        if line.startswith("COMMIT"):
            _, partition, offset, _ = line.split()[-1].split(":")
            sent[partition] = int(offset)
            if reply == "OK":
                found[partition] = int(offset)
        # After a COMMIT without its OK the offset of that partition is in doubt.
        is_right = is_within(reply, found, sent) if lost and line.startswith("FETCH") else reply.startswith(wanted)
        if not is_right:
            lost.append((line, reply))
        if not reply:
            clients[client].close()
            clients[client] = server.connect()
    for client in clients:
        client.close()
    return found, sent, lost


def await_expiry(server):
    """Waits until a LIST shows that a tick removed what is due. Returns what is wrong, or None. A tick and a LIST that are
    refused memory come again."""
    end, reply = time.monotonic() + WAIT_SECONDS, ""
    while server.process.poll() is None and time.monotonic() < end:
        with contextlib.suppress(ConnectionError), server.connect() as client:
            reply = client.ask("LIST")
        if reply.startswith("GROUPS ") and not any(it.group in reply for it in OLD):
            return None
        time.sleep(0.01)
    return f"nothing expired: {reply}"


def is_within(reply, found, sent):
    """Returns whether a reply to FETCH has at least the offsets that were acknowledged, and at most those that were sent."""
    offsets = {word.split(":")[1]: int(word.split(":")[2]) for word in reply.split()[1:] if reply.startswith("FETCHED ")}
    return len(offsets) == 2 and all(found.get(it, -1) <= offset <= sent.get(it, -1) for it, offset in offsets.items())


def is_told(server):
    return any(SAID in line for line in server.warnings)
