"""Each fault, provoked once: what standard output and standard error have of it, and the exit status."""
import contextlib
import os
import re
import resource
import socket
import subprocess
import time

from outside.logfile import SECTOR, Frame, LogFile, Root, frame_of, sectors_of, write_log
from outside.records import VERSIONS, Committed, Deleted, Emptied, Entry, Expired
from outside.serving import WAIT_SECONDS, Server, run

JOIN = "JOIN g - - c 10000 60000 consumer range=x"
PAGE = 'cg_server: what to do is in OPERATING.md, "Faults"\n'
REFUSED = "ERR 15 COORDINATOR_NOT_AVAILABLE"
# Bytes of a file that the process may write: less than a segment.
SMALL = 65_536
# Bytes of memory that a process may have: enough to start, and too few for a log of 200 segments.
NARROW = 128 << 20


def limit_files():
    resource.setrlimit(resource.RLIMIT_FSIZE, (SMALL, SMALL))


def limit_memory():
    resource.setrlimit(resource.RLIMIT_AS, (NARROW, NARROW))


def no_log(path):
    with open(path, "wb") as file:
        file.write(bytes(SECTOR * sectors_of(1)))


def bad_root(path):
    write_log(path, 1, [Root(0), None], {})


def bad_frame(path):
    write_log(path, 1, [Root(1, tails=(0,)), None], {0: [Frame(0, b"\x01")]})


def bad_record(path):
    write_log(path, 1, [Root(1, tails=(0,)), None], {0: [Frame(1, b"\x01\xff")]})


def newer_record(path):
    write_log(path, 1, [Root(1, tails=(0,)), None], {0: [Frame(1, bytes([max(VERSIONS) + 1]) + frame_of(*DUE).payload[1:])]})


def nothing(path):
    pass


# What is due at the first tick of a server: an offset, and a group that had members.
DUE = [Committed("g", (Entry("t", 0, 1), Entry("t", 1, 2)), 0), Emptied("h", 3, "k", 0)]
FILE = ["--disk", "{path}"]
NEW = [*FILE, "--format"]
# What is done to the path first, words, the status, the fault, what standard error says, and what else is done to the process.
FAULTS = [
    (nothing, FILE, 1, "File", "{path}: No such file or directory (os error 2)", {}),
    (os.mkdir, FILE, 1, "File", "{path}: Is a directory (os error 21)", {}),
    (no_log, NEW, 1, "File", "{path} exists: remove it, or give --overwrite", {}),
    (nothing, NEW, 1, "File", "{path}: File too large (os error 27)", {"preexec_fn": limit_files, "restore_signals": False}),
    (nothing, ["--segments", "200"], 1, "Memory", "no memory, or no thread, was to be had", {"preexec_fn": limit_memory}),
    (no_log, FILE, 1, "NoRoot", "{path} has no Berymohi log", {}),
    (bad_root, FILE, 1, "BadRoot", "{path}: the root of the log is damaged", {}),
    (bad_frame, FILE, 1, "BadFrame", "{path}: a frame of the log is damaged", {}),
    (bad_record, FILE, 1, "BadRecord", "{path}: a record of the log is damaged", {}),
    (newer_record, FILE, 1, "BadRecord", "{path}: a record of the log is damaged", {}),
]


def check(report, programs, folder):
    for number, row in enumerate(FAULTS):
        with report.check(f"{row[3]} {row[4]}"):
            check_fault(report, programs.server, os.path.join(folder, str(number)), *row)
    for it in (taken_port, closed_output, read_that_fails, write_that_fails, drop_that_fails, tick_that_fails,
               end_after_a_fault):
        with report.check(it.__name__):
            it(report, programs.server, os.path.join(folder, it.__name__))


def check_fault(report, program, path, prepare, words, status, fault, said, how):
    prepare(path)
    ran = run(program, "--listen", "127.0.0.1:0", *(it.format(path=path) for it in words), **how)
    name = f"FAULT {fault}, {said}"
    lines = [it for it in ran.stdout.decode().splitlines() if not it.startswith("LISTENING ")]
    report.equal(name, (ran.returncode, lines), (status, [f"FAULT {fault}"]))
    report.equal(f"{name}: standard error", ran.stderr.decode(), f"cg_server: {said.format(path=path)}\n{PAGE}")


def taken_port(report, program, path):
    with socket.create_server(("127.0.0.1", 0)) as taken:
        port = taken.getsockname()[1]
        ran = run(program, "--listen", f"127.0.0.1:{port}", "--disk", path, "--format")
    report.equal("FAULT Net", (ran.returncode, ran.stdout), (3, b"FAULT Net\n"))
    said = f"cg_server: 127.0.0.1:{port}: Address already in use (os error 98)\n{PAGE}"
    report.equal("FAULT Net: standard error", ran.stderr.decode(), said)


def closed_output(report, program, path):
    with open("/dev/full", "wb") as full:
        ran = run(program, "--disk", path, "--format", "--connections", "0", output=full)
    said = f"cg_server: a line could not be written to standard output\n{PAGE}"
    report.equal("an output that is full", (ran.returncode, ran.stderr.decode()), (3, said))


def read_that_fails(report, program, path):
    """The file loses its end after the server has opened it, and before it loads it: the pipe for its first line is full."""
    write_log(path, 1, [Root(1, tails=(0,)), None], {0: [Frame(1, b"\x01\xff")]})
    ours, theirs = os.pipe()
    os.set_blocking(theirs, False)
    filled = fill(theirs)
    os.set_blocking(theirs, True)
    words = [program, "--listen", "127.0.0.1:0", "--disk", path]
    with subprocess.Popen(words, stdout=theirs, stderr=subprocess.PIPE) as server:
        os.close(theirs)
        wait_for_lock(path)
        os.truncate(path, 4 * SECTOR)
        with os.fdopen(ours, "rb") as output:
            printed = output.read()[filled:].decode().splitlines()
        said = server.stderr.read().decode()
    report.equal("FAULT Device before LOADED", (server.returncode, printed[1:]), (1, ["FAULT Device"]))
    wanted = rf"cg_server: {re.escape(path)}: read: .+\ncg_server: {re.escape(path)}: the disk failed\n{re.escape(PAGE)}"
    report.holds("FAULT Device before LOADED: standard error", re.fullmatch(wanted, said), f"{said!r}")


def fill(pipe):
    """Writes to a pipe until it takes no more. Returns how many bytes it took."""
    filled = 0
    for size in (4096, 1):
        try:
            while True:
                filled += os.write(pipe, b" " * size)
        except BlockingIOError:
            pass
    return filled


def wait_for_lock(path):
    """Waits until a server has locked the file."""
    end, node = time.monotonic() + WAIT_SECONDS, f":{os.stat(path).st_ino} "
    while time.monotonic() < end:
        with open("/proc/locks", encoding="ascii") as file:
            if any("FLOCK" in line and node in line for line in file):
                return
        time.sleep(0.01)
    raise TimeoutError("the server did not lock its file")


def no_bytes():
    resource.setrlimit(resource.RLIMIT_FSIZE, (0, 0))


def failing(program, path, *words, written=()):
    """Returns a server that has loaded a log with these commands, and whose disk fails: it may write no byte of a file."""
    write_log(path, 1, [Root(1), None], {0: [frame_of(*written)] if written else []})
    # A compaction would find no room, and say so.
    words = ["--disk", path, "--compact-free", "0", *words]
    server = Server(program, *words, preexec_fn=no_bytes, restore_signals=False)
    server.load()
    return server


def write_that_fails(report, program, path):
    """The server goes on, and refuses what waits and what comes."""
    with failing(program, path) as server, contextlib.ExitStack() as held:
        clients = [held.enter_context(server.connect()) for _ in range(3)]
        for number, client in enumerate(clients):
            client.send(f"COMMIT g -1 - - t:{number}:7:x")
        report.equal("COMMITs that are not stored", [it.reply() for it in clients], [REFUSED] * 3)
        report.equal("FAULT Device after LOADED", server.line(), "FAULT Device")
        client = clients[0]
        report.equal("a COMMIT after the fault", client.ask("COMMIT g -1 - - t:0:8:x"), REFUSED)
        report.equal("a FETCH after the fault", client.ask("FETCH g t:0"), REFUSED)
        with server.connect() as other:
            report.equal("another client", other.ask("LIST"), REFUSED)
        server.kill()
        said = [f"cg_server: {path}: write: File too large (os error 27)\n", PAGE]
        report.equal("FAULT Device after LOADED: standard error", server.warnings, said)


def drop_that_fails(report, program, path):
    """A DROP that is not stored is refused, and the next start finds what was there before it."""
    with failing(program, path, written=[Committed("g", (Entry("t", 0, 1),))]) as server, server.connect() as client:
        report.equal("a DROP of nothing before the fault", client.ask("DROP g t:9"), "OK")
        report.equal("a DROP that is not stored", client.ask("DROP g t:0"), REFUSED)
        report.equal("FAULT Device after a DROP", server.line(), "FAULT Device")
        report.equal("a DROP after the fault", client.ask("DROP g t:0"), REFUSED)
    with Server(program, "--disk", path) as server:
        report.equal("a load after a DROP that was not stored", server.load(), (1, 0, 1))
        with server.connect() as client:
            report.equal("an offset whose DROP was not stored", client.ask("FETCH g t:0"), "FETCHED t:0:1:x")
            report.equal("the same DROP again", client.ask("DROP g t:0"), "OK")
            report.equal("the group without its last offset", client.ask("DROP g t:0"), "ERR 69 GROUP_ID_NOT_FOUND")


def tick_that_fails(report, program, path):
    """What a tick takes cannot be stored: that is a fault without any request. The next start finds it due again."""
    with failing(program, path, "--tick-ms", "10", written=DUE) as server:
        report.equal("FAULT Device after a tick", server.line(), "FAULT Device")
        with server.connect() as client:
            report.equal("a FETCH after a tick that failed", client.ask("FETCH g t:0"), REFUSED)
        server.kill()
        said = [f"cg_server: {path}: write: File too large (os error 27)\n", PAGE]
        report.equal("FAULT Device after a tick: standard error", server.warnings, said)
    report.equal("the log after a tick that failed", LogFile.read(path).tail_commands, DUE)
    with Server(program, "--disk", path, "--tick-ms", "10") as server:
        report.equal("a load after a tick that failed", server.load(), (len(DUE), 1, 2))
        with server.connect() as client:
            end = time.monotonic() + WAIT_SECONDS
            while (reply := client.ask("LIST")) != "GROUPS" and time.monotonic() < end:
                time.sleep(0.01)
            report.equal("what was due expires", reply, "GROUPS")
        server.kill()
    expired = [Expired("g", (("t", 0), ("t", 1))), Deleted("h")]
    report.equal("what the tick stored", LogFile.read(path).tail_commands, [*DUE, *expired])


def end_after_a_fault(report, program, path):
    """What waits is refused, a parked JOIN too, and the server ends with status 1."""
    with failing(program, path, "--exit-on-fault") as server:
        with server.connect() as parked, server.connect() as client:
            client.ask(JOIN)
            parked.send(JOIN)
            while "PreparingRebalance" not in client.ask("DESCRIBE g"):
                pass
            client.send(*["COMMIT h -1 - - t:0:7:x"] * 50)
            report.equal("commits that are not stored", set(client.replies(50)), {REFUSED})
            report.equal("a JOIN that is parked", parked.reply(), REFUSED)
            report.equal("the ends of both connections", (client.rest(), parked.rest()), ("", ""))
        report.equal("a server that ends after FAULT Device", server.end(), (1, ["FAULT Device"]))
        said = [f"cg_server: {path}: write: File too large (os error 27)\n", PAGE]
        report.equal("a server that ends after FAULT Device: standard error", server.warnings, said)
