"""Treats a server as bad clients would, and looks whether another client is answered meanwhile.

  python3 scripts/hostile_clients.py PROGRAM

PROGRAM is a built cg_server. Clients send half a line and stay; never read their replies, or those before a COMMIT; read a
reply of two megabytes in small pieces; send 400,000 commits at once, every other of which is refused, and read nothing;
write the log over more than twice; close while 500 commits wait; send a line that is too long; close in mid-line; close
while their request waits; and 1,000 connect and close. Beside each kind another client commits offsets and fetches them,
each within a minute. At the end the sockets of the closed connections have to be gone. The status is 0 if every commit was
answered and none was lost.
"""
import contextlib
import os
import socket
import sys
import threading
import time

from outside.serving import WAIT_SECONDS, Connection, Server

LINE_BYTES_MAX = 1_048_576
CONNECTIONS = 1_000
UNREAD_REQUESTS = 200
COMMITS = 400_000
WAITING = 500
SEGMENTS = 32
# Of a quarter of a MiB each, to a log of 32 MiB.
LARGE_COMMITS = 300
# The listener.
SOCKETS_OF_ITS_OWN = 1
# A write that takes so long has met a server that reads no more.
BLOCKED_SECONDS = 1
# As much metadata as 64 partitions may have in one COMMIT, or nearly.
METADATA = f"x{'ab' * 4_000}"
LARGE_COMMIT_PARTITIONS = 64
PARTITIONS = [f"u:{it}" for it in range(LARGE_COMMIT_PARTITIONS)]
LARGE_COMMIT = "COMMIT big -1 - - " + " ".join(f"{it}:1:{METADATA}" for it in PARTITIONS)
# The most partitions of a FETCH, which make its longest replies.
PARTITIONS_MAX = 256
PIECE_BYTES = 4_096
WINDOW_BYTES = 65_536


def send_half_a_line(port, held):
    client = Connection(port)
    client.send_bytes(b"COMMIT g -1 - - t:0")
    held.append(client)


def send_until_blocked(client, data):
    client.stream.settimeout(BLOCKED_SECONDS)
    with contextlib.suppress(TimeoutError):
        for _ in range(UNREAD_REQUESTS):
            client.send_bytes(data)


def never_read(port, held):
    client = Connection(port)
    if client.ask(LARGE_COMMIT) != "OK":
        raise SystemExit("the large commit was refused")
    send_until_blocked(client, f"FETCH big {' '.join(PARTITIONS)}\n".encode())
    held.append(client)


def read_in_small_pieces(port, held):
    """Reads the reply to a FETCH of all partitions, each with 4,000 bytes of metadata, in small pieces."""
    offsets = [f"t:{it}:{it}:{METADATA}" for it in range(PARTITIONS_MAX)]
    with Connection(port) as client:
        client.stream.setsockopt(socket.SOL_SOCKET, socket.SO_RCVBUF, WINDOW_BYTES)
        for first in range(0, PARTITIONS_MAX, LARGE_COMMIT_PARTITIONS):
            if client.ask(f"COMMIT long -1 - - {' '.join(offsets[first:first + LARGE_COMMIT_PARTITIONS])}") != "OK":
                raise SystemExit("a large commit was refused")
        wanted = f"FETCHED {' '.join(offsets)}\n".encode()
        client.send(f"FETCH long {' '.join(f't:{it}' for it in range(PARTITIONS_MAX))}")
        read = bytearray()
        while len(read) < len(wanted) and (piece := client.stream.recv(PIECE_BYTES)):
            read += piece
        # Else the log had to hold them in the snapshots of the compactions that follow.
        deleted = client.ask("DELETE long")
    if read != wanted:
        same = len(os.path.commonprefix([bytes(read), wanted]))
        raise SystemExit(f"of a reply of {len(wanted)} bytes {same} came as they were committed")
    if deleted != "OK":
        raise SystemExit(f"the group of the long reply was not deleted: {deleted}")


def read_nothing_and_commit(port, held):
    """Sends FETCHes with large replies and then a COMMIT in one write, and reads none of the replies."""
    client = Connection(port)
    send_until_blocked(client, f"FETCH big {' '.join(PARTITIONS)}\nCOMMIT big -1 - - v:0:1:x\n".encode())
    held.append(client)


def commit_and_read_nothing(port, held):
    """Has more replies than sockets hold."""
    client = Connection(port)
    client.stream.setsockopt(socket.SOL_SOCKET, socket.SO_RCVBUF, 4_096)
    pair = b"COMMIT g -1 - - w:0:1:x\nCOMMIT g 7 m - w:0:1:x\n"
    send_until_blocked(client, pair * (COMMITS // UNREAD_REQUESTS // 2))
    held.append(client)


def write_the_log_over(port, held):
    """Commits more than the log holds, faster than a tick has it compacted."""
    with Connection(port) as client:
        for _ in range(LARGE_COMMITS):
            if client.ask(LARGE_COMMIT) != "OK":
                raise SystemExit("a large commit was refused")


def close_while_many_commits_wait(port, held):
    for _ in range(20):
        with Connection(port) as client:
            client.send(*["COMMIT g -1 - - w:0:2:x"] * WAITING)


def send_a_line_that_is_too_long(port, held):
    with Connection(port) as client, contextlib.suppress(ConnectionError):
        client.send_bytes(b"x" * (LINE_BYTES_MAX + 1))
        if client.rest() != "ERR 42 INVALID_REQUEST\n":
            raise SystemExit("a line that is too long did not get 42, or did not end its connection")


def close_in_mid_line(port, held):
    Connection(port).close()
    with Connection(port) as client:
        client.send_bytes(b"BEAT g")


def close_while_a_request_waits(port, held):
    join = "JOIN waits - - c 6000 6000 consumer range=x"
    with Connection(port) as first:
        if not first.ask(join).startswith("JOINED "):
            raise SystemExit("the first JOIN was refused")
    with Connection(port) as second:
        second.send(join)


def connect_and_close(port, held):
    for _ in range(CONNECTIONS):
        Connection(port).close()


KINDS = [
    send_half_a_line,
    never_read,
    read_in_small_pieces,
    read_nothing_and_commit,
    commit_and_read_nothing,
    write_the_log_over,
    close_while_many_commits_wait,
    send_a_line_that_is_too_long,
    close_in_mid_line,
    close_while_a_request_waits,
    connect_and_close,
]


def commit_and_fetch(port, offset):
    """Returns whether a commit is answered and the same offset is fetched, each in time."""
    with contextlib.suppress(OSError), Connection(port) as client:
        return client.ask(f"COMMIT g -1 - - t:7:{offset}:x") == "OK" and client.ask("FETCH g t:7") == f"FETCHED t:7:{offset}:x"
    return False


class Meanwhile(threading.Thread):
    """Another client, which commits and fetches at least once, until it is told to end."""

    def __init__(self, port):
        super().__init__(daemon=True)
        self.port, self.rounds, self.failed, self.over = port, 0, 0, threading.Event()

    def run(self):
        while not self.rounds or not self.over.is_set():
            self.rounds += 1
            self.failed += not commit_and_fetch(self.port, self.rounds)

    def end(self):
        self.over.set()
        self.join(3 * WAIT_SECONDS)
        return self.failed + self.is_alive()


def sockets_of(server):
    folder = f"/proc/{server.process.pid}/fd"
    links = []
    for name in os.listdir(folder):
        with contextlib.suppress(FileNotFoundError):
            links.append(os.readlink(f"{folder}/{name}"))
    return sum(link.startswith("socket:") for link in links)


def are_sockets_gone(server, held):
    """Waits until only the sockets of the held connections are left: a request that waits ends with its group's rebalance."""
    until = time.monotonic() + WAIT_SECONDS
    while time.monotonic() < until:
        if sockets_of(server) <= SOCKETS_OF_ITS_OWN + held:
            return True
        time.sleep(0.1)
    return False


def problem_beside(kind, port, held):
    """Returns what went wrong beside this kind of client, or None."""
    other = Meanwhile(port)
    other.start()
    try:
        kind(port, held)
    except (OSError, SystemExit) as error:
        other.end()
        return f"{type(error).__name__}: {error}"
    return "another client was not answered" if other.end() else None


def problems(program):
    """Returns for each kind of client what went wrong, and for the sockets that are left at the end; None where nothing did."""
    held, found = [], {}
    with Server(program, "--segments", str(SEGMENTS)) as server:
        server.load()
        for kind in KINDS:
            found[kind.__name__] = problem_beside(kind, server.port, held)
        is_gone = are_sockets_gone(server, len(held))
        found["sockets"] = None if is_gone else f"{sockets_of(server)} are left for {len(held)} connections"
    return found


def main(words):
    found = problems(words[0])
    for name, problem in found.items():
        if problem:
            print(f"{name}: {problem}")
    failed = sum(bool(problem) for problem in found.values())
    print(f"{len(KINDS)} kinds of clients, {failed} failures")
    return 1 if failed else 0


if __name__ == "__main__":
    sys.exit(main(sys.argv[1:]))
