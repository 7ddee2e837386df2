"""Kills the server with SIGKILL while clients commit, starts it again, and looks for acknowledged offsets that are missing.

  python3 scripts/kill_server.py PROGRAM [ROUNDS]

PROGRAM is a built cg_server. In each of ROUNDS rounds (50 by default) it starts the server on one file, lets four clients
commit ever larger offsets, each to a partition of its own, until one commit of the round is acknowledged and for a random
time below half a second after it, kills the server, and starts it again. Two of the clients wait for each reply, and two
have 20 commits on their way. Each partition has to have an offset that is at least the last acknowledged one and at most the
last one that was sent. The log is so short that the server compacts it all the time, so kills fall into compactions too. The
status is 0 if commits were acknowledged and no offset was missing.
"""
import os
import random
import sys
import tempfile
import threading
import time

from outside.serving import WAIT_SECONDS, Connection, Server

CLIENTS = 4
# How many commits each client has on its way.
AHEAD = [1, 20, 1, 20]
ROUND_SECONDS = 0.5
LOG = ["--segments", "8"]
COMPACT_OFTEN = ["--tick-ms", "10", "--compact-free", "8"]


class Client(threading.Thread):
    """Commits ever larger offsets, so many of them ahead of their replies, until the connection breaks."""

    def __init__(self, port, partition, first, is_served):
        super().__init__(daemon=True)
        self.port, self.partition, self.is_served = port, partition, is_served
        self.sent = self.acknowledged = first

    def commit(self, connection, count):
        first = self.sent + 1
        self.sent += count
        connection.send(*(f"COMMIT g -1 - - t:{self.partition}:{it}:x" for it in range(first, self.sent + 1)))

    def run(self):
        try:
            with Connection(self.port) as connection:
                self.commit(connection, AHEAD[self.partition])
                # Replies come in the order of the commits.
                while connection.reply() == "OK":
                    self.acknowledged += 1
                    self.is_served.set()
                    self.commit(connection, 1)
        except OSError:
            pass


def fetch(server):
    """Returns the stored offset of each partition."""
    with server.connect() as connection:
        words = connection.ask(f"FETCH g {' '.join(f't:{it}' for it in range(CLIENTS))}").split()
    if words[:1] != ["FETCHED"]:
        raise SystemExit(f"FETCH was answered {words}")
    return [int(word.split(":")[2]) for word in words[1:]]


def commit_and_kill(server, offsets):
    """Lets the clients commit until the server is killed. Returns the clients."""
    is_served = threading.Event()
    clients = [Client(server.port, it, offset, is_served) for it, offset in enumerate(offsets)]
    for client in clients:
        client.start()
    is_served.wait(WAIT_SECONDS)
    time.sleep(random.uniform(0, ROUND_SECONDS))
    server.kill()
    for client in clients:
        client.join(WAIT_SECONDS)
    return clients


def main(words):
    program, rounds = words[0], int(words[1]) if len(words) > 1 else 50
    commits, missing, offsets = 0, 0, [0] * CLIENTS
    with tempfile.TemporaryDirectory() as folder:
        disk = ["--disk", os.path.join(folder, "log"), *COMPACT_OFTEN]
        words = [*disk, "--format", *LOG]
        for number in range(rounds):
            with Server(program, *words) as server:
                server.load()
                clients = commit_and_kill(server, offsets)
            words = disk
            with Server(program, *words) as server:
                server.load()
                found = fetch(server)
            for client, offset in zip(clients, found):
                commits += client.acknowledged - offsets[client.partition]
                if not client.acknowledged <= max(offset, 0) <= client.sent:
                    missing += 1
                    print(f"round {number}: partition {client.partition} has {offset}, acknowledged {client.acknowledged}, "
                          f"sent {client.sent}")
            offsets = [max(offset, 0) for offset in found]
    print(f"{rounds} rounds, {commits} acknowledged commits, {missing} missing")
    return 1 if missing or not commits else 0


if __name__ == "__main__":
    sys.exit(main(sys.argv[1:]))
