#!/usr/bin/env python3
"""A client of the coordinator: a class to copy from, and a command line for operators.

  client.py [--address HOST:PORT] COMMAND ..

  list                                   the groups, with their type and state
  describe GROUP                         its state and its members
  fetch GROUP TOPIC:PARTITION ..         committed offsets; -1 where there is none
  reset GROUP TOPIC:PARTITION:OFFSET ..  commits these offsets; the group may have no members
  drop GROUP TOPIC:PARTITION ..          removes these committed offsets; the group may have no members
  delete GROUP                           deletes a group without members, with its offsets
  consume GROUP [--members N] [--topic TOPIC] [--partitions N] [--seconds S]
                                         N members read a topic and commit, until Ctrl-C or for S seconds
  shell                                  sends each line of the terminal, and prints its reply

The address is 127.0.0.1:9192 by default. The status is 0; 1 if a request is refused; 2 for words that are not understood; 3
if the server is not reached.
"""
import argparse
import socket
import sys
import threading
import time

# The server answers the same request differently later.
LATER = {-1, 14, 15}
# The member keeps its id and joins again.
REJOIN = {22, 27}
# The member is not in the group any more: it joins again without an id.
UNKNOWN = 25
# The group is not loaded.
NO_GROUP = 69
PARTITIONS_MAX = 256
PAUSE_SECONDS = 0.2


class Refused(Exception):
    """A reply `ERR code name`."""

    def __init__(self, code, name):
        super().__init__(f"{code} {name}")
        self.code = code


class Connection:
    """A connection: each request line gets one reply line. One request at a time."""

    def __init__(self, address, seconds=10):
        self.stream = socket.create_connection(address, seconds)
        self.replies = self.stream.makefile("r", encoding="ascii", newline="\n")

    def ask_line(self, line):
        self.stream.sendall(line.encode() + b"\n")
        reply = self.replies.readline()
        if not reply.endswith("\n"):
            raise ConnectionError("the server closed the connection")
        return reply[:-1]

    def ask(self, *words):
        """Returns the words of the reply after its first one."""
        kind, *rest = self.ask_line(" ".join(words)).split(" ")
        if kind == "ERR":
            raise Refused(int(rest[0]), rest[1])
        return rest

    def close(self):
        self.replies.close()
        self.stream.close()


def coded(text):
    return "x" + text.encode().hex()


def decoded(word):
    return bytes.fromhex(word[1:]).decode(errors="replace")


class Member:
    """A member of a group that reads topics. Call `poll` at least every third of the session timeout: it sends a heartbeat, joins
    where that is due, and returns the partitions that the member owns, as pairs of a topic and a number."""

    def __init__(self, address, group, topics, client="client", instance=None, session_ms=10_000, rebalance_ms=30_000):
        self.address, self.group, self.topics, self.client, self.instance = address, group, topics, client, instance or "-"
        self.session_ms, self.rebalance_ms = session_ms, rebalance_ms
        self.id, self.generation, self.owned, self.connection = "-", None, [], None
        self.stopping = threading.Event()

    def _ask(self, *words):
        """Asks until there is an answer. What was sent over a connection that broke may be done already: it is asked again all the
        same, which changes nothing, but that a new member's JOIN may leave a member behind until its session ends."""
        while not self.stopping.is_set():
            try:
                # A JOIN may be parked for the rebalance timeout.
                self.connection = self.connection or Connection(self.address, self.rebalance_ms / 1_000 + 10)
                return self.connection.ask(*words)
            except OSError:
                self.drop_connection()
            except Refused as refused:
                if refused.code not in LATER:
                    raise
            self.stopping.wait(PAUSE_SECONDS)
        raise InterruptedError("the member was stopped")

    def drop_connection(self):
        if self.connection:
            self.connection.close()
        self.connection = None

    def _ask_as_member(self, *words):
        """Returns the reply, or None if the member has to join again. Codes 12, 23, 24, 26, 42, 81 and 82 are raised: another member
        has this instance, the group is full, or the request is wrong."""
        try:
            return self._ask(*words)
        except Refused as refused:
            if refused.code not in REJOIN | {UNKNOWN}:
                raise
            if refused.code == UNKNOWN:
                self.id = "-"
            self.generation = None
            return None

    def _join(self):
        """Joins and gets the assignment. Returns whether that was to be had."""
        joined = self._ask_as_member("JOIN", self.group, self.id, self.instance, self.client, str(self.session_ms),
                                     str(self.rebalance_ms), "consumer", f"spread={coded(','.join(self.topics))}")
        if joined is None:
            return False
        self.generation, (leader, self.id), members = joined[0], joined[3:5], joined[5:]
        entries = self._assign([it.split(":")[0] for it in members]) if leader == self.id else []
        synced = self._ask_as_member("SYNC", self.group, self.generation, self.id, self.instance, *entries)
        if synced is None:
            return False
        pairs = (it.rpartition(":") for it in decoded(synced[0]).split(",") if it)
        self.owned = [(topic, int(number)) for topic, _, number in pairs]
        return True

    def _assign(self, members):
        """The leader's part: deals the partitions to the members in turn."""
        partitions = [f"{topic}:{number}" for topic, count in self.topics.items() for number in range(count)]
        return [f"{it}={coded(','.join(partitions[at::len(members)]))}" for at, it in enumerate(members)]

    def poll(self):
        if self.generation is not None:
            self._ask_as_member("BEAT", self.group, self.generation, self.id, self.instance)
        while self.generation is None:
            self.owned = []
            self._join()
        return self.owned

    def commit(self, offsets):
        """Commits offsets, by topic and partition. Returns whether they are stored: if not, the partitions may have another owner."""
        entries = [f"{topic}:{number}:{offset}:x" for (topic, number), offset in offsets.items()]
        done = [self._ask_as_member("COMMIT", self.group, self.generation or "0", self.id, self.instance,
                                    *entries[at:at + PARTITIONS_MAX]) for at in range(0, len(entries), PARTITIONS_MAX)]
        return None not in done

    def fetch(self, partitions):
        return fetch(self._ask, self.group, [f"{topic}:{number}" for topic, number in partitions])

    def leave(self):
        """Leaves the group, if the server is there."""
        try:
            self.connection = self.connection or Connection(self.address)
            self.connection.ask("LEAVE", self.group, self.id, self.instance)
        except (OSError, Refused):
            pass
        self.drop_connection()


def fetch(ask, group, partitions):
    """Returns the committed offsets by topic and partition; -1 where there is none."""
    found = {}
    for at in range(0, len(partitions), PARTITIONS_MAX):
        for word in ask("FETCH", group, *partitions[at:at + PARTITIONS_MAX]):
            topic, number, offset, _ = word.split(":")
            found[topic, int(number)] = int(offset)
    return found


def drop(ask, group, partitions):
    """Removes the committed offsets of these partitions. The server forgets a group of which nothing is left: it is done then."""
    for at in range(0, len(partitions), PARTITIONS_MAX):
        try:
            ask("DROP", group, *partitions[at:at + PARTITIONS_MAX])
        except Refused as refused:
            if at == 0 or refused.code != NO_GROUP:
                raise


def consume_as(member, name, say):
    """Reads what the member owns, one record a second of each partition, and commits it."""
    owned, offsets = None, {}
    while not member.stopping.is_set():
        try:
            if member.poll() != owned:
                owned = member.owned
                offsets = {it: max(offset, 0) for it, offset in member.fetch(owned).items()}
                say(f"{name} generation {member.generation} owns " + (" ".join(f"{t}:{n}@{o}" for (t, n), o in offsets.items()) or "-"))
            offsets = {it: offset + 1 for it, offset in offsets.items()}
            if not member.commit(offsets):
                owned = None
        except InterruptedError:
            break
        except Refused as refused:
            say(f"{name} stops: {refused}")
            return
        member.stopping.wait(1)
    member.leave()
    say(f"{name} left")


def consume(words):
    lock = threading.Lock()

    def say(line):
        with lock:
            print(line, flush=True)

    members = [Member(words.address, words.group, {words.topic: words.partitions}, f"client-{it + 1}") for it in range(words.members)]
    threads = [threading.Thread(target=consume_as, args=(member, member.client, say)) for member in members]
    end = time.monotonic() + words.seconds if words.seconds is not None else None
    try:
        for thread in threads:
            thread.start()
            time.sleep(0.5)
        while any(it.is_alive() for it in threads) and (end is None or time.monotonic() < end):
            time.sleep(0.1)
    except KeyboardInterrupt:
        pass
    for member, thread in zip(members, threads):
        member.stopping.set()
        thread.join()


def operate(words):
    connection = Connection(words.address)
    if words.command == "list":
        for word in connection.ask("LIST"):
            print(*word.split(":"))
    elif words.command == "describe":
        state, generation, kind, protocol, *members = connection.ask("DESCRIBE", words.group)
        print(f"state {state}, generation {generation}, type {kind}, protocol {protocol}")
        for word in members:
            member, instance, client, subscription, assignment = word.split(":")
            print(f"{member} instance {instance} client {client} subscription {decoded(subscription)!r} "
                  f"assignment {decoded(assignment)!r}")
    elif words.command == "fetch":
        for (topic, number), offset in fetch(connection.ask, words.group, words.partitions).items():
            print(f"{topic}:{number} {offset}")
    elif words.command == "reset":
        for at in range(0, len(words.offsets), PARTITIONS_MAX):
            connection.ask("COMMIT", words.group, "-1", "-", "-", *(f"{it}:x" for it in words.offsets[at:at + PARTITIONS_MAX]))
        print("OK")
    elif words.command == "drop":
        drop(connection.ask, words.group, words.partitions)
        print("OK")
    elif words.command == "delete":
        connection.ask("DELETE", words.group)
        print("OK")
    elif words.command == "shell":
        for line in sys.stdin:
            print(connection.ask_line(line.rstrip("\n")), flush=True)


def address(text):
    host, _, port = text.rpartition(":")
    return host, int(port)


def parsed():
    parser = argparse.ArgumentParser(usage=__doc__.partition("\n\n")[2])
    parser.add_argument("--address", type=address, default=("127.0.0.1", 9192))
    commands = parser.add_subparsers(dest="command", required=True)
    for name in ("list", "shell"):
        commands.add_parser(name)
    for name in ("describe", "delete", "fetch", "reset", "drop", "consume"):
        commands.add_parser(name).add_argument("group")
    for name in ("fetch", "drop"):
        commands.choices[name].add_argument("partitions", nargs="+")
    commands.choices["reset"].add_argument("offsets", nargs="+")
    for name, kind, default in (("members", int, 3), ("topic", str, "events"), ("partitions", int, 6), ("seconds", float, None)):
        commands.choices["consume"].add_argument(f"--{name}", type=kind, default=default)
    return parser.parse_args()


def main():
    words = parsed()
    try:
        (consume if words.command == "consume" else operate)(words)
    except Refused as refused:
        sys.exit(f"client.py: refused: {refused}")
    except OSError as error:
        print(f"client.py: {words.address[0]}:{words.address[1]}: {error}", file=sys.stderr)
        sys.exit(3)
    except KeyboardInterrupt:
        pass


if __name__ == "__main__":
    main()
