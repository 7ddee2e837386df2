"""Commands and their bytes, from the section "Records" of docs/FORMATS.md."""
from dataclasses import dataclass, field, replace

# The version that is written, and those that are read.
VERSION, VERSIONS = 3, (1, 2, 3)
ASSIGNED, EMPTIED, REPLACED, COMMITTED, DELETED, EXPIRED, DROPPED = 1, 2, 3, 4, 5, 6, 7
# The last kind that a version has.
LAST_KIND = {1: DELETED, 2: EXPIRED, 3: DROPPED}

NAME_MAX, MEMBER_ID_MAX = 100, 137
NUMBER_MAX, OFFSET_MAX = 2**31 - 1, 2**63 - 1
LIST_MAX, PARTITIONS_MAX = 64, 256
SUBSCRIPTION_MAX, ASSIGNMENT_MAX, METADATA_MAX, COMMIT_METADATA_MAX = 1_024, 4_096, 4_096, 262_144
MOMENT_MAX = 2**64 - 1
SESSION_MIN, SESSION_MAX = 6_000, 1_800_000
NAME_BYTES = frozenset(b"ABCDEFGHIJKLMNOPQRSTUVWXYZabcdefghijklmnopqrstuvwxyz0123456789._-")


class BadRecord(Exception):
    """The bytes of a payload are no commands."""


@dataclass(frozen=True)
class Member:
    id: str
    instance: str = ""
    client: str = "c"
    session: int = 10_000
    rebalance: int = 20_000
    subscription: bytes = b""
    assignment: bytes = b""


@dataclass(frozen=True)
class Assigned:
    group: str
    generation: int
    type: str
    protocol: str
    leader: str
    members: tuple


@dataclass(frozen=True)
class Emptied:
    group: str
    generation: int
    type: str
    moment: int | None = None


@dataclass(frozen=True)
class Replaced:
    group: str
    member: Member


@dataclass(frozen=True)
class Entry:
    topic: str
    partition: int
    offset: int
    metadata: bytes = b""


@dataclass(frozen=True)
class Committed:
    group: str
    entries: tuple
    moment: int | None = None


@dataclass(frozen=True)
class Deleted:
    group: str


@dataclass(frozen=True)
class Expired:
    """The partitions are pairs of a topic and a number."""
    group: str
    partitions: tuple


@dataclass(frozen=True)
class Dropped:
    """As in Expired."""
    group: str
    partitions: tuple


def without_moment(command):
    return replace(command, moment=None) if isinstance(command, (Emptied, Committed)) else command


def name(text):
    """Encodes a name; an optional one that is none has length 0."""
    return bytes([len(text)]) + text.encode()


def data(content):
    """Encodes bytes after their length."""
    return len(content).to_bytes(4, "big") + content


def number(value, width=4):
    return value.to_bytes(width, "big")


def moment_field(moment, version=VERSION):
    """Encodes a moment, None if it is unknown. Version 1 has none."""
    if version == 1:
        return b""
    return b"\0" if moment is None else b"\1" + number(moment, 8)


def count_field(count, version=VERSION):
    """Encodes the number of entries or partitions."""
    return number(count, 2 if version == 3 else 1)


def encode_partition(partition):
    return name(partition[0]) + number(partition[1])


def encode_member(member):
    return b"".join([name(member.id), name(member.instance), name(member.client), number(member.session),
                     number(member.rebalance), data(member.subscription), data(member.assignment)])


def encode_entry(entry):
    return encode_partition((entry.topic, entry.partition)) + number(entry.offset, 8) + data(entry.metadata)


def encode(command, version=VERSION):
    """Encodes a command without the version byte. Checks no range, so that it encodes bad commands too. An older version leaves
    out what it has not."""
    match command:
        case Assigned(group, generation, type, protocol, leader, members):
            return b"".join([bytes([ASSIGNED]), name(group), number(generation), name(type), name(protocol), name(leader),
                             bytes([len(members)]), *map(encode_member, members)])
        case Emptied(group, generation, type, moment):
            return bytes([EMPTIED]) + name(group) + number(generation) + name(type) + moment_field(moment, version)
        case Replaced(group, member):
            return bytes([REPLACED]) + name(group) + encode_member(member)
        case Committed(group, entries, moment):
            return b"".join([bytes([COMMITTED]), name(group), moment_field(moment, version), count_field(len(entries), version),
                             *map(encode_entry, entries)])
        case Deleted(group):
            return bytes([DELETED]) + name(group)
        case Expired(group, partitions) | Dropped(group, partitions):
            kind = EXPIRED if isinstance(command, Expired) else DROPPED
            return b"".join([bytes([kind]), name(group), count_field(len(partitions), version), *map(encode_partition, partitions)])


def encode_payload(*commands, version=VERSION):
    return bytes([version]) + b"".join(encode(it, version) for it in commands)


# The bytes of a commit of one offset at an unknown moment, without metadata, of a group and a topic with names of one letter.
SMALL_COMMIT = 24


def commits_of_length(length):
    """Returns commits whose payload has exactly this many bytes."""
    commands, left = [], length - 1
    while left:
        size = min(left, SMALL_COMMIT + METADATA_MAX)
        if 0 < left - size < SMALL_COMMIT:
            size -= SMALL_COMMIT
        commands.append(Committed("g", (Entry("t", len(commands), 0, b"m" * (size - SMALL_COMMIT)),)))
        left -= size
    return commands


@dataclass
class Reader:
    """Reads the fields of a payload from left to right."""
    payload: bytes
    position: int = field(default=0)
    version: int = field(default=VERSION)

    def is_at_end(self):
        return self.position == len(self.payload)

    def take(self, length):
        taken = self.payload[self.position:self.position + length]
        if len(taken) < length:
            raise BadRecord("the bytes end inside a field")
        self.position += length
        return taken

    def number(self, width, least, most):
        value = int.from_bytes(self.take(width), "big")
        if not least <= value <= most:
            raise BadRecord(f"the number {value} is outside its range")
        return value

    def data(self, most):
        return self.take(self.number(4, 0, most))

    def name(self, most=NAME_MAX, is_optional=False):
        length = self.number(1, 0 if is_optional else 1, most)
        text = self.take(length)
        if not NAME_BYTES.issuperset(text) or text == b"-":
            raise BadRecord(f"{text!r} is no name")
        return text.decode()

    def member(self):
        return Member(self.name(MEMBER_ID_MAX), self.name(is_optional=True), self.name(),
                      self.number(4, SESSION_MIN, SESSION_MAX), self.number(4, 0, NUMBER_MAX),
                      self.data(SUBSCRIPTION_MAX), self.data(ASSIGNMENT_MAX))

    def moment(self):
        if self.version == 1 or not self.number(1, 0, 1):
            return None
        return self.number(8, 0, MOMENT_MAX)

    def count(self):
        return self.number(2, 1, PARTITIONS_MAX) if self.version == 3 else self.number(1, 1, LIST_MAX)

    def partition(self):
        return self.name(), self.number(4, 0, NUMBER_MAX)

    def entry(self):
        return Entry(*self.partition(), self.number(8, 0, OFFSET_MAX), self.data(METADATA_MAX))

    def entries(self):
        entries = tuple(self.entry() for _ in range(self.count()))
        require_distinct([(it.topic, it.partition) for it in entries])
        if sum(len(it.metadata) for it in entries) > COMMIT_METADATA_MAX:
            raise BadRecord("the metadata of a commit together are too long")
        return entries

    def partitions(self):
        partitions = tuple(self.partition() for _ in range(self.count()))
        require_distinct(partitions)
        return partitions

    def command(self):
        kind = self.number(1, ASSIGNED, LAST_KIND[self.version])
        group = self.name()
        if kind == ASSIGNED:
            generation, type, protocol, leader = self.number(4, 1, NUMBER_MAX), self.name(), self.name(), self.name(MEMBER_ID_MAX)
            members = tuple(self.member() for _ in range(self.number(1, 1, LIST_MAX)))
            ids = [it.id for it in members]
            require_distinct(ids)
            require_distinct([it.instance for it in members if it.instance])
            if leader not in ids:
                raise BadRecord("the leader is not a member")
            return Assigned(group, generation, type, protocol, leader, members)
        if kind == EMPTIED:
            return Emptied(group, self.number(4, 1, NUMBER_MAX), self.name(), self.moment())
        if kind == REPLACED:
            member = self.member()
            if not member.instance:
                raise BadRecord("a replaced member without an instance")
            return Replaced(group, member)
        if kind == COMMITTED:
            moment = self.moment()
            return Committed(group, self.entries(), moment)
        if kind == EXPIRED:
            return Expired(group, self.partitions())
        if kind == DROPPED:
            return Dropped(group, self.partitions())
        return Deleted(group)


def require_distinct(items):
    if len(set(items)) < len(items):
        raise BadRecord("something comes twice")


def decode_payload(payload):
    """Returns the commands of a payload."""
    reader = Reader(payload)
    reader.version = reader.number(1, min(VERSIONS), max(VERSIONS))
    commands = []
    while not reader.is_at_end():
        commands.append(reader.command())
    return commands
