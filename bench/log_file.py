"""Logs as docs/FORMATS.md has them: commands, frames, segments and the root, written without the server."""
import os
import struct
from dataclasses import dataclass

SECTOR = 512
SEGMENT_SECTORS = 2048
SEGMENT = SECTOR * SEGMENT_SECTORS
PAYLOAD_MAX = 1_047_536
OPEN_GATE = b"\x01" + bytes(SECTOR - 1)


@dataclass(frozen=True)
class Member:
    """A member as a command stores it."""

    id: str
    client: str
    subscription: bytes
    assignment: bytes


@dataclass(frozen=True)
class Offset:
    """A partition of topic t, with its offset and metadata."""

    partition: int
    offset: int
    metadata: bytes = b""


def _name(text):
    return bytes([len(text)]) + text.encode()


def _bytes(data):
    return struct.pack(">I", len(data)) + data


def committed(group, offsets):
    """Encodes a commit of offsets of topic t."""
    entries = (_name("t") + struct.pack(">IQ", it.partition, it.offset) + _bytes(it.metadata) for it in offsets)
    return b"\x04" + _name(group) + bytes([len(offsets)]) + b"".join(entries)


def assigned(group, generation, protocol, members):
    """Encodes a group whose members have their assignments. The first leads."""
    timeouts = struct.pack(">II", 1_800_000, 600_000)
    head = b"\x01" + _name(group) + struct.pack(">I", generation) + _name("consumer") + _name(protocol) + _name(members[0].id)
    entries = (b"".join([_name(it.id), b"\x00", _name(it.client), timeouts, _bytes(it.subscription), _bytes(it.assignment)])
               for it in members)
    return head + bytes([len(members)]) + b"".join(entries)


def frame(commands):
    """Encodes the body of a frame that has these commands."""
    payload = b"\x01" + b"".join(commands)
    assert len(payload) <= PAYLOAD_MAX
    body = struct.pack(">QQ", len(commands), len(payload)) + payload
    return body + bytes(-len(body) % SECTOR)


def full_frame(command):
    """Returns a frame with as many copies of a command as fit, and their number."""
    count = (PAYLOAD_MAX - 1) // len(command)
    return frame([command] * count), count


def segments_of(frames):
    """Yields the segments that frames fill, each as long as it is on the disk: zeros, a closed gate first, after its frames."""
    parts, length = [], 0
    for body in frames:
        if length + SECTOR + len(body) + SECTOR > SEGMENT:
            yield b"".join([*parts, bytes(SEGMENT - length)])
            parts, length = [], 0
        parts += [OPEN_GATE, body]
        length += SECTOR + len(body)
    yield b"".join([*parts, bytes(SEGMENT - length)])


def frames_of(commands):
    """Yields the frames that commands fill, in order."""
    batch, length = [], 1
    for command in commands:
        if length + len(command) > PAYLOAD_MAX:
            yield frame(batch)
            batch, length = [], 1
        batch.append(command)
        length += len(command)
    yield frame(batch)


def _root(tails):
    body = struct.pack(">IQQHH", 1, 1, 0, 0, tails) + struct.pack(f">{tails}H", *range(tails))
    return OPEN_GATE + body + bytes(SECTOR - len(body))


def write_log(path, total, segments):
    """Writes a log with `total` segments, of which the first are these. Each block is written, and synced."""
    used = 0
    with open(path, "wb") as file:
        file.write(bytes(4 * SECTOR))
        for segment in segments:
            file.write(segment)
            used += 1
        for _ in range(total - used):
            file.write(bytes(SEGMENT))
        file.seek(0)
        file.write(_root(max(used, 1)))
        file.flush()
        os.fsync(file.fileno())


def snapshot_number(path):
    """Returns how many commands the snapshot of a log replaces: another number after each compaction."""
    with open(path, "rb") as file:
        slots = file.read(4 * SECTOR)
    roots = [struct.unpack_from(">IQQ", slots, at + SECTOR) for at in (0, 2 * SECTOR) if slots[at] == 1]
    return max(((epoch, number) for _, epoch, number in roots), default=(0, 0))[1]
