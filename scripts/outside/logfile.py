"""Sectors, roots and frames of a log, from the section "Disk" of docs/FORMATS.md: a writer and a strict reader."""
from dataclasses import dataclass
from functools import cached_property

from outside.records import decode_payload, encode_payload

SECTOR = 512
ROOT_SECTORS, SEGMENT_SECTORS = 4, 2_048
SEGMENTS_MAX = 200
GATE_POSITION_MAX = 2_047
PAYLOAD_MAX = 1_047_536
NUMBER_MAX = 2**63 - 1
OPEN, CLOSED = b"\x01" + bytes(SECTOR - 1), bytes(SECTOR)


class BadLog(Exception):
    """The bytes break a rule of the format."""


def sectors_of(segments):
    return ROOT_SECTORS + SEGMENT_SECTORS * segments


def first_sector_of(segment):
    return ROOT_SECTORS + SEGMENT_SECTORS * segment


def padded(content):
    """Fills the last sector with zeros."""
    return content + bytes(-len(content) % SECTOR)


@dataclass(frozen=True)
class Root:
    epoch: int
    base_number: int = 0
    base: tuple = ()
    tails: tuple = (0,)
    version: int = 1

    def body(self):
        ids = b"".join(it.to_bytes(2, "big") for it in self.base + self.tails)
        return b"".join([self.version.to_bytes(4, "big"), self.epoch.to_bytes(8, "big"), self.base_number.to_bytes(8, "big"),
                         len(self.base).to_bytes(2, "big"), len(self.tails).to_bytes(2, "big"), ids])


@dataclass(frozen=True)
class Frame:
    """The body of a frame."""
    count: int
    payload: bytes

    def body(self):
        return self.count.to_bytes(8, "big") + len(self.payload).to_bytes(8, "big") + self.payload

    @cached_property
    def commands(self):
        return decode_payload(self.payload)


def frame_of(*commands):
    """Returns the frame of these commands."""
    return Frame(len(commands), encode_payload(*commands))


def segment_bytes(frames):
    """Returns the sectors of a segment up to the closed gate after its last frame."""
    return b"".join(OPEN + padded(frame.body()) for frame in frames) + CLOSED


def slot_bytes(root):
    """Returns the two sectors of a slot; of a closed one without a body if there is no root."""
    return OPEN + padded(root.body()) if root else CLOSED + CLOSED


def write_log(path, segments, slots, frames):
    """Writes a file: its two roots, of which either may be None, and for each id of a segment its frames."""
    with open(path, "wb") as file:
        file.truncate(SECTOR * sectors_of(segments))
        file.write(slot_bytes(slots[0]) + slot_bytes(slots[1]))
        for segment, content in frames.items():
            file.seek(SECTOR * first_sector_of(segment))
            file.write(segment_bytes(content))


def read_gate(sector):
    """Returns whether a gate is open. Refuses one that was not written as the format says."""
    if sector not in (OPEN, CLOSED):
        raise BadLog("a gate has other bytes than those of an open or a closed one")
    return sector == OPEN


def read_root(sector, segments):
    """Decodes the body of a root."""
    numbers = [int.from_bytes(sector[begin:end], "big") for begin, end in ((0, 4), (4, 12), (12, 20), (20, 22), (22, 24))]
    version, epoch, base_number, bases, tails = numbers
    end = 24 + 2 * (bases + tails)
    ids = tuple(int.from_bytes(sector[it:it + 2], "big") for it in range(24, min(end, SECTOR), 2))
    rules = [version == 1, 1 <= epoch <= NUMBER_MAX, base_number <= NUMBER_MAX, tails >= 1, end <= SECTOR,
             len(set(ids)) == len(ids), all(it < segments for it in ids), not any(sector[end:])]
    if not all(rules):
        raise BadLog(f"a root breaks the rules {[i for i, holds in enumerate(rules) if not holds]}")
    return Root(epoch, base_number, ids[:bases], ids[bases:])


class LogFile:
    """A file that was read strictly: the bytes have to be those that the format says are written."""

    def __init__(self, content):
        if len(content) % SECTOR or len(content) < SECTOR * sectors_of(1):
            raise BadLog("the file is no disk with a segment")
        self.content = content
        self.segments = min(SEGMENTS_MAX, (len(content) // SECTOR - ROOT_SECTORS) // SEGMENT_SECTORS)

    @classmethod
    def read(cls, path):
        with open(path, "rb") as file:
            return cls(file.read())

    def sectors(self, begin, count=1):
        return self.content[SECTOR * begin:SECTOR * (begin + count)]

    def slots(self):
        """Returns the roots of both slots, None for one whose gate is closed."""
        return [read_root(self.sectors(it + 1), self.segments) if read_gate(self.sectors(it)) else None for it in (0, 2)]

    @cached_property
    def root(self):
        """The root that counts."""
        roots = [it for it in self.slots() if it]
        if not roots or len({it.epoch for it in roots}) < len(roots):
            raise BadLog("there is no root that counts")
        return max(roots, key=lambda it: it.epoch)

    def frames_of(self, segment):
        """Returns the frames of a segment. The gate after the last of them is closed."""
        first, position, frames = first_sector_of(segment), 0, []
        while read_gate(self.sectors(first + position)):
            head = self.sectors(first + position + 1)
            count, length = int.from_bytes(head[:8], "big"), int.from_bytes(head[8:16], "big")
            body = -(-(16 + length) // SECTOR)
            if count < 1 or position + body + 1 > GATE_POSITION_MAX:
                raise BadLog(f"a frame of {count} commands and {length} bytes at position {position}")
            content = self.sectors(first + position + 1, body)
            if any(content[16 + length:]):
                raise BadLog("the bytes after a payload are not zeros")
            frames.append(Frame(count, content[16:16 + length]))
            position += body + 1
        return frames

    def frames(self, segments):
        return [frame for it in segments for frame in self.frames_of(it)]

    @cached_property
    def base_commands(self):
        return commands_of(self.frames(self.root.base))

    @cached_property
    def tail_commands(self):
        return commands_of(self.frames(self.root.tails))

    @property
    def number(self):
        """The number of the last command."""
        number = self.root.base_number + len(self.tail_commands)
        if number > NUMBER_MAX:
            raise BadLog("there are commands past the last number")
        return number

    def free_segments(self):
        return [it for it in range(self.segments) if it not in self.root.base + self.root.tails]

    def is_untouched(self, segment):
        return not any(self.sectors(first_sector_of(segment), SEGMENT_SECTORS))


def commands_of(frames):
    """Returns the commands of frames. Each has as many as it counts."""
    for frame in frames:
        if frame.count != len(frame.commands):
            raise BadLog(f"a frame counts {frame.count} commands and has {len(frame.commands)}")
    return [command for frame in frames for command in frame.commands]
