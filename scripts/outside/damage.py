"""A log with one rule of docs/FORMATS.md broken, and the fault that a load has to report."""
from dataclasses import dataclass

from outside.logfile import CLOSED, SECTOR, Frame, Root, first_sector_of, frame_of, padded, segment_bytes, slot_bytes
from outside.records import Committed, Entry

SEGMENTS = 2
GOOD = frame_of(Committed("g", (Entry("t", 0, 42),)))


@dataclass(frozen=True)
class Damaged:
    """The bytes of the two slots, and of each segment from its first sector on."""
    name: str
    fault: str
    slots: bytes
    segments: dict

    def sectors(self):
        """Returns the sectors by their numbers."""
        parts = {0: self.slots} | {first_sector_of(it): content for it, content in self.segments.items()}
        return {begin + it // SECTOR: content[it:it + SECTOR] for begin, content in parts.items()
                for it in range(0, len(content), SECTOR)}

    def write(self, path):
        with open(path, "wb") as file:
            file.truncate(SECTOR * first_sector_of(SEGMENTS))
            for sector, content in self.sectors().items():
                file.seek(SECTOR * sector)
                file.write(content)


def slots_of(first, second=None):
    return slot_bytes(first) + slot_bytes(second)


def with_frames(name, fault, *frames, root=Root(1), segment=0, others=None):
    """A log of one good root. The damaged frames are in one of its segments."""
    return Damaged(name, fault, slots_of(root), {segment: segment_bytes(frames)} | (others or {}))


def with_payload(name, payload, count=1):
    return with_frames(name, "BadRecord", Frame(count, payload))


def with_roots(name, fault, first, second=None):
    """Both segments have a good frame."""
    good = {it: segment_bytes([GOOD]) for it in range(SEGMENTS)}
    return Damaged(name, fault, slots_of(first, second), good)


def raw_slot(body, gate=b"\x01"):
    return padded(gate) + padded(body)


def closed_slot():
    return CLOSED + CLOSED
