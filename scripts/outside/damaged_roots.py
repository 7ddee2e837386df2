"""Each rule of a root and of a frame broken alone."""
from dataclasses import replace

from outside.damage import GOOD, SEGMENTS, Damaged, closed_slot, raw_slot, slots_of, with_frames, with_roots
from outside.logfile import GATE_POSITION_MAX, NUMBER_MAX, OPEN, PAYLOAD_MAX, SECTOR, Frame, Root, frame_of, padded, segment_bytes
from outside.records import commits_of_length

BAD_ROOTS = [
    ("version 0", Root(1, version=0)),
    ("version 2", Root(1, version=2)),
    ("version 2^24", Root(1, version=2**24 + 1)),
    ("epoch 0", Root(0)),
    ("epoch past the last", Root(NUMBER_MAX + 1)),
    ("base number past the last", Root(1, NUMBER_MAX + 1)),
    ("no tail", Root(1, base=(0,), tails=())),
    ("no segment", Root(1, tails=())),
    ("a tail past the segments", Root(1, tails=(0, SEGMENTS))),
    ("a base past the segments", Root(1, base=(SEGMENTS,))),
    ("the greatest id", Root(1, tails=(65_535,))),
    ("an id whose low byte is good", Root(1, tails=(256,))),
    ("a tail twice", Root(1, tails=(1, 0, 1))),
    ("a base twice", Root(1, base=(1, 1))),
    ("an id in base and tails", Root(1, base=(1,), tails=(0, 1))),
    ("more ids than the sector has", Root(1, base=tuple(range(244)), tails=(0,))),
]


def counted(bases, tails):
    """The body of a root with other counts than ids."""
    return (1).to_bytes(4, "big") + (1).to_bytes(8, "big") + bytes(8) + bases.to_bytes(2, "big") + tails.to_bytes(2, "big")


def roots():
    good = {0: segment_bytes([GOOD])}
    cases = []
    for name, root in BAD_ROOTS:
        body = root.body()[:512]
        cases += [Damaged(f"{name}, in slot 0", "BadRoot", raw_slot(body) + closed_slot(), good),
                  Damaged(f"{name}, in slot 1", "BadRoot", closed_slot() + raw_slot(body), good),
                  Damaged(f"{name}, beside a good root", "BadRoot", raw_slot(body) + slots_of(Root(5))[:1024], good)]
    cases += [Damaged(f"{bases} and {tails} ids", "BadRoot", raw_slot(counted(bases, tails)) + closed_slot(), good)
              for bases, tails in ((65_535, 1), (0, 65_535), (65_535, 65_535), (32_768, 32_768), (0, 245))]
    return cases + [
        with_roots("two roots of one epoch", "BadRoot", Root(3), Root(3, tails=(1,))),
        with_roots("one root twice", "BadRoot", Root(3), Root(3)),
        Damaged("a body of zeros", "BadRoot", raw_slot(b"") + closed_slot(), good),
        Damaged("both gates closed", "NoRoot", closed_slot() + closed_slot(), good),
        Damaged("a gate of 2 and a gate of 255", "NoRoot",
                raw_slot(Root(1).body(), b"\x02") + raw_slot(Root(2).body(), b"\xff"), good),
        Damaged("a gate whose second byte is 1", "NoRoot", raw_slot(Root(1).body(), b"\0\x01") + closed_slot(), good),
    ]


def frames():
    last = Root(1, NUMBER_MAX)
    return [
        with_frames("a count of 0", "BadFrame", replace(GOOD, count=0)),
        with_frames("a count of 0 after a good frame", "BadFrame", GOOD, replace(GOOD, count=0)),
        with_frames("an open gate before zeros", "BadFrame", GOOD, Frame(0, b"")),
        length("a length of one byte too many", PAYLOAD_MAX + 1),
        length("a length of 2^32", 2**32),
        length("a length of 2^63", 2**63),
        length("the greatest length", 2**64 - 1),
        length("a length that wraps around", 2**64 - 16),
        length("a length that does not fit after a frame", PAYLOAD_MAX - 1_023, GOOD),
        with_frames("a count past the last number", "BadFrame", replace(GOOD, count=2**63)),
        with_frames("the greatest count", "BadFrame", replace(GOOD, count=2**64 - 1)),
        with_frames("a command past the last number", "BadFrame", GOOD, root=last),
        with_frames("a second command past the last number", "BadFrame", GOOD, GOOD, root=Root(1, NUMBER_MAX - 1)),
        with_frames("counts past the last number", "BadFrame", replace(GOOD, count=NUMBER_MAX), GOOD),
        with_frames("a bad frame in the base", "BadFrame", Frame(0, b""), root=Root(1, 1, (1,), (0,)), segment=1),
        with_frames("a bad frame in an earlier tail", "BadFrame", Frame(0, b""), root=Root(1, 0, (), (1, 0)), segment=1,
                    others={0: segment_bytes([GOOD])}),
        with_frames("a bad frame after a bad payload", "BadFrame", Frame(1, b"\x09"), Frame(0, b"")),
        with_frames("a bad payload in the base", "BadRecord", Frame(1, b"\x09"), root=Root(1, 1, (1,), (0,)), segment=1),
        with_frames("a bad payload in the second tail", "BadRecord", Frame(1, b"\x09"), root=Root(1, 0, (), (0, 1)), segment=1,
                    others={0: segment_bytes([GOOD])}),
        with_frames("a count of one more", "BadRecord", replace(GOOD, count=2)),
        with_frames("a count of 2^32 more", "BadRecord", replace(GOOD, count=2**32 + 1)),
        with_frames("the last number as a count", "BadRecord", replace(GOOD, count=NUMBER_MAX)),
        with_frames("a count of one less", "BadRecord", Frame(1, GOOD.payload + GOOD.payload[1:])),
        with_frames("counts that are right together", "BadRecord",
                    Frame(2, GOOD.payload), Frame(1, GOOD.payload + GOOD.payload[1:])),
        with_frames("a count of one command and none", "BadRecord", Frame(1, b"\x01")),
        with_frames("a payload of no bytes", "BadRecord", Frame(1, b"")),
    ]


def length(name, value, *before):
    """An open gate before a body of this length, after good frames."""
    body = (1).to_bytes(8, "big") + value.to_bytes(8, "big") + GOOD.payload
    content = segment_bytes(before)[:-512] + OPEN + padded(body)
    return Damaged(name, "BadFrame", slots_of(Root(1)), {0: content})


def late_gates():
    """Open gates at the last positions of a segment: too late for a frame. These logs are large."""
    cases = []
    for position in (GATE_POSITION_MAX - 1, GATE_POSITION_MAX):
        before = frame_of(*commits_of_length(SECTOR * (position - 1) - 16))
        cases += [with_frames(f"an open gate at position {position}", "BadFrame", before, Frame(0, b"")),
                  with_frames(f"a whole frame at position {position}", "BadFrame", before, GOOD)]
    return cases
