"""What the server reads: it loads files that Python wrote, shows what they hold, and leaves them as they are."""
import os
from dataclasses import dataclass, field

from outside.folding import state_of
from outside.logfile import GATE_POSITION_MAX, NUMBER_MAX, PAYLOAD_MAX, SECTOR, Frame, Root, first_sector_of, frame_of, write_log
from outside.records import (COMMIT_METADATA_MAX, LIST_MAX, MEMBER_ID_MAX, METADATA_MAX, MOMENT_MAX, NAME_MAX, OFFSET_MAX,
                             PARTITIONS_MAX, SESSION_MAX, SESSION_MIN, SUBSCRIPTION_MAX, Assigned, Committed, Deleted, Dropped,
                             Emptied, Entry, Expired, Member, Replaced, commits_of_length, encode_payload)
from outside.records import NUMBER_MAX as FIELD_MAX
from outside.serving import Server


@dataclass
class Log:
    """A file to be written, and what a load of it has to find."""
    name: str
    commands: list
    slots: list
    frames: dict
    segments: int = 2
    number: int = 0
    # Bytes that are written over those of the format, by their position.
    patches: dict = field(default_factory=dict)

    def write(self, path):
        write_log(path, self.segments, self.slots, self.frames)
        with open(path, "r+b") as file:
            for position, content in self.patches.items():
                file.seek(position)
                file.write(content)


def commit(group, partition, offset, metadata=b""):
    return Committed(group, (Entry("t", partition, offset, metadata),))


ONE, TWO = Member("m1", "i1", "c1", 10_000, 20_000, b"\x01", b"\x02"), Member("m2", "", "c2", 6_000, 0, b"", b"")
NEW = Member("m3", "i1", "c3", 1_800_000, 1, b"\x03", b"\x04")
# Nothing of this moment expires.
LATE = MOMENT_MAX
OLD_KINDS = [Assigned("g", 7, "consumer", "range", "m2", (ONE, TWO)), Replaced("g", NEW), Emptied("e", 3, "k"),
             commit("g", 0, 42, b"\xff"), commit("gone", 0, 1), Emptied("gone", 1, "k"), Deleted("gone")]
# Of the group `taken` no offset is left, and of the others the partitions that were not taken.
EXPIRED = [Committed("x", (Entry("t", 0, 1), Entry("t", 1, 2)), LATE), commit("taken", 0, 1), Expired("x", (("t", 1), ("u", 1))),
           Expired("taken", (("t", 0),)), Expired("none", (("t", 0),)), Emptied("f", 3, "k", LATE)]
DROPPED = [Committed("d", (Entry("t", 0, 1), Entry("t", 1, 2)), LATE), commit("dropped", 0, 1), Dropped("d", (("t", 1), ("u", 1))),
           Dropped("dropped", (("t", 0),)), Dropped("none", (("t", 0),))]
EVERY_KIND = [*OLD_KINDS, *EXPIRED, *DROPPED]


def filled(character, length):
    return character * length


def long_member(number):
    """A member of the greatest lengths."""
    tail = f".{number:02}"
    return Member(filled("m", MEMBER_ID_MAX - 3) + tail, filled("i", NAME_MAX - 3) + tail, filled("c", NAME_MAX), SESSION_MAX,
                  FIELD_MAX, bytes([number]) * SUBSCRIPTION_MAX, b"\xff")


LONG = [long_member(it) for it in range(LIST_MAX)]
GREATEST = [Assigned(filled("G", NAME_MAX), FIELD_MAX, filled("T", NAME_MAX), filled("P", NAME_MAX), LONG[-1].id, tuple(LONG)),
            Assigned("a", 1, "-a", "_", "0", (Member("0", "", ".", SESSION_MIN, 0, b"", b"\0" * 4_096),)),
            Emptied("E", FIELD_MAX, "k"),
            Committed("g", tuple(Entry(filled("t", NAME_MAX), it, 0, b"m" * METADATA_MAX) for it in range(LIST_MAX))),
            Committed("i", tuple(Entry(filled("u", NAME_MAX), it, 1, b"m" * (COMMIT_METADATA_MAX // PARTITIONS_MAX))
                                 for it in range(PARTITIONS_MAX)), LATE),
            Committed("j", tuple(Entry("t", it, 1) for it in range(PARTITIONS_MAX)), LATE),
            Dropped("j", tuple(("t", FIELD_MAX - it) for it in range(PARTITIONS_MAX))),
            Expired("j", tuple(("t", it + 1) for it in range(PARTITIONS_MAX))),
            Committed("h", (Entry("t", FIELD_MAX, OFFSET_MAX), Entry("t", 0, OFFSET_MAX - 1)))]


def commits(begin, end):
    return [commit("g", it % 3, it) for it in range(begin, end)]


def frames_each(commands):
    return [*map(frame_of, commands)]


def of_version(version, *commands):
    return Frame(len(commands), encode_payload(*commands, version=version))


def three_versions():
    """Frames of each version in one log. Moments that a version does not have are left out."""
    frames = [of_version(1, *OLD_KINDS), of_version(2, *OLD_KINDS, *EXPIRED), of_version(3, *EVERY_KIND), of_version(1, *OLD_KINDS)]
    return Log("three versions", [it for frame in frames for it in frame.commands], [Root(1), None], {0: frames})


def several_segments():
    """A base of two segments that replaces ten commands, and three tails. Ids are in no order."""
    base, tails = commits(0, 4), commits(4, 12)
    frames = {5: frames_each(base[:2]), 3: [frame_of(*base[2:])],
              6: frames_each(tails[:3]), 0: [], 2: [frame_of(*tails[3:6]), frame_of(*tails[6:])]}
    # Segments that no root names hold what would count elsewhere.
    frames |= {1: frames_each(commits(100, 103)), 4: frames_each(commits(200, 203))}
    root = Root(9, 10, (5, 3), (6, 0, 2))
    return Log("a base and three tails", base + tails, [None, root], frames, 7, number=18)


def two_roots(name, slots, counted):
    frames = {0: frames_each(commits(0, 1)), 1: frames_each(commits(10, 12))}
    return Log(name, [it for frame in frames[counted] for it in frame.commands], slots, frames)


def largest_payload():
    """A payload of the greatest length fills its segment."""
    commands = commits_of_length(PAYLOAD_MAX)
    return Log("a payload of the greatest length", commands, [Root(1), None], {0: [frame_of(*commands)]})


def full_segment():
    """One frame of three sectors and 1,022 of two, so that the closed gate is at the greatest position."""
    commands = [commit("g", 0, 0, b"m" * 900), *commits(1, 1 + (GATE_POSITION_MAX - 3) // 2)]
    return Log("a gate at the last position", commands, [Root(1), None], {0: frames_each(commands)})


def unwritten_bytes():
    """Bytes that are not looked at: after a gate's first byte, after a payload, after a root's ids."""
    first = SECTOR * first_sector_of(0)
    frame = frame_of(commit("g", 0, 1))
    patches = {1: b"\xff" * 511, SECTOR + 26: b"\xff" * 486, first + 1: b"\xff" * 511,
               first + SECTOR + len(frame.body()): b"\xff" * (SECTOR - len(frame.body()))}
    return Log("bytes that are not looked at", frame.commands, [Root(1), None], {0: [frame]}, patches=patches)


def gates_of_other_bytes():
    """A gate whose first byte is not 1 is closed."""
    frames = frames_each(commits(0, 3))
    third = SECTOR * (first_sector_of(0) + 4)
    patches = {third: b"\x02", 2 * SECTOR: b"\xff" * SECTOR, 3 * SECTOR: b"\xff" * SECTOR}
    return Log("gates that are closed though not zero", commits(0, 2), [Root(1), None], {0: frames}, patches=patches)


def logs():
    last = Root(NUMBER_MAX, NUMBER_MAX - 2)
    return [
        Log("an empty log", [], [Root(1), None], {}),
        Log("each kind of record, in one frame", EVERY_KIND, [Root(1), None], {0: [frame_of(*EVERY_KIND)]}),
        Log("each kind of record, in frames", EVERY_KIND, [None, Root(1)], {0: frames_each(EVERY_KIND)}),
        Log("the greatest and the least fields", GREATEST, [Root(1), None], {0: frames_each(GREATEST)}),
        three_versions(), several_segments(),
        two_roots("the greater epoch in slot 0", [Root(8, tails=(1,)), Root(7, tails=(0,))], counted=1),
        two_roots("the greater epoch in slot 1", [Root(8, tails=(1,)), Root(9, tails=(0,))], counted=0),
        two_roots("epochs that differ in one byte", [Root(255, tails=(0,)), Root(256, tails=(1,))], counted=1),
        Log("a base without a segment", commits(0, 2), [Root(2, 5, (), (1,)), None], {1: frames_each(commits(0, 2))}, number=7),
        Log("the last command number and epoch", commits(0, 2), [None, last], {0: frames_each(commits(0, 2))}, number=NUMBER_MAX),
        largest_payload(), full_segment(), unwritten_bytes(), gates_of_other_bytes(),
        Log("a disk of more than 200 segments", commits(0, 1), [Root(1, tails=(199,)), None], {199: frames_each(commits(0, 1))},
            201),
        Log("200 tails", commits(0, 200), [Root(1, tails=tuple(range(200))), None],
            {it: frames_each(commits(it, it + 1)) for it in range(200)}, 200),
    ]


def check(report, programs, folder):
    for log in logs():
        with report.check(log.name):
            check_load(report, programs.server, os.path.join(folder, "log"), log)


def read(path):
    with open(path, "rb") as file:
        return file.read()


def check_load(report, program, path, log):
    log.write(path)
    before, state = read(path), state_of(log.commands)
    number = log.number or len(log.commands)
    # No tick comes, so no session ends on a slow machine.
    with Server(program, "--disk", path, "--compact-free", "0", "--tick-ms", "60000", "--connections", "1") as server:
        report.equal(f"{log.name}: the numbers", server.load(), (number, *state.numbers()))
        with server.connect() as client:
            if number < NUMBER_MAX:
                check_state(report, log.name, client, state)
            else:
                refusal = "ERR 15 COORDINATOR_NOT_AVAILABLE"
                report.equal(f"{log.name}: no number is left", client.ask("FETCH g t:0"), refusal)
        report.equal(f"{log.name}: the end", server.end(), (0, [f"CLOSED {number}"]))
    report.holds(f"{log.name}: the file is as it was", read(path) == before, "it differs")


def check_state(report, name, client, state):
    groups = sorted({*state.records, *state.offsets, "none"})
    client.send(*(f"DESCRIBE {it}" for it in groups))
    found = client.replies(len(groups))
    report.equal(f"{name}: DESCRIBE", found, [*map(state.described, groups)])
    for group in groups:
        partitions = [*state.offsets.get(group, {("t", 0): None})]
        for begin in range(0, len(partitions), PARTITIONS_MAX):
            part = partitions[begin:begin + PARTITIONS_MAX]
            words = " ".join(f"{topic}:{partition}" for topic, partition in part)
            report.equal(f"{name}: FETCH", client.ask(f"FETCH {group} {words}"), state.fetched(group, part))
