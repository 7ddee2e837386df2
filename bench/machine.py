"""Events of the group machine, by scripts through cg_sim, and the memory of a state, in cg_server."""
import os
import statistics
from collections import defaultdict
from dataclasses import dataclass
from typing import Callable

from . import log_file
from .fault import Fault
from .groups import Group, Population, assignment, flushed, member_id, metadata, subscription
from .processes import has_room
from .report import Table, number, ratio
from .script import ScriptProgram
from .servers import Coordinator
from .usage import memory_bytes

SIZES = [8, 64]
EVENTS_A_GROUP = 16
PAIRS_A_GROUP = 8
SEGMENTS = 200
ROUNDS = {8: 5, 64: 3}
ROOM_MIB = 1024
REFUSED = b" ERR 24 INVALID_GROUP_ID\n"
# The offsets of a group that only commits of non-members made, and the ticks over such groups.
OFFSETS_A_GROUP = 64
OFFSET_TICKS = 65_536
OFFSET_ROUNDS = 3
# JOINs that wait for the first member of their group, and the COMMITs beside them.
PARKED = 10_000
PARKED_A_GROUP = 63
PARKED_COMMITS = 65_536
PARKED_ROUNDS = 5


@dataclass(frozen=True)
class Event:
    """A kind of event: its lines in groups or, where `refused`, as many lines that are refused at once; and what is printed.

    `replies` has what each event prints. Where it is empty, the lines of the comparison print nothing either.
    """

    name: str
    lines: Callable[[Population, bool], list[str]]
    count: Callable[[Population], int]
    replies: list[bytes]


def _many(people):
    return EVENTS_A_GROUP * people.groups


def _target(group, refused):
    return "-" if refused else group.name


def _beats(people, refused):
    return [f"s{group.first_session + index} BEAT {_target(group, refused)} {group.generation} {group.members[index]} -"
            for group, index in people.some(_many(people))]


def _commits(people, refused):
    return [f"s{group.first_session + index} COMMIT {_target(group, refused)} {group.generation} {group.members[index]} -"
            f" t:{index}:{at}:x{metadata(group.name, index).hex()}"
            for at, (group, index) in enumerate(people.some(_many(people)))]


def _rebalanced(people):
    return people.all[:PAIRS_A_GROUP * people.groups // people.size]


def _rebalances(people, refused):
    lines = []
    for group in _rebalanced(people):
        kept = group.generation
        lines += group.rebalance(_target(group, refused))
        if refused:
            group.generation = kept
    return lines


def _leaves(people, refused):
    return [f"s{group.first_session + index} LEAVE {_target(group, refused)} {member} -"
            for group in people.all for index, member in enumerate(group.members)]


def _deletes(people, refused):
    return [f"s{group.first_session} DELETE {_target(group, refused)}" for group in people.all]


def _ticks(people, refused):
    first = people.moment
    people.moment += _many(people)
    return [f"{'at' if refused else 'tick'} {it}" for it in range(first, people.moment)]


def _all_members(people):
    return people.groups * people.size


# In the order of a round: the last two take the groups away.
KINDS = [
    Event("BEAT", _beats, _many, [b" OK\n"]),
    Event("COMMIT", _commits, _many, [b" OK\n"]),
    Event("JOIN with SYNC", _rebalances, lambda people: len(_rebalanced(people)) * people.size, [b" JOINED ", b" SYNCED "]),
    Event("Tick, nothing due", _ticks, _many, []),
    Event("LEAVE", _leaves, _all_members, [b" OK\n"]),
    Event("DELETE", _deletes, lambda people: people.groups, [b" OK\n"]),
]


def _check(event, printed, replies, count):
    """Checks that each line was answered as it should be, and that nothing else was printed."""
    found = [printed.count(reply) for reply in replies]
    if any(it != count for it in found) or printed.count(b"\n") != count * len(replies):
        first = next((it for it in printed.split(b"\n") if it and not any(reply in it + b"\n" for reply in replies)), b"nothing")
        raise Fault(f"{event}: {found} good replies of {count}; an unexpected line is {first[:200].decode()}")


def _block(program, event, people, refused):
    """Plays a block of an event. Returns the processor seconds that it took."""
    lines = event.lines(people, refused)
    seconds, printed = program.play(flushed(lines))
    replies = [REFUSED] * bool(event.replies) if refused else event.replies
    _check(event.name, printed, replies, len(lines) if refused else event.count(people))
    return seconds


def _round(program, people, times):
    """Makes the groups, measures each event, and takes the groups away."""
    made = people.make()
    _, printed = program.play(flushed(made))
    stable = printed.count(b" SYNCED "), printed.count(b" OK\n")
    if stable != (people.groups, people.groups):
        raise Fault(f"of {people.groups} groups {stable[0]} were made, and {stable[1]} have offsets")
    for event in KINDS:
        for refused in (True, False):
            times[event.name, refused].append(_block(program, event, people, refused))
    _, printed = program.play(["compact"])
    if printed:
        raise Fault(f"a compaction printed {printed.decode().strip()}")


def _row(name, groups, members, count, ours, refused):
    """Returns the row of an event, from the seconds of its blocks and of those of the comparison, for as many lines."""
    middle, base = statistics.median(ours), statistics.median(refused)
    share = statistics.median(other / own for own, other in zip(ours, refused))
    print(f"  {name}, {members} members: {count / middle:,.0f}/s", flush=True)
    return [name, number(groups), str(members), number(count / middle), number(count / base), ratio(share, 1),
            number((middle - base) / count * 1e6, 2)]


def _events(settings, folder, size):
    """Returns the rows of all events in groups of this size."""
    people = Population(settings.groups, size)
    times = defaultdict(list)
    with ScriptProgram(settings.sim, folder, SEGMENTS) as program:
        for _ in range(ROUNDS[size]):
            _round(program, people, times)
    return [_row(event.name, people.groups, size, event.count(people), times[event.name, False], times[event.name, True])
            for event in KINDS]


def _offset_ticks(settings, folder):
    """Returns the row of ticks over groups that only commits of non-members made, of which no offset is due."""
    offsets = " ".join(f"t:{it}:1:x" for it in range(OFFSETS_A_GROUP))
    moment, times = 0, defaultdict(list)
    with ScriptProgram(settings.sim, folder, SEGMENTS) as program:
        _, printed = program.play(flushed([f"s1 COMMIT g{it:04} -1 - - {offsets}" for it in range(settings.groups)]))
        if printed.count(b" OK\n") != settings.groups:
            raise Fault(f"of {settings.groups} commits {printed.count(b' OK')} were acknowledged")
        for _ in range(OFFSET_ROUNDS):
            for word in "tick", "at":
                seconds, printed = program.play([f"{word} {it}" for it in range(moment, moment + OFFSET_TICKS)])
                if printed:
                    raise Fault(f"a line {word} printed {printed.decode().strip()}")
                moment += OFFSET_TICKS
                times[word].append(seconds / OFFSET_TICKS)
        _, printed = program.play([f"s1 FETCH g0000 t:0 t:{OFFSETS_A_GROUP - 1}", "flush"])
        if printed != f"s1 FETCHED t:0:1:x t:{OFFSETS_A_GROUP - 1}:1:x\n".encode():
            raise Fault(f"after the ticks there is {printed.decode().strip()}")
    return _row(f"Tick, none of {OFFSETS_A_GROUP} offsets due", settings.groups, 0, 1, times["tick"], times["at"])


def _waiting_joins():
    """Returns JOINs of new groups: in each the first member is answered at once, and the others wait for it to join again."""
    lines = []
    while len(lines) < PARKED + PARKED // PARKED_A_GROUP + 1:
        at = len(lines)
        group = Group(at // (PARKED_A_GROUP + 1), [], at)
        lines.append(group.join(0, group.name, "-"))
    return lines


def _commits_of_no_member(program):
    """Plays COMMITs to a group without members. Returns the processor seconds that one took."""
    lines = [f"s0 COMMIT apart -1 - - t:0:{it}:x" for it in range(PARKED_COMMITS)]
    seconds, printed = program.play(flushed(lines))
    if printed.count(b"s0 OK\n") != len(lines) or printed.count(b"\n") != len(lines):
        raise Fault(f"of {len(lines)} commits {printed.count(b' OK')} were acknowledged")
    return seconds


def _commits_beside_joins(settings, folder):
    """Returns the row of COMMITs beside parked JOINs: what they are compared with are the same lines before a JOIN is parked."""
    joins, times = _waiting_joins(), defaultdict(list)
    with ScriptProgram(settings.sim, folder, SEGMENTS) as program:
        # What the program prints when it has loaded.
        program.play(["flush"])
        for _ in range(PARKED_ROUNDS):
            times["none"].append(_commits_of_no_member(program))
        _, printed = program.play(flushed(joins))
        answered = len(joins) - PARKED
        if printed.count(b" JOINED ") != answered or printed.count(b"\n") != answered:
            raise Fault(f"of {len(joins)} JOINs {printed.count(b' JOINED ')} were answered, and not {answered}")
        for _ in range(PARKED_ROUNDS):
            times["parked"].append(_commits_of_no_member(program))
    return _row(f"COMMIT beside {number(PARKED)} parked JOINs", answered, PARKED_A_GROUP + 1, PARKED_COMMITS, times["parked"], times["none"])


def _state(groups, size, differs):
    """Yields the commands of a state."""
    for at in range(groups):
        name = f"g{at:04}"
        members = [log_file.Member(member_id(at * size + it), "c", subscription(name, it, differs), assignment(name, it))
                   for it in range(size)]
        yield log_file.assigned(name, 2, "range", members)
        yield log_file.committed(name, [log_file.Offset(it, 1, metadata(name, it)) for it in range(size)])


def _state_bytes(groups, size):
    """Counts the bytes of the ids, subscriptions and assignments of members, and of the numbers and metadata of offsets."""
    a_member = len(member_id(1)) + len(subscription("g0000", 0)) + len(assignment("g0000", 0))
    an_offset = 4 + 8 + len(metadata("g0000", 0))
    return groups * size * (a_member + an_offset)


def _resident(settings, folder, path, commands):
    """Returns the memory of a server that has loaded a log, and checks that it found all commands."""
    with Coordinator(settings.server, folder, ["--disk", path, "--compact-free", "0"]) as server:
        if server.loaded[0] != commands:
            raise Fault(f"{server.loaded[0]} commands of {commands} were loaded")
        return memory_bytes(server.pid, "VmRSS")


def _memory(settings, folder, size, differs, empty):
    path = os.path.join(folder, "state")
    log_file.write_log(path, SEGMENTS, log_file.segments_of(log_file.frames_of(_state(settings.groups, size, differs))))
    used = _resident(settings, folder, path, 2 * settings.groups) - empty
    state = _state_bytes(settings.groups, size)
    return [number(settings.groups), str(size), "differ" if differs else "the same in a group", number(state), number(used),
            ratio(used, state), number(used / settings.groups / size)]


EVENT_COLUMNS = ["Event", "|Groups", "|Members", "|Events/s", "|Refused/s", "|Ratio", "|µs beyond the refusal"]
MEMORY_COLUMNS = ["|Groups", "|Members", "Subscriptions", "|Bytes of the state", "|Bytes of the process", "|Ratio",
                  "|Bytes a member"]


def measure(settings, folder):
    """Returns the tables of this part."""
    has_room(folder, ROOM_MIB)
    events = [row for size in SIZES if settings.wants(f"{size} members") for row in _events(settings, folder, size)]
    if settings.wants(f"{OFFSETS_A_GROUP} offsets"):
        events.append(_offset_ticks(settings, folder))
    if settings.wants("parked JOINs"):
        events.append(_commits_beside_joins(settings, folder))
    path = os.path.join(folder, "empty")
    log_file.write_log(path, SEGMENTS, [])
    empty = _resident(settings, folder, path, 0)
    states = [(8, False), (64, False), (64, True)]
    memory = [_memory(settings, folder, size, differs, empty) for size, differs in states if settings.wants(f"{size} members")]
    return ["Look at `Ratio`: 1 is as fast as lines that are refused at once.", Table(EVENT_COLUMNS, events).markdown(),
            "Look at `Ratio`: 1 is no byte beyond those of the state.", Table(MEMORY_COLUMNS, memory).markdown()]
