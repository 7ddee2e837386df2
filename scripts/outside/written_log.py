"""What the server writes: the requests of clients are read back from the file, command by command and byte by byte."""
import os
import time
from dataclasses import replace

from outside.folding import state_of
from outside.logfile import BadLog, LogFile, Root, frame_of, write_log
from outside.records import (METADATA_MAX, PARTITIONS_MAX, Assigned, Committed, Deleted, Dropped, Emptied, Entry, Expired,
                             Member, Replaced, without_moment)
from outside.serving import WAIT_SECONDS, Server

SEGMENTS = 8
# Three commits of this kind fit a segment; five begin a second one.
PARTITIONS, LARGE_COMMITS = 64, 5
LARGE_METADATA = b"m" * METADATA_MAX
# No member expires, however slow the machine is.
SESSION, REBALANCE = 1_800_000, 1_700_000
TIMEOUTS = f"{SESSION} {REBALANCE} consumer"


def check(report, programs, folder):
    path = os.path.join(folder, "written")
    with report.check("what the server writes"):
        commands = check_requests(report, programs.server, path)
        check_compaction(report, programs.server, path, commands)
    with report.check("what expires"):
        check_expiry(report, programs.server, os.path.join(folder, "expiry"))
    with report.check("commits sent ahead share frames"):
        check_shared_frames(report, programs.server, os.path.join(folder, "shared"))


def check_requests(report, program, path):
    """Serves each kind of request that is stored. Returns the commands of the file, which have their moments."""
    begun = millis_since_1970()
    words = ["--disk", path, "--format", "--segments", str(SEGMENTS), "--compact-free", "0", "--connections", "3"]
    with Server(program, *words) as server:
        report.equal("a formatted file loads empty", server.load(), (0, 0, 0))
        report.equal("a format has these bytes", LogFile.read(path).slots(), [Root(1), None])
        with server.connect() as first, server.connect() as second, server.connect() as third:
            commands = [*dynamic_members(first, second), *static_member(first, second), *emptied_group(first),
                        *commits_and_delete(first, commands_so_far=2), *drops(first), *large_commits(first)]
            check_replies(report, third, state_of(commands))
        report.equal("the server ends after its connections", server.end(), (0, [f"CLOSED {len(commands)}"]))
    log = LogFile.read(path)
    check_file(report, log, commands)
    # Both clocks are read in whole milliseconds.
    moments = [it.moment for it in log.tail_commands if isinstance(it, (Committed, Emptied))]
    is_present = all(it is not None and begun <= it <= millis_since_1970() + 1 for it in moments)
    report.holds("moments are milliseconds since 1970", moments and is_present, f"{moments}")
    report.holds("moments do not go back", moments == sorted(moments), f"{moments}")
    return log.tail_commands


def millis_since_1970():
    return time.time_ns() // 1_000_000


def joined(reply):
    """Returns generation, leader, member and the listed members of a JOINED line."""
    words = reply.split()
    if words[0] != "JOINED" or words[2:4] != ["consumer", "range"]:
        raise RuntimeError(f"a JOIN was answered {reply}")
    return int(words[1]), words[4], words[5], words[6:]


def wanted(found, expected):
    if found != expected:
        raise RuntimeError(f"found {found}, wanted {expected}")


def dynamic_members(first, second):
    """One member alone, then two."""
    generation, leader, one, listed = joined(first.ask(f"JOIN dyn - - c1 {TIMEOUTS} range=x01 other=x02"))
    wanted((generation, leader, listed), (1, one, [f"{one}:-:x01"]))
    wanted(first.ask(f"SYNC dyn 1 {one} - {one}=xaa"), "SYNCED xaa")
    second.send(f"JOIN dyn - - c2 {TIMEOUTS} range=x03")
    until = time.monotonic() + WAIT_SECONDS
    while (reply := first.ask(f"BEAT dyn 1 {one} -")) == "OK" and time.monotonic() < until:
        pass
    wanted(reply, "ERR 27 REBALANCE_IN_PROGRESS")
    generation, leader, _, listed = joined(first.ask(f"JOIN dyn {one} - c1 {TIMEOUTS} range=x01 other=x02"))
    follower_generation, follower_leader, two, follower_listed = joined(second.reply())
    wanted((generation, leader, listed), (2, one, [f"{one}:-:x01", f"{two}:-:x03"]))
    wanted((follower_generation, follower_leader, follower_listed), (2, one, []))
    second.send(f"SYNC dyn 2 {two} -")
    wanted(first.ask(f"SYNC dyn 2 {one} - {one}=xbb {two}=xcc"), "SYNCED xbb")
    wanted(second.reply(), "SYNCED xcc")
    alone = Member(one, "", "c1", SESSION, REBALANCE, b"\x01", b"\xaa")
    both = (Member(one, "", "c1", SESSION, REBALANCE, b"\x01", b"\xbb"),
            Member(two, "", "c2", SESSION, REBALANCE, b"\x03", b"\xcc"))
    return [Assigned("dyn", 1, "consumer", "range", one, (alone,)), Assigned("dyn", 2, "consumer", "range", one, both)]


def static_member(first, second):
    """A member with an instance, and its replacement, which keeps the generation and the assignment."""
    _, _, old, _ = joined(first.ask(f"JOIN st - i1 c3 {TIMEOUTS} range=x04"))
    wanted(first.ask(f"SYNC st 1 {old} i1 {old}=xdd"), "SYNCED xdd")
    generation, leader, new, listed = joined(second.ask("JOIN st - i1 c4 1700000 0 consumer range=x05"))
    wanted((generation, leader, listed, new != old), (1, old, [], True))
    member = Member(old, "i1", "c3", SESSION, REBALANCE, b"\x04", b"\xdd")
    return [Assigned("st", 1, "consumer", "range", old, (member,)),
            Replaced("st", Member(new, "i1", "c4", 1_700_000, 0, b"\x05", b"\xdd"))]


def emptied_group(client):
    _, _, member, _ = joined(client.ask(f"JOIN em - - c5 {TIMEOUTS} range=x"))
    wanted(client.ask(f"LEAVE em {member} -"), "OK")
    return [Emptied("em", 2, "consumer")]


def commits_and_delete(client, commands_so_far):
    member = client.ask("DESCRIBE dyn").split()[5].split(":")[0]
    wanted(client.ask(f"COMMIT dyn {commands_so_far} {member} - t:0:42:x6d t:1:7:x"), "OK")
    wanted(client.ask("COMMIT solo -1 - - u:3:9:x"), "OK")
    wanted(client.ask("COMMIT gone -1 - - u:0:1:x00"), "OK")
    wanted(client.ask("DELETE gone"), "OK")
    return [Committed("dyn", (Entry("t", 0, 42, b"m"), Entry("t", 1, 7))), Committed("solo", (Entry("u", 3, 9),)),
            Committed("gone", (Entry("u", 0, 1, b"\0"),)), Deleted("gone")]


def drops(client):
    """The partitions that have an offset are stored, in the order of the line. Where none has one nothing is stored."""
    numbers = range(PARTITIONS_MAX)
    wanted(client.ask(f"COMMIT wide -1 - - {' '.join(f't:{it}:{it}:x' for it in numbers)}"), "OK")
    wanted(client.ask(f"DROP wide t:7 none:0 t:{PARTITIONS_MAX} t:5"), "OK")
    wanted(client.ask("DROP wide none:0 t:5"), "OK")
    wanted(client.ask("COMMIT bare -1 - - t:0:1:x"), "OK")
    wanted(client.ask("DROP bare t:0"), "OK")
    wanted(client.ask("DROP bare t:0"), "ERR 69 GROUP_ID_NOT_FOUND")
    wanted(client.ask("DROP st t:0"), "ERR 68 NON_EMPTY_GROUP")
    wanted(client.ask("DROP em t:0"), "OK")
    return [Committed("wide", tuple(Entry("t", it, it) for it in numbers)), Dropped("wide", (("t", 7), ("t", 5))),
            Committed("bare", (Entry("t", 0, 1),)), Dropped("bare", (("t", 0),))]


def large_commits(client):
    commits = []
    for offset in range(LARGE_COMMITS):
        entries = tuple(Entry("t", it, offset, LARGE_METADATA) for it in range(PARTITIONS))
        words = (f"t:{it.partition}:{it.offset}:x{it.metadata.hex()}" for it in entries)
        wanted(client.ask(f"COMMIT big -1 - - {' '.join(words)}"), "OK")
        commits.append(Committed("big", entries))
    return commits


def check_replies(report, client, state):
    """FETCH and DESCRIBE show the state."""
    for group in ("dyn", "st", "em", "solo", "gone", "wide", "bare", "big"):
        partitions = [*state.offsets.get(group, {}), ("none", 0)][:PARTITIONS_MAX]
        words = " ".join(f"{topic}:{partition}" for topic, partition in partitions)
        report.equal(f"FETCH of {group}", client.ask(f"FETCH {group} {words}"), state.fetched(group, partitions))
        report.equal(f"DESCRIBE of {group}", client.ask(f"DESCRIBE {group}"), state.described(group))


def check_file(report, log, commands):
    """One roll: the second segment is the free one of the least id, and its root went to the other slot."""
    report.equal("the roots after a roll", log.slots(), [Root(1), Root(2, tails=(0, 1))])
    report.equal("the commands in the tails", [*map(without_moment, log.tail_commands)], commands)
    report.equal("the commands of the first tail", len(LogFile.frames_of(log, 0)), len(commands) - 2)
    report.holds("free segments are as they were", all(map(log.is_untouched, log.free_segments())))


def read_when(path, is_wanted):
    """Reads the file until the log is as wanted. The server may be writing meanwhile."""
    until = time.monotonic() + WAIT_SECONDS
    while time.monotonic() < until:
        try:
            log = LogFile.read(path)
            if is_wanted(log):
                return log
        except BadLog:
            pass
        time.sleep(0.02)
    raise TimeoutError("the file never was as wanted")


def check_compaction(report, program, path, commands):
    """The server compacts the log that it loads; a commit comes after the switch."""
    state = state_of(commands)
    words = ["--disk", path, "--compact-free", str(SEGMENTS), "--tick-ms", "10", "--connections", "1"]
    with Server(program, *words) as server:
        report.equal("the numbers of a load", server.load(), (len(commands), *state.numbers()))
        with server.connect() as client:
            read_when(path, lambda log: log.root.base)
            wanted(client.ask("COMMIT solo -1 - - u:3:10:x"), "OK")
            later = Committed("solo", (Entry("u", 3, 10),))
            check_replies(report, client, state_of([*commands, later]))
        report.equal("the server ends after a compaction", server.end(), (0, [f"CLOSED {len(commands) + 1}"]))
    log = LogFile.read(path)
    found = state_of([*log.base_commands, *log.tail_commands])
    moment = found.offsets["solo"]["u", 3][1]
    report.holds("a later commit has a later moment", moment > max_moment(commands), f"{moment}")
    later = replace(later, moment=moment)
    report.equal("the state of base and tails", found, state_of([*commands, later]))
    report.equal("the snapshot in the base", log.base_commands, state_of(found_before(log, commands, later)).snapshot())
    report.equal("the number of the last command", log.number, len(commands) + 1)


def max_moment(commands):
    return max(it.moment for it in commands if isinstance(it, (Committed, Emptied)))


def found_before(log, commands, later):
    """Returns the commands that the base replaces."""
    return [*commands, later][:log.root.base_number]


def check_expiry(report, program, path):
    """The first tick takes a group that had members with its offsets, and single offsets of other groups."""
    present, left = millis_since_1970(), "GROUPS mixed:-:Empty unknown:-:Empty"
    commands = [Emptied("empty", 3, "k", 0), Committed("empty", (Entry("t", 0, 1),), present),
                Committed("mixed", (Entry("t", 0, 1), Entry("t", 1, 1)), 0), Committed("mixed", (Entry("t", 1, 2),), present),
                Committed("old", (Entry("u", 0, 1), Entry("t", 1, 1)), 0), Committed("unknown", (Entry("t", 0, 1),))]
    expired = [Deleted("empty"), Expired("mixed", (("t", 0),)), Expired("old", (("t", 1), ("u", 0)))]
    write_log(path, 2, [Root(1), None], {0: [frame_of(*commands)]})
    words = ["--disk", path, "--compact-free", "0", "--tick-ms", "10", "--connections", "1"]
    with Server(program, *words) as server:
        report.equal("the numbers of a load before an expiry", server.load(), (len(commands), *state_of(commands).numbers()))
        with server.connect() as client:
            until = time.monotonic() + WAIT_SECONDS
            while (reply := client.ask("LIST")) != left and time.monotonic() < until:
                time.sleep(0.01)
            report.equal("the groups that do not expire", reply, left)
            report.equal("the offsets that do not expire", client.ask("FETCH mixed t:0 t:1"), "FETCHED t:0:-1:x t:1:2:x")
        report.equal("the server ends after an expiry", server.end(), (0, [f"CLOSED {len(commands) + len(expired)}"]))
    report.equal("what a tick takes", LogFile.read(path).tail_commands, [*commands, *expired])


def check_shared_frames(report, program, path):
    """200 commits are sent ahead; they are stored in far fewer frames."""
    commits = 200
    with Server(program, "--disk", path, "--format", "--segments", "2", "--connections", "1") as server:
        server.load()
        with server.connect() as client:
            client.send(*(f"COMMIT g -1 - - t:0:{it}:x" for it in range(commits)))
            report.equal("commits sent ahead are answered", client.replies(commits), ["OK"] * commits)
        report.equal("the number of commits sent ahead", server.end(), (0, [f"CLOSED {commits}"]))
    log = LogFile.read(path)
    frames = log.frames_of(0)
    report.equal("commits sent ahead are stored in order", [*map(without_moment, log.tail_commands)],
                 [Committed("g", (Entry("t", 0, it),)) for it in range(commits)])
    report.holds("commits sent ahead share frames", len(frames) <= commits // 4, f"{len(frames)} frames")
