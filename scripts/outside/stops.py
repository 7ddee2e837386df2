"""Stops at every device call: scripts with `fuse K` or `once K`, for each K until a run meets no failure, with both crashes.

What a run must have after the load follows from its script: the offsets that its first N commands make, N the number that the
load tells, and at least those commands for which an `OK` is printed.
"""
import os
from concurrent.futures import ThreadPoolExecutor
from dataclasses import dataclass

from outside.scripting import run_script

FUSES, CRASHES = ("fuse", "once"), ("keep", "lose")
# A run that still fails after this many calls is a failure of the check.
CALLS_MAX = 400
# A segment has room for 1,023 frames of one small commit, which take two sectors each: so many leave room for two.
FILL = 1_021
PARTITIONS = 3


@dataclass(frozen=True)
class Command:
    """The offset that partitions have after a command, 0 for none. A command of a tick is answered by nothing."""
    partitions: tuple
    offset: int
    is_answered: bool = True


class Played:
    """The lines of a script, and the commands that they make in a run without failures.

    The line `commit P` stands for the next commit of partition P, whose offset counts these commits; `drop P` for a DROP of its
    offset; `expire M P ..` for a tick at moment M, at which the offsets of these partitions expire. What commits and drops a
    partition is sent by a session of its own.
    """

    def __init__(self, lines):
        self.lines, self.commands, self.sent = [], [], [0] * PARTITIONS
        for line in lines:
            self.lines.append(self._played(*line.split(" ")))

    def _played(self, word, *rest):
        if word == "commit":
            partition = int(rest[0])
            self.sent[partition] += 1
            self.commands.append(Command((partition,), self.sent[partition]))
            return f"s{session_of(partition)} COMMIT g -1 - - t:{partition}:{self.sent[partition]}:x"
        if word == "drop":
            partition = int(rest[0])
            self.commands.append(Command((partition,), 0))
            return f"s{session_of(partition)} DROP g t:{partition}"
        if word == "expire":
            self.commands.append(Command(tuple(int(it) for it in rest[1:]), 0, is_answered=False))
            return f"tick {rest[0]}"
        return " ".join([word, *rest])

    def offsets_after(self, commands):
        """Returns the offset of each partition after the first commands, 0 for none."""
        offsets = [0] * PARTITIONS
        for command in self.commands[:commands]:
            for it in command.partitions:
                offsets[it] = command.offset
        return offsets

    def acknowledged(self, printed):
        """Returns the numbers of the commands for which an `OK` was printed."""
        left, numbers = [printed.count(f"s{session_of(it)} OK") for it in range(PARTITIONS)], []
        for number, command in enumerate(self.commands, 1):
            if command.is_answered and left[command.partitions[0]]:
                left[command.partitions[0]] -= 1
                numbers.append(number)
        return numbers


def session_of(partition):
    return 100 + partition


@dataclass(frozen=True)
class Scenario:
    """Lines before the fuse and after it, as those of `Played`."""
    name: str
    before: list
    after: list
    segments: int = 1

    def play(self, fuse, calls, crash):
        fetch = " ".join(f"t:{it}" for it in range(PARTITIONS))
        return Played([*self.before, f"{fuse} {calls}", *self.after, "flush", f"stop {crash}", "load", f"s9 FETCH g {fetch}"])


def commit(partition=0):
    return [f"commit {partition}", "flush"]


THREE = ["commit 0", "commit 1", "commit 2"]
PARTS = ["take", "append", "settle"]
# Commits come between the parts of a compaction.
COMPACTION = ["compact start", *commit(), "compact read", *commit(1), "compact read", "compact read", "compact write", *commit(),
              "compact write", "compact switch", *commit(2)]
SECOND_COMPACTION = ["compact start", "compact read", *commit(1), *["compact read"] * 5, "compact write", *commit(2),
                     "compact write", "compact switch", *commit(0)]

RETENTION_MS = 604_800_000
EXPIRE_0, EXPIRE_1 = f"expire {RETENTION_MS} 0", f"expire {RETENTION_MS + 1} 1"
EXPIRE_2, EXPIRE_0_AGAIN = f"expire {2 * RETENTION_MS} 2", f"expire {2 * RETENTION_MS + 1} 0"

ROLL = Scenario("a commit that rolls", commit() * FILL, [*commit(1), *THREE, "flush", *commit(1), *commit(2)], 2)
SCENARIOS = [
    Scenario("a commit", [], [*commit()]),
    Scenario("a commit that waits", ["commit 0"], []),
    Scenario("three commits in one batch", [*commit()], THREE),
    Scenario("commits in batches", [*commit()], [*THREE, *PARTS, *commit(1), "commit 0", *PARTS]),
    Scenario("a commit while a batch is in flight", [], ["commit 0", "take", "commit 1", "append", "commit 2", "settle"]),
    ROLL,
    Scenario("a compaction beside commits", [*commit(), *commit(2)], COMPACTION, 5),
    Scenario("two compactions", [*commit(), *commit(1), *COMPACTION], SECOND_COMPACTION, 5),
    Scenario("a compaction beside commits that roll", [*commit(), "compact start", *commit(1) * FILL],
             ["compact read", "compact read", *commit(1), *commit(2), *commit(0), "compact write", "compact write",
              "compact switch", *commit(2)], 6),
    Scenario("drops", [*commit(), *commit(1)], ["drop 0", "flush", *commit(), "drop 1", "flush", "drop 0", "flush", *commit(2)]),
    Scenario("drops and commits in one batch", [*commit()], ["drop 0", "commit 1", "commit 2", "drop 1", *PARTS, *commit(1)]),
    Scenario("a drop while a batch is in flight", [*commit(2)], ["commit 0", "take", "drop 0", "append", "drop 2", "settle"]),
    Scenario("offsets that expire", [*commit(), "at 1", *commit(1)],
             [EXPIRE_0, "flush", *commit(2), EXPIRE_1, *commit(), EXPIRE_2, "flush", EXPIRE_0_AGAIN, "flush"]),
    Scenario("offsets that expire in one command", [*commit(), *commit(1), "at 1", *commit(2)],
             [f"expire {RETENTION_MS} 0 1", "commit 1", *PARTS, "drop 1", f"expire {RETENTION_MS + 1} 2", *PARTS]),
    Scenario("a tick while a batch is in flight", [*commit()],
             ["at 1", "commit 1", "take", EXPIRE_0, "append", "commit 2", "settle"]),
    Scenario("a compaction beside drops and expiry", [*commit(), "at 1", *commit(1), *commit(2)],
             ["compact start", "drop 2", "flush", "compact read", EXPIRE_0, "flush", *["compact read"] * 3, "compact write",
              EXPIRE_1, "compact write", "compact switch", "flush", *commit(2)], 5),
    Scenario("a compaction of what is gone", [*commit(), *commit(1), "drop 0", f"expire {RETENTION_MS} 1", "flush"],
             ["compact start", *["compact read"] * 4, "compact write", "compact switch", *commit()], 5),
]


def check(report, programs, folder):
    short = run_script(programs.sim, ROLL.play("fuse", CALLS_MAX, "keep").lines, "--segments", "1")
    report.holds(f"{ROLL.name}: one segment has no room", "FAULT Full" in short.lines, f"{short.lines[-5:]}")
    runs = [(scenario, fuse, crash) for scenario in SCENARIOS for fuse in FUSES for crash in CRASHES]
    with ThreadPoolExecutor(os.cpu_count()) as pool:
        for (scenario, fuse, crash), problem in zip(runs, pool.map(lambda it: stop_at_each_call(programs.sim, *it), runs)):
            report.holds(f"{scenario.name}, {fuse}, stop {crash}", not problem, problem)


def stop_at_each_call(program, scenario, fuse, crash):
    """Returns what is wrong with the first run that is, or None."""
    for calls in range(CALLS_MAX):
        played = scenario.play(fuse, calls, crash)
        ran = run_script(program, played.lines, "--segments", str(scenario.segments))
        problem = problem_of(ran, played)
        if problem:
            return f"after {calls} calls: {problem}"
        if "FAULT Device" not in ran.lines:
            others = [line for line in ran.lines if line.startswith("FAULT ")]
            return f"without a failure: {others}" if others or not calls else None
    return f"each run met a failure up to {calls} calls"


def problem_of(ran, played):
    """Compares what was found after the load with what was acknowledged and sent."""
    if ran.status or len(ran.lines) < 3:
        return f"status {ran.status}, {ran.lines[-3:]}"
    *told, loaded, fetched = ran.lines
    if not loaded.startswith("LOADED ") or not fetched.startswith("s9 FETCHED "):
        return f"{loaded}, {fetched}"
    commands, records, offsets = (int(word) for word in loaded.split()[1:])
    acknowledged, most = played.acknowledged(told), len(played.commands)
    if not max(acknowledged, default=0) <= commands <= most:
        return f"{loaded}, with the commands {acknowledged} acknowledged and {most} sent"
    # An offset counts the commits of its partition.
    found, wanted = [max(int(word.split(":")[2]), 0) for word in fetched.split()[2:]], played.offsets_after(commands)
    if found != wanted or (records, offsets) != (0, sum(it > 0 for it in wanted)):
        return f"{loaded} with the offsets {found} for {wanted}"
    answered = sum(it.is_answered for it in played.commands)
    if "FAULT Device" not in told and (len(acknowledged), commands) != (answered, most):
        return f"no failure, but {len(acknowledged)} of {answered} commands were acknowledged, and {commands} of {most} found"
    return None
