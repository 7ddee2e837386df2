"""Script lines of stable groups: how they are made, and the requests of their members."""
import random
from dataclasses import dataclass, field

SESSION_MS = 1_800_000
REBALANCE_MS = 600_000
SUBSCRIPTION_BYTES = 32
ASSIGNMENT_BYTES = 64
METADATA_BYTES = 16
# Lines between two flushes: as many commits share a batch.
FLUSH_LINES = 256


def subscription(group, member, differs=False):
    """Returns the subscription of a member: that of the whole group, or one of its own."""
    text = f"topics-of-{group}" + (f"-{member}" if differs else "")
    return text.ljust(SUBSCRIPTION_BYTES, ".").encode()


def assignment(group, member):
    return f"partitions-of-{group}-{member}".ljust(ASSIGNMENT_BYTES, ".").encode()


def metadata(group, partition):
    return f"{group}/{partition}".ljust(METADATA_BYTES, ".").encode()


def member_id(number):
    """Returns the id that the script program draws for the JOIN with this number."""
    return f"c-00000000-0000-0000-0000-{number:012x}"


@dataclass
class Group:
    """A stable group: its members' ids, in joining order, and their sessions."""

    number: int
    members: list[str]
    first_session: int
    generation: int = 2

    @property
    def name(self):
        return f"g{self.number:04}"

    def join(self, index, target, member):
        protocol = f"range=x{subscription(self.name, 0).hex()}"
        return f"s{self.first_session + index} JOIN {target} {member} - c {SESSION_MS} {REBALANCE_MS} consumer {protocol}"

    def sync(self, index, target):
        entries = ""
        if index == 0:
            entries = "".join(f" {it}=x{assignment(self.name, at).hex()}" for at, it in enumerate(self.members))
        return f"s{self.first_session + index} SYNC {target} {self.generation} {self.members[index]} -{entries}"

    def making(self):
        """Returns the lines that make the group: all members join, the leader again, which then gives assignments and offsets."""
        joins = [self.join(index, self.name, "-") for index in range(len(self.members))]
        offsets = "".join(f" t:{it}:1:x{metadata(self.name, it).hex()}" for it in range(len(self.members)))
        commit = f"s{self.first_session} COMMIT {self.name} {self.generation} {self.members[0]} -{offsets}"
        return [*joins, self.join(0, self.name, self.members[0]), self.sync(0, self.name), commit]

    def rebalance(self, target):
        """Returns the JOIN and the SYNC of each member for the next generation. The leader joins first, and syncs last."""
        joins = [self.join(index, target, member) for index, member in enumerate(self.members)]
        self.generation += 1
        syncs = [self.sync(index, target) for index in range(len(self.members) - 1, -1, -1)]
        return joins + syncs


@dataclass
class Population:
    """All groups of a script, made again after they were deleted: the program draws new ids then."""

    groups: int
    size: int
    drawn: int = 0
    moment: int = 0
    all: list[Group] = field(default_factory=list)
    order: random.Random = field(default_factory=lambda: random.Random(1))

    def make(self):
        self.all = []
        for number in range(self.groups):
            ids = [member_id(self.drawn + it) for it in range(1, self.size + 1)]
            self.drawn += self.size
            self.all.append(Group(number, ids, number * self.size))
        return [line for group in self.all for line in group.making()]

    def some(self, count):
        """Returns members in a random order, each with its group and its place in it."""
        chosen = []
        while len(chosen) < count:
            members = [(group, index) for group in self.all for index in range(self.size)]
            self.order.shuffle(members)
            chosen += members[:count - len(chosen)]
        return chosen


def flushed(lines):
    """Puts a flush after every so many lines, and at the end."""
    out = []
    for at in range(0, len(lines), FLUSH_LINES):
        out += lines[at:at + FLUSH_LINES]
        out.append("flush")
    return out
