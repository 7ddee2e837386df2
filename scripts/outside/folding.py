"""The state that commands make, the replies that show it, and its snapshot."""
from dataclasses import dataclass, field, replace

from outside.records import (COMMIT_METADATA_MAX, PARTITIONS_MAX, Assigned, Committed, Deleted, Dropped, Emptied, Entry, Expired,
                             Replaced)


@dataclass
class State:
    """The last record of each group, and of each group with offsets the entry of each topic and partition, with its moment."""
    records: dict = field(default_factory=dict)
    offsets: dict = field(default_factory=dict)

    def apply(self, command):
        match command:
            case Assigned(group) | Emptied(group):
                self.records[group] = command
            case Replaced(group, member):
                self.replace(group, member)
            case Committed(group, entries, moment):
                self.offsets.setdefault(group, {}).update({(it.topic, it.partition): (it, moment) for it in entries})
            case Expired(group, partitions) | Dropped(group, partitions):
                self.take(group, partitions)
            case Deleted(group):
                self.records.pop(group, None)
                self.offsets.pop(group, None)

    def take(self, group, partitions):
        left = {it: stored for it, stored in self.offsets.pop(group, {}).items() if it not in partitions}
        if left:
            self.offsets[group] = left

    def replace(self, group, member):
        """The member takes the position of the one with its instance, and the lead if that one led. If no member has the
        instance, or another member has the id, nothing changes."""
        record = self.records.get(group)
        if not isinstance(record, Assigned):
            return
        old = next((it for it in record.members if it.instance == member.instance), None)
        if old is None or any(it.id == member.id for it in record.members if it is not old):
            return
        members = tuple(member if it is old else it for it in record.members)
        leader = member.id if record.leader == old.id else record.leader
        self.records[group] = replace(record, leader=leader, members=members)

    def numbers(self):
        """Returns the numbers of records and of offsets, as a load prints them."""
        return len(self.records), sum(map(len, self.offsets.values()))

    def fetched(self, group, partitions):
        """Returns the reply to a FETCH of these topics and partitions."""
        stored = self.offsets.get(group, {})
        entries = (stored[it][0] if it in stored else Entry(*it, -1) for it in partitions)
        return " ".join(["FETCHED", *(f"{it.topic}:{it.partition}:{it.offset}:x{it.metadata.hex()}" for it in entries)])

    def described(self, group):
        """Returns the reply to a DESCRIBE after a load."""
        match self.records.get(group):
            case Assigned(_, generation, type, protocol, _, members):
                return " ".join(["GROUP Stable", str(generation), type, protocol, *map(shown, members)])
            case Emptied(_, generation, type):
                return f"GROUP Empty {generation} {type} -"
        return "GROUP Empty 0 - -" if group in self.offsets else "GROUP Dead 0 - -"

    def snapshot(self):
        """Returns the commands of a snapshot: group by group, its record and then its offsets, a commit for each run."""
        commands = []
        for group in sorted({*self.records, *self.offsets}):
            commands += [self.records[group]] if group in self.records else []
            stored = self.offsets.get(group, {})
            commands += [Committed(group, *run) for run in runs(stored[it] for it in sorted(stored))]
        return commands


def runs(stored):
    """Cuts entries with their moments into runs of one moment that one commit can have, each as long as it can be."""
    found = []
    for entry, moment in stored:
        entries, moment_before = found[-1] if found else ((), None)
        metadata = sum(len(it.metadata) for it in (*entries, entry))
        if entries and moment == moment_before and len(entries) < PARTITIONS_MAX and metadata <= COMMIT_METADATA_MAX:
            found[-1] = (*entries, entry), moment
        else:
            found.append(((entry,), moment))
    return found


def shown(member):
    """Returns a member's word in the reply to a DESCRIBE."""
    names = f"{member.id}:{member.instance or '-'}:{member.client}"
    return f"{names}:x{member.subscription.hex()}:x{member.assignment.hex()}"


def state_of(commands):
    state = State()
    for command in commands:
        state.apply(command)
    return state
