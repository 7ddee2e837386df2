"""Each field of each kind of record out of its range, alone, and each record cut at every byte."""
from outside.damage import with_payload
from outside.records import (ASSIGNED, ASSIGNMENT_MAX, COMMIT_METADATA_MAX, COMMITTED, DELETED, DROPPED, EMPTIED, EXPIRED,
                             LIST_MAX, MEMBER_ID_MAX, METADATA_MAX, NAME_MAX, NUMBER_MAX, OFFSET_MAX, PARTITIONS_MAX, REPLACED,
                             SESSION_MAX, SESSION_MIN, SUBSCRIPTION_MAX, VERSION, Assigned, Committed, Deleted, Dropped, Emptied,
                             Entry, Expired, Member, Replaced, count_field, data, encode_entry, encode_member, encode_partition,
                             encode_payload, moment_field, name, number)

# Bytes of a name that break a rule, each a first and a later byte where it makes a difference.
BAD_NAMES = {"a lone -": b"\x01-", "a slash": b"\x01/", "a space": b"\x02a ", "a colon": b"\x02:a", "a zero": b"\x01\0",
             "a letter that is not ASCII": b"\x02\xc3\xa9", "a byte before 0": b"\x01,", "a byte after z": b"\x01{",
             "a byte after Z": b"\x01[", "a byte before A": b"\x01@"}


def bad_name(most=NAME_MAX, is_optional=False):
    none = {} if is_optional else {"no bytes": b"\0"}
    return none | BAD_NAMES | {"one byte too many": bytes([most + 1]) + b"a" * (most + 1), "255 bytes": b"\xff" + b"a" * 255}


def bad_number(least, most, width=4):
    numbers = [most + 1, 2**(8 * width) - 1, *([least - 1, 0] if least else [])]
    return {str(it): number(it, width) for it in numbers}


def bad_data(most):
    return {"one byte too many": data(bytes(most + 1)), "2^31 bytes": number(2**31), "2^32 - 1 bytes": number(2**32 - 1)}


def bad_member_count():
    return {"none": b"\0", "one too many": bytes([LIST_MAX + 1]), "255": b"\xff"}


def bad_count():
    return {"none": count_field(0), "one too many": count_field(PARTITIONS_MAX + 1), "512": count_field(512),
            "65,535": count_field(65_535)}


def member_fields(member, is_replacement=False):
    """The fields of a member: a name, the good bytes, and bad ones by what is bad about them."""
    without = {"none": b"\0"} if is_replacement else {}
    return [("member id", name(member.id), bad_name(MEMBER_ID_MAX)),
            ("instance", name(member.instance), bad_name(is_optional=True) | without),
            ("client", name(member.client), bad_name()),
            ("session", number(member.session), bad_number(SESSION_MIN, SESSION_MAX)),
            ("rebalance", number(member.rebalance), bad_number(0, NUMBER_MAX)),
            ("subscription", data(member.subscription), bad_data(SUBSCRIPTION_MAX)),
            ("assignment", data(member.assignment), bad_data(ASSIGNMENT_MAX))]


def partition_fields(topic, partition):
    return [("topic", name(topic), bad_name()), ("partition", number(partition), bad_number(0, NUMBER_MAX))]


def entry_fields(entry):
    return [*partition_fields(entry.topic, entry.partition),
            ("offset", number(entry.offset, 8), bad_number(0, OFFSET_MAX, 8)),
            ("metadata", data(entry.metadata), bad_data(METADATA_MAX))]


M, N = Member("m", "i", "c", 6_000, 5, b"\x09", b"\x08"), Member("n", "j", "d", 6_000, 5, b"\x07", b"\x06")
T, U = Entry("t", 0, 42, b"m"), Entry("u", 1, 43, b"n")
# Two partitions.
PAIR = ("t", 0), ("u", 1)
VERSION_FIELD = ("version", bytes([VERSION]), {"0": b"\0", "4": b"\x04", "255": b"\xff"})
GROUP = ("group", name("g"), bad_name())
GENERATION = ("generation", number(7), bad_number(1, NUMBER_MAX))
TYPE = ("type", name("k"), bad_name())
MOMENT = ("moment", moment_field(5), {f"a first byte of {it}": bytes([it]) + number(5, 8) for it in (2, 255)})
UNKNOWN = ("moment", moment_field(None), {"a first byte of 2": b"\x02"})
COUNT = ("count", count_field(2), bad_count())


def kind(number_of_kind):
    return ("kind", bytes([number_of_kind]), {"0": b"\0", "8": b"\x08", "255": b"\xff"})


KINDS = {
    "Assigned": [VERSION_FIELD, kind(ASSIGNED), GROUP, GENERATION, TYPE, ("protocol", name("r"), bad_name()),
                 ("leader", name("n"), bad_name(MEMBER_ID_MAX) | {"no member": name("o")}), ("members", b"\x02", bad_member_count()),
                 *member_fields(M), *member_fields(N)],
    "Emptied": [VERSION_FIELD, kind(EMPTIED), GROUP, GENERATION, TYPE, MOMENT],
    "Emptied at an unknown moment": [VERSION_FIELD, kind(EMPTIED), GROUP, GENERATION, TYPE, UNKNOWN],
    "Replaced": [VERSION_FIELD, kind(REPLACED), GROUP, *member_fields(M, is_replacement=True)],
    "Committed": [VERSION_FIELD, kind(COMMITTED), GROUP, MOMENT, COUNT, *entry_fields(T), *entry_fields(U)],
    "Committed at an unknown moment": [VERSION_FIELD, kind(COMMITTED), GROUP, UNKNOWN, COUNT, *entry_fields(T), *entry_fields(U)],
    "Deleted": [VERSION_FIELD, kind(DELETED), GROUP],
    "Expired": [VERSION_FIELD, kind(EXPIRED), GROUP, COUNT, *partition_fields(*PAIR[0]), *partition_fields(*PAIR[1])],
    "Dropped": [VERSION_FIELD, kind(DROPPED), GROUP, COUNT, *partition_fields(*PAIR[0]), *partition_fields(*PAIR[1])],
}


def good_payload(fields):
    return b"".join(good for _, good, _ in fields)


def check_fields(report):
    """The fields that are written down here are those that the encoder writes."""
    commands = [Assigned("g", 7, "k", "r", "n", (M, N)), Emptied("g", 7, "k", 5), Emptied("g", 7, "k"), Replaced("g", M),
                Committed("g", (T, U), 5), Committed("g", (T, U)), Deleted("g"), Expired("g", PAIR), Dropped("g", PAIR)]
    report.equal("fields and encoder agree", [*map(good_payload, KINDS.values())], [*map(encode_payload, commands)])


def fields():
    cases = []
    for kind_name, items in KINDS.items():
        goods = [good for _, good, _ in items]
        for position, (field, _, bads) in enumerate(items):
            for why, bad in bads.items():
                payload = b"".join([*goods[:position], bad, *goods[position + 1:]])
                cases.append(with_payload(f"{kind_name}, field {position} ({field}): {why}", payload))
    return cases


def cuts():
    """Each record cut at every byte, alone and after a whole record."""
    whole = encode_payload(Deleted("h"))
    cases = []
    for kind_name, items in KINDS.items():
        payload = good_payload(items)
        for length in range(len(payload)):
            cases.append(with_payload(f"{kind_name}, cut after {length} bytes", payload[:length]))
            if length > 1:
                name_of_cut = f"{kind_name}, cut after {length} bytes, after another"
                cases.append(with_payload(name_of_cut, whole + payload[1:length], count=2))
    return cases


def assigned(leader, *members):
    return encode_payload(Assigned("g", 7, "k", "r", leader, members))


def committed(*entries):
    return encode_payload(Committed("g", entries))


def twice():
    """Things that may not come twice, next to each other and apart, and lists that are too long or too short."""
    other = Member("o", "", "c")
    many = tuple(Entry("t", it, it) for it in range(PARTITIONS_MAX + 1))
    pairs = tuple(("t", it) for it in range(PARTITIONS_MAX + 1))
    full = tuple(Entry("t", it, it, b"m" * METADATA_MAX) for it in range(COMMIT_METADATA_MAX // METADATA_MAX))
    crowd = tuple(Member(f"m{it}") for it in range(LIST_MAX + 1))
    commit_head = bytes([VERSION, COMMITTED]) + name("g") + moment_field(5)
    head = bytes([VERSION, ASSIGNED]) + name("g") + number(7) + name("k") + name("r") + name("m")
    return [with_payload(*it) for it in (
        ("a partition twice", committed(T, Entry("t", 0, 43))),
        ("a partition twice, apart", committed(T, U, Entry("t", 0, 42, b"m"))),
        ("the last of 256 partitions twice", committed(*many[:PARTITIONS_MAX - 1], many[PARTITIONS_MAX - 2])),
        ("one byte of metadata too many together", committed(*full, Entry("u", 0, 0, b"m"))),
        ("metadata of one entry too many together", committed(*full, Entry("u", 0, 0, b"m" * METADATA_MAX))),
        ("a member id twice", assigned("m", M, Member("m", "j"))),
        ("a member id twice, apart", assigned("m", M, other, Member("m"))),
        ("an instance twice", assigned("m", M, Member("n", "i"))),
        ("an instance twice, apart", assigned("m", M, other, Member("n", "i"))),
        ("a leader who is no member", assigned("x", M, N)),
        ("a leader who is an instance", assigned("i", M, N)),
        ("257 partitions", committed(*many)),
        ("65 members", assigned("m0", *crowd)),
        ("no members", assigned("m")),
        ("no partitions", committed()),
        ("two members counted as one", head + b"\x01" + encode_member(M) + encode_member(N)),
        ("one member counted as two", head + b"\x02" + encode_member(M)),
        ("two partitions counted as one", commit_head + count_field(1) + encode_entry(T) + encode_entry(U)),
        ("one partition counted as two", commit_head + count_field(2) + encode_entry(T)),
        *(case for kind_of in (Expired, Dropped) for case in twice_in(kind_of, pairs)),
    )]


def twice_in(kind_of, pairs):
    title = kind_of.__name__
    kind_byte = {Expired: EXPIRED, Dropped: DROPPED}[kind_of]
    head = bytes([VERSION, kind_byte]) + name("g")
    return [
        (f"{title}: a partition twice", encode_payload(kind_of("g", (*PAIR, PAIR[0])))),
        (f"{title}: the last of 256 partitions twice",
         encode_payload(kind_of("g", (*pairs[:PARTITIONS_MAX - 1], pairs[PARTITIONS_MAX - 2])))),
        (f"{title}: 257 partitions", encode_payload(kind_of("g", pairs))),
        (f"{title}: no partitions", encode_payload(kind_of("g", ()))),
        (f"{title}: two partitions counted as one", head + count_field(1) + b"".join(map(encode_partition, PAIR))),
        (f"{title}: one partition counted as two", head + count_field(2) + encode_partition(PAIR[0])),
    ]


def versions():
    """What a version does not have, and the fields of one version in another."""
    many = tuple(Entry("t", it, it) for it in range(LIST_MAX + 1))
    pairs = tuple(("t", it) for it in range(LIST_MAX + 1))
    commit, emptied = Committed("g", (T, U), 5), Emptied("g", 7, "k", 5)
    as_version = lambda version, payload: bytes([version]) + payload[1:]
    return [with_payload(*it) for it in (
        ("Expired in version 1", encode_payload(Expired("g", PAIR), version=1)),
        *((f"Dropped in version {it}", encode_payload(Dropped("g", PAIR), version=it)) for it in (1, 2)),
        *((f"65 partitions in version {it}", encode_payload(Committed("g", many), version=it)) for it in (1, 2)),
        ("65 partitions that expire in version 2", encode_payload(Expired("g", pairs), version=2)),
        *((f"Committed of version {written} in version {it}", as_version(it, encode_payload(commit, version=written)))
          for written in (1, 2, 3) for it in (1, 2, 3) if it != written),
        *((f"Emptied of version {written} in version {it}", as_version(it, encode_payload(emptied, version=written)))
          for written in (1, 2, 3) for it in (1, 2, 3) if (it == 1) != (written == 1)),
        *((f"Expired of version {written} in version {it}", as_version(it, encode_payload(Expired("g", PAIR), version=written)))
          for written, it in ((2, 3), (3, 2))),
    )]


def ends():
    """One byte too many after each kind of record: a kind that there is not, and one that there is."""
    return [with_payload(f"{kind_name}, then the byte {byte}", good_payload(items) + bytes([byte]))
            for kind_name, items in KINDS.items() for byte in (0, 1, 5, 255)]
