"""Lines drawn at random, good ones and mutations of these: each that the grammar of docs/PROTOCOL.md does not have gets 42, and each
other one its reply, in order."""
import random
import re

from outside.drawing import seed
from outside.serving import Server

LINES, AHEAD = 10_000, 50
NAME = re.compile(r"[A-Za-z0-9._-]{1,100}")
MEMBER = re.compile(r"[A-Za-z0-9._-]{1,137}")
BYTES = re.compile(r"x((?:[0-9a-f]{2})*)")
NUMBER = re.compile(r"0|[1-9][0-9]*")
INT_MAX, OFFSET_MAX = 2**31 - 1, 2**63 - 1
LIST_MAX, PARTITIONS_MAX = 64, 256
REFUSED = "ERR 42 INVALID_REQUEST"
REPLY = re.compile(r"OK|FETCHED( \S+)+|GROUP \S+ -?\d+ \S+ \S+.*|GROUPS( \S+)*|ERR -?\d+ [A-Z_]+")
# Requests that may be parked: their replies are not waited for.
PARKING = ("JOIN", "SYNC")


def check(report, programs, folder):
    number = seed("drawn_lines")
    draw = random.Random(number)
    with Server(programs.server) as server:
        server.load()
        with server.connect() as client:
            for _ in range(LINES // AHEAD):
                lines = [drawn_line(draw) for _ in range(AHEAD)]
                for line in filter(is_parking, lines):
                    with server.connect() as other:
                        other.send_bytes(line + b"\n")
                lines = [it for it in lines if not is_parking(it)]
                client.send_bytes(b"".join(it + b"\n" for it in lines))
                for line in lines:
                    check_reply(report, f"seed {number}: {line[:200]!r}", line, client.reply())


def check_reply(report, name, line, reply):
    if not is_request(line):
        report.equal(name, reply, REFUSED)
    else:
        report.holds(name, reply != REFUSED and REPLY.fullmatch(reply), reply[:200])


def is_parking(line):
    return line.split(b" ")[0].decode("latin-1") in PARKING and is_request(line)


def is_name(word, form=NAME):
    return bool(form.fullmatch(word)) and word != "-"


def is_optional(word, form=NAME):
    return word == "-" or is_name(word, form)


def is_number(word, most):
    return bool(NUMBER.fullmatch(word)) and int(word) <= most


def is_generation(word):
    return is_number(word, INT_MAX) or word.startswith("-") and is_number(word[1:], INT_MAX + 1) and word != "-0"


def are_bytes(word, most=None):
    found = BYTES.fullmatch(word)
    return bool(found) and (most is None or len(found[1]) // 2 <= most)


def are_pairs(words, least, most, is_key, bytes_max):
    """Returns whether these are pairs of a key and bytes, with different keys."""
    pairs = [it.split("=") for it in words]
    good = all(len(it) == 2 and is_key(it[0]) and are_bytes(it[1], bytes_max) for it in pairs)
    return good and least <= len(pairs) <= most and len({it[0] for it in pairs}) == len(pairs)


def are_partitions(words, is_rest):
    """Returns whether these are different partitions, each with what else belongs to it."""
    parts = [it.split(":") for it in words]
    good = all(len(it) >= 2 and is_name(it[0]) and is_number(it[1], INT_MAX) and is_rest(it[2:]) for it in parts)
    return good and 1 <= len(parts) <= PARTITIONS_MAX and len({tuple(it[:2]) for it in parts}) == len(parts)


def is_offset(rest):
    return len(rest) == 2 and is_number(rest[0], OFFSET_MAX) and are_bytes(rest[1])


def is_member(words):
    """Returns whether these are a group, a generation, a member and an instance."""
    return is_optional(words[0]) and is_generation(words[1]) and is_optional(words[2], MEMBER) and is_optional(words[3])


def is_request(line):
    """Returns whether the grammar has this line."""
    kind, *words = line.decode("latin-1").split(" ")
    if kind == "JOIN" and len(words) > 7:
        group, member, instance, client, session, rebalance, type, *protocols = words
        return (is_optional(group) and is_optional(member, MEMBER) and is_optional(instance) and is_name(client) and is_name(type)
                and is_number(session, INT_MAX) and is_number(rebalance, INT_MAX) and are_pairs(protocols, 1, 4, is_name, 1_024))
    if kind == "SYNC" and len(words) >= 4:
        return is_member(words) and are_pairs(words[4:], 0, LIST_MAX, lambda it: is_name(it, MEMBER), 4_096)
    if kind == "BEAT" and len(words) == 4:
        return is_member(words)
    if kind == "LEAVE" and len(words) == 3:
        return is_optional(words[0]) and is_optional(words[1], MEMBER) and is_optional(words[2])
    if kind == "COMMIT" and len(words) > 4:
        return is_member(words) and are_partitions(words[4:], is_offset)
    if kind in ("FETCH", "DROP") and len(words) > 1:
        return is_optional(words[0]) and are_partitions(words[1:], lambda rest: not rest)
    if kind in ("DESCRIBE", "DELETE") and len(words) == 1:
        return is_optional(words[0])
    return kind == "LIST" and not words


def drawn_line(draw):
    """Returns a good line, or a mutation of one."""
    line = drawn_request(draw).encode("latin-1")
    for _ in range(draw.choice([0, 1, 1, 2, 3])):
        line = mutated(draw, line)
    return line.replace(b"\n", b" ")


def drawn_request(draw):
    name = lambda: draw.choice(["g", "h", "a.b", "-", "x" * 100, f"g{draw.randrange(40)}"])
    number = lambda most: str(draw.choice([0, 1, 10_000, most, most + 1]))
    data = lambda: "x" + "00" * draw.choice([0, 1, 5, 1_024, 1_025]) if draw.random() < 0.1 else "x" + "ab" * draw.randrange(4)
    generation = lambda: draw.choice(["-1", "0", "1", "2147483647", "-2147483648", "-0"])
    several = lambda make: " ".join(make() for _ in range(draw.choice([0, 1, 1, 2, 4, 5, 64, 65]) if draw.random() < 0.1 else 1))
    partition = lambda: f"t:{draw.randrange(100) if draw.random() < 0.9 else number(INT_MAX)}"
    # Mostly one partition or a few of any kind, and now and then many different ones.
    many = lambda: [f"t:{it}" for it in draw.sample(range(300), draw.choice([64, 65, 255, 256, 257]))]
    partitions = lambda rest: " ".join(f"{it}{rest()}" for it in many()) if draw.random() < 0.05 else several(lambda: partition() + rest())
    kind = draw.choice(["JOIN", "SYNC", "BEAT", "LEAVE", *["COMMIT", "FETCH", "DROP"] * 3, "DESCRIBE", "DELETE", "LIST"])
    return {
        "JOIN": lambda: f"JOIN {name()} {name()} {name()} c {number(INT_MAX)} {number(INT_MAX)} consumer {several(lambda: f'{name()}={data()}')}",
        "SYNC": lambda: f"SYNC {name()} {generation()} {name()} {name()} {several(lambda: f'{name()}={data()}')}".rstrip(),
        "BEAT": lambda: f"BEAT {name()} {generation()} {name()} {name()}",
        "LEAVE": lambda: f"LEAVE {name()} {name()} {name()}",
        "COMMIT": lambda: f"COMMIT {name()} {generation()} {name()} {name()} " + partitions(lambda: f":{number(OFFSET_MAX)}:{data()}"),
        "FETCH": lambda: f"FETCH {name()} {partitions(str)}",
        "DROP": lambda: f"DROP {name()} {partitions(str)}",
        "DESCRIBE": lambda: f"DESCRIBE {name()}",
        "DELETE": lambda: f"DELETE {name()}",
        "LIST": lambda: "LIST",
    }[kind]()


def mutated(draw, line):
    at, byte = draw.randrange(len(line) + 1), bytes([draw.choice([*b" -:=x0aA+._\r\t\0\x7f\x80\xff", draw.randrange(256)])])
    words = line.split(b" ")
    word = draw.randrange(len(words))
    return draw.choice([
        line[:at] + line[at + 1:],
        line[:at] + byte + line[at:],
        line[:at] + byte + line[at + 1:],
        line[:at],
        b" ".join(words[:word] + words[word + 1:]),
        b" ".join([*words[:word], words[word], *words[word:]]),
        b" ".join(draw.sample(words, len(words))),
        line * 2,
    ])
