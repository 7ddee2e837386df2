"""Logs drawn at random, by someone who knows the format and lies: each load ends with its numbers or a named fault, and a second load
says the same. Where the strict reader takes a log, the numbers are those that it finds."""
import random
import re
import resource
import subprocess

from outside.drawing import seed
from outside.folding import state_of
from outside.logfile import CLOSED, NUMBER_MAX, OPEN, PAYLOAD_MAX, SECTOR, SEGMENT_SECTORS, BadLog, LogFile, Root, first_sector_of, padded, sectors_of
from outside.records import (LIST_MAX, MOMENT_MAX, PARTITIONS_MAX, VERSION, VERSIONS, Assigned, BadRecord, Committed, Deleted,
                             Dropped, Emptied, Entry, Expired, Member, Replaced, encode_payload)
from outside.scripting import SECONDS, poke

LOGS, LOGS_A_RUN = 10_000, 1_000
SEGMENTS = [1, 3, 4, 8]
# Bytes of memory of a run: the disk in memory with its history, and far less than what a length that lies asks for.
MEMORY = 1 << 30
ENDS = re.compile(r"LOADED \d+ \d+ \d+|FAULT (NoRoot|BadRoot|BadFrame|BadRecord)")
GREAT = [0, 1, 2, NUMBER_MAX - 1, NUMBER_MAX, NUMBER_MAX + 1, 2**64 - 1]
NAMES = ["g", "h", "-g", "a.b_c-d", "x" * 100]


def check(report, programs, folder):
    number = seed("drawn_logs")
    for run in range(LOGS // LOGS_A_RUN):
        draw = random.Random(f"{number} {run}")
        with report.check(f"logs of seed {number}, run {run}"):
            check_run(report, programs.sim, f"seed {number}, run {run}", draw, draw.choice(SEGMENTS))


def check_run(report, program, name, draw, segments):
    logs, script, before = [], ["stop keep"], set()
    for _ in range(LOGS_A_RUN):
        log = drawn_log(draw, segments)
        script += [poke(it, b"") for it in sorted(before - log.keys())] + [poke(it, content) for it, content in log.items()]
        script += ["load", "stop keep"] * 2
        before = set(log)
        logs.append(log)
    lines = run_in_little_memory(program, script, segments)[1:]
    report.equal(f"{name}: the lines of two loads a log", len(lines), 2 * LOGS_A_RUN)
    content = bytearray(SECTOR * sectors_of(segments))
    for at, (log, first, second) in enumerate(zip(logs, lines[::2], lines[1::2])):
        wanted = numbers_of(content, log)
        good = ENDS.fullmatch(first) and second == first and wanted in (None, first)
        report.holds(f"{name}, log {at}", good, f"{first}, then {second}, wanted {wanted}")


def run_in_little_memory(program, script, segments):
    limit = lambda: resource.setrlimit(resource.RLIMIT_AS, (MEMORY, MEMORY))
    ran = subprocess.run([program, "--segments", str(segments)], input="".join(f"{it}\n" for it in script), capture_output=True,
                         text=True, timeout=SECONDS, preexec_fn=limit)
    if ran.returncode:
        raise RuntimeError(f"status {ran.returncode}: {ran.stderr[-200:]}")
    return ran.stdout.splitlines()


def numbers_of(content, log):
    """Returns what a load prints of a log that the strict reader takes, or None. The content is that of a disk with zeros."""
    for sector, part in log.items():
        content[SECTOR * sector:SECTOR * sector + SECTOR] = part
    try:
        file = LogFile(content)
        state = state_of(file.base_commands + file.tail_commands)
        return f"LOADED {file.number} {len(state.records)} {sum(map(len, state.offsets.values()))}"
    except (BadLog, BadRecord):
        return None
    finally:
        for sector in log:
            content[SECTOR * sector:SECTOR * sector + SECTOR] = bytes(SECTOR)


def drawn_log(draw, segments):
    """Returns the sectors of a log, by their numbers."""
    ids = draw.sample(range(segments), segments)
    bases = draw.randrange(segments)
    tails = draw.randrange(1, segments - bases + 1)
    root = Root(1 + draw.randrange(3), draw.choice([0, 0, 7, *GREAT]), tuple(ids[:bases]), tuple(ids[bases:bases + tails]))
    log = dict(enumerate([*drawn_slot(draw, root), *(drawn_slot(draw, Root(1)) if draw.random() < 0.3 else [CLOSED, CLOSED])]))
    for it in ids[:bases + tails]:
        if draw.random() < 0.7:
            log |= drawn_segment(draw, it)
    if draw.random() < 0.1:
        # A gate in an odd place.
        log[first_sector_of(draw.choice(ids)) + draw.randrange(8)] = damaged(draw, OPEN)
    return log


def drawn_slot(draw, root):
    body = root.body()
    if draw.random() < 0.15:
        at = draw.choice([4, 12])
        body = body[:at] + draw.choice(GREAT).to_bytes(8, "big") + body[at + 8:]
    if draw.random() < 0.1:
        at = draw.choice([20, 22])
        body = body[:at] + draw.choice([0, 1, 2, 244, 245, 65_535]).to_bytes(2, "big") + body[at + 2:]
    body = padded(body)[:SECTOR]
    return [OPEN if draw.random() < 0.9 else damaged(draw, OPEN), damaged(draw, body, 40) if draw.random() < 0.1 else body]


def drawn_segment(draw, segment):
    sectors, at = {}, first_sector_of(segment)
    for _ in range(draw.randrange(4)):
        version = draw.choice([*VERSIONS, VERSION])
        commands = [drawn_command(draw, version) for _ in range(draw.choice([1, 1, 2, 5]))]
        payload = encode_payload(*commands, version=version)
        if draw.random() < 0.1:
            payload = damaged(draw, payload)[:draw.choice([1, len(payload) // 2, len(payload)])]
        count, length = len(commands), len(payload)
        if draw.random() < 0.05:
            count = draw.choice(GREAT)
        if draw.random() < 0.05:
            length = draw.choice([length - 1, length + 1, PAYLOAD_MAX, PAYLOAD_MAX + 1, 2**32, *GREAT])
        content = OPEN + padded(count.to_bytes(8, "big") + length.to_bytes(8, "big") + payload)
        for begin in range(0, len(content), SECTOR):
            sectors[at] = content[begin:begin + SECTOR]
            at += 1
    return {it: content for it, content in sectors.items() if it < first_sector_of(segment) + SEGMENT_SECTORS}


def drawn_command(draw, version):
    """Returns a command. The version has its counts, but maybe not its kind."""
    group, kind = draw.choice(NAMES), draw.randrange(14)
    generation, moment = draw.choice([1, 2, 2**31 - 1]), draw.choice([None, 0, 1, MOMENT_MAX])
    few = range(draw.choice([1, 1, 2, PARTITIONS_MAX if version == VERSION else LIST_MAX]))
    if kind < 6:
        entries = (Entry("t", it, draw.choice([0, 42, 2**63 - 1]), b"m" * draw.choice([0, 1, 300])) for it in few)
        return Committed(group, tuple(entries), moment)
    if kind < 8:
        members = [drawn_member(draw, it) for it in range(draw.choice([1, 2, LIST_MAX]))]
        return Assigned(group, generation, "consumer", "range", draw.choice(members).id, tuple(members))
    if kind < 9:
        return Replaced(group, drawn_member(draw, 0, "i"))
    if kind < 11:
        return Emptied(group, generation, "consumer", moment)
    return Deleted(group) if kind < 12 else draw.choice([Expired, Dropped])(group, tuple(("t", it) for it in few))


def drawn_member(draw, number, instance=""):
    return Member(f"m{number}", instance, "c", draw.choice([6_000, 1_800_000]), draw.choice([0, 2**31 - 1]), b"s" * draw.choice([0, 9]),
                  b"a" * draw.choice([0, 9]))


def damaged(draw, content, end=None):
    """Sets one or a few bytes, of those before the end."""
    changed = bytearray(content)
    for _ in range(draw.choice([1, 1, 1, 4])):
        changed[draw.randrange(min(len(changed), end or len(changed)))] = draw.choice([0, 1, 2, 0x7F, 0x80, 0xFF, draw.randrange(256)])
    return bytes(changed)
