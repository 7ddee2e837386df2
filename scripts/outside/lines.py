"""Request lines over sockets: in pieces, malformed, too long, unfinished, sent ahead, and one that waits for another client."""
import time

from outside.malformed import MALFORMED
from outside.serving import WAIT_SECONDS, Server

INVALID, UNKNOWN_MEMBER = "ERR 42 INVALID_REQUEST", "ERR 25 UNKNOWN_MEMBER_ID"
LINE_BYTES_MAX = 1_048_576
JOIN = "JOIN waits {} - c1 1800000 1800000 consumer range=x"

# What a client sends before it sends no more, and all that it gets.
STREAMS = [
    ("", ""),
    ("LIST\n", "GROUPS g:-:Empty\n"),
    ("LIST\nLIST\n", "GROUPS g:-:Empty\nGROUPS g:-:Empty\n"),
    ("LIST\nLIST", "GROUPS g:-:Empty\n"),
    ("LIS", ""),
    ("\n", f"{INVALID}\n"),
    ("DESCRIBE none\n", "GROUP Dead 0 - -\n"),
    ("COMMIT g -1 - - t:0:42:xff\n", "OK\n"),
    ("COMMIT g -1 - - t:0:42:x", ""),
    ("DELETE none\n", "ERR 69 GROUP_ID_NOT_FOUND\n"),
    ("DROP none t:0\n", "ERR 69 GROUP_ID_NOT_FOUND\n"),
    ("DROP - t:0\n", "ERR 24 INVALID_GROUP_ID\n"),
    ("DROP g none:0 none:1\n", "OK\n"),
    ("LIST\r\n", f"{INVALID}\n"),
    (" LIST\nLIST\n", f"{INVALID}\nGROUPS g:-:Empty\n"),
    ("LIST\n\nLIST \nLIST\nunfinished", f"GROUPS g:-:Empty\n{INVALID}\n{INVALID}\nGROUPS g:-:Empty\n"),
    ("LIST\nLIS T\nLIST\nLIS", f"GROUPS g:-:Empty\n{INVALID}\nGROUPS g:-:Empty\n"),
]

# Sent in one write. The replies come in the order of the lines.
AHEAD = [
    ("COMMIT g -1 - - t:0:43:x", "OK"),
    ("BEAT g 1 m -", UNKNOWN_MEMBER),
    ("LIST ", INVALID),
    ("COMMIT g -1 - - t:0:44:x", "OK"),
    ("FETCH g t:0", "FETCHED t:0:44:x"),
    ("DELETE none", "ERR 69 GROUP_ID_NOT_FOUND"),
    ("COMMIT g 7 - - t:0:45:x", UNKNOWN_MEMBER),
    ("COMMIT h -1 - - t:0:1:x t:1:1:x", "OK"),
    ("DROP h t:0 t:9", "OK"),
    ("FETCH h t:0 t:1", "FETCHED t:0:-1:x t:1:1:x"),
    ("DROP h t:1", "OK"),
    ("DROP h t:1", "ERR 69 GROUP_ID_NOT_FOUND"),
    ("COMMIT g -1 - - t:0:46:x", "OK"),
    ("LIST", "GROUPS g:-:Empty"),
    ("FETCH g t:0", "FETCHED t:0:46:x"),
]

FOUR_LINES = "FETCH g t:1\nBEAT g 1 m -\nLIST\nLIST \n"
FOUR_REPLIES = ["FETCHED t:1:7:x", UNKNOWN_MEMBER, "GROUPS g:-:Empty", INVALID]


def check(report, programs, folder):
    with Server(programs.server) as server:
        server.load()
        with server.connect() as client:
            report.equal("a commit", client.ask("COMMIT g -1 - - t:1:7:x"), "OK")
        for it in CHECKS:
            with report.check(it.__name__):
                it(report, server)
        report.equal("no warnings", server.warnings, [])


def streams(report, server):
    for sent, wanted in STREAMS:
        with server.connect() as client:
            client.send_bytes(sent.encode())
            report.equal(f"the stream {sent!r}", client.end_of_lines(), wanted)


def sent_ahead(report, server):
    with server.connect() as client:
        client.send(*(line for line, _ in AHEAD))
        report.equal("lines sent ahead", client.replies(len(AHEAD)), [wanted for _, wanted in AHEAD])


def pieces(report, server):
    """The pauses make it likely that the server reads each piece alone."""
    with server.connect() as client:
        for piece in ("FETCH g ", "t:1\nBEAT g 1", " m -\nLI", "ST\nLIST \n"):
            client.send_bytes(piece.encode())
            time.sleep(0.01)
        report.equal("four lines in pieces", client.replies(4), FOUR_REPLIES)


def split_at_every_byte(report, server):
    with server.connect() as client:
        for byte in FOUR_LINES.encode():
            client.send_bytes(bytes([byte]))
            time.sleep(0.002)
        report.equal("four lines byte by byte", client.replies(4), FOUR_REPLIES)
    with server.connect() as client:
        lines = FOUR_LINES.encode()
        for position in range(1, len(lines)):
            client.send_bytes(lines[:position])
            time.sleep(0.002)
            client.send_bytes(lines[position:])
            report.equal(f"four lines split after byte {position}", client.replies(4), FOUR_REPLIES)


def malformed(report, server):
    """Each malformed line gets 42, and the next line is served."""
    with server.connect() as client:
        for line in MALFORMED:
            client.send(line, "DESCRIBE none")
            report.equal(f"malformed: {line[:80]!r}", client.replies(2), [INVALID, "GROUP Dead 0 - -"])
    with server.connect() as client:
        client.send(*MALFORMED, "LIST")
        wanted = [INVALID] * len(MALFORMED) + ["GROUPS g:-:Empty"]
        report.equal("malformed lines sent ahead", client.replies(len(wanted)), wanted)


def commit_of_bytes(length):
    """A COMMIT line of this many bytes. With an even number of bytes it is a request."""
    begin = "COMMIT gg -1 - - t:0:0:x"
    return begin + "0" * (length - len(begin))


def long_lines(report, server):
    """The longest line is served: its metadata is refused by 12."""
    for length, is_ended, wanted in (
            (LINE_BYTES_MAX - 1, True, [INVALID, "GROUPS g:-:Empty"]),
            (LINE_BYTES_MAX, True, ["ERR 12 OFFSET_METADATA_TOO_LARGE", "GROUPS g:-:Empty"]),
            (LINE_BYTES_MAX, False, [])):
        with server.connect() as client:
            client.send("LIST")
            client.send_bytes(commit_of_bytes(length).encode())
            if is_ended:
                client.send_bytes(b"\nLIST\n")
            found = client.end_of_lines().splitlines()
            report.equal(f"a line of {length} bytes, ended: {is_ended}", found, ["GROUPS g:-:Empty", *wanted])


def a_line_that_is_too_long(report, server):
    """It gets 42 and ends the stream. Nothing comes after it, so no system drops the reply."""
    with server.connect() as client:
        client.send("LIST")
        client.send_bytes(commit_of_bytes(LINE_BYTES_MAX + 1).encode())
        report.equal("a line that is too long", client.rest().splitlines(), ["GROUPS g:-:Empty", INVALID])


def a_join_that_waits(report, server):
    with server.connect() as first, server.connect() as second:
        member = first.ask(JOIN.format("-")).split()[5]
        second.send(JOIN.format("-"))
        until = time.monotonic() + WAIT_SECONDS
        while (reply := first.ask(f"BEAT waits 1 {member} -")) != "ERR 27 REBALANCE_IN_PROGRESS" and time.monotonic() < until:
            time.sleep(0.01)
        report.equal("a BEAT while a JOIN waits", reply, "ERR 27 REBALANCE_IN_PROGRESS")
        rejoined, waited = first.ask(JOIN.format(member)).split(), second.reply().split()
        other = waited[5]
        begin = ["JOINED", "2", "consumer", "range", member]
        report.equal("the JOIN of the leader", rejoined, [*begin, member, f"{member}:-:x", f"{other}:-:x"])
        report.equal("the JOIN that waited", waited, [*begin, other])
        report.holds("a member id begins with the client", other.startswith("c1-") and other != member, other)


CHECKS = [streams, sent_ahead, pieces, split_at_every_byte, malformed, long_lines, a_line_that_is_too_long, a_join_that_waits]
