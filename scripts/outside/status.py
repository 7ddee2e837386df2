"""The status lines of a server, and the numbers in them."""
import os
import re

from outside.serving import Server

SEGMENTS = 8
NAMES = ["groups", "members", "offsets", "connections", "pending", "settled", "free", "of", "compactions", "commits", "seconds"]
JOIN = "JOIN g - - c 10000 60000 consumer range=x"


def check(report, programs, folder):
    path = os.path.join(folder, "log")
    words = ["--format", "--segments", str(SEGMENTS), "--compact-free", "0", "--status-seconds", "1"]
    with Server(programs.server, "--disk", path, *words) as server:
        server.load()
        report.equal("an empty server", without_seconds(status(server)), numbers(free=SEGMENTS - 1))
        with server.connect() as first, server.connect() as second, server.connect() as parked:
            first.ask("COMMIT h -1 - - t:0:7:x u:1:8:x")
            first.ask("COMMIT h -1 - - t:0:9:x")
            report.equal("a COMMIT that is refused", first.ask("COMMIT g 1 m - t:0:7:x"), "ERR 22 ILLEGAL_GENERATION")
            joined = second.ask(JOIN)
            report.holds("a JOIN", joined.startswith("JOINED "), joined)
            parked.send(JOIN)
            while "PreparingRebalance" not in first.ask("DESCRIBE g"):
                pass
            # One line may have been made before the JOIN was parked.
            status(server)
            wanted = numbers(groups=2, members=2, offsets=2, connections=3, pending=1, settled=2, free=SEGMENTS - 1, commits=2)
            report.equal("two groups, two members and three connections", without_seconds(status(server)), wanted)
    with Server(programs.server, "--disk", path, "--segments", "1", "--compact-free", str(SEGMENTS), "--status-seconds", "1",
                "--tick-ms", "10") as server:
        server.load()
        found = status(server)
        report.holds("a log that is compacted", found["compactions"] > 0, f"{found}")
        later = status(server)
        report.holds("the seconds of two lines", 1 <= found["seconds"] < later["seconds"], f"{found} {later}")
        wanted = numbers(groups=1, offsets=2, settled=2)
        for name in ("groups", "members", "offsets", "settled", "commits"):
            report.equal(f"{name} after a load", found[name], wanted[name])


def numbers(**given):
    """Returns the numbers of a status without its seconds: those that are given, 0 for the others."""
    return {**dict.fromkeys(NAMES[:-1], 0), "of": SEGMENTS, **given}


def without_seconds(found):
    return {name: number for name, number in found.items() if name != "seconds"}


def status(server):
    """Returns the numbers of the next status line."""
    line = server.line()
    if not re.fullmatch("STATUS" + "".join(rf" {name}=\d+" for name in NAMES), line or ""):
        raise ValueError(f"no status: {line}")
    return {name: int(number) for name, _, number in (word.partition("=") for word in line.split()[1:])}
