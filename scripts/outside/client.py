"""Each command of examples/client.py, members that rebalance as they come and go, and offsets that outlive a kill."""
import os
import re
import subprocess
import sys

from outside.serving import WAIT_SECONDS, Server

CLIENT = os.path.join(os.path.dirname(os.path.dirname(os.path.dirname(os.path.abspath(__file__)))), "examples", "client.py")
PARTITIONS = [f"events:{it}" for it in range(6)]


def check(report, programs, folder):
    disk = ["--disk", os.path.join(folder, "log")]
    with Server(programs.server, *disk, "--format") as server:
        server.load()
        said = client(server, 0, "consume", "demo", "--members", "3", "--seconds", "4")
        owners = [line.split() for line in said if " owns " in line]
        last = {owner[0]: [it.partition("@")[0] for it in owner[4:]] for owner in owners}
        report.equal("three members", sorted(last), ["client-1", "client-2", "client-3"])
        report.equal("partitions of three members", sorted(it for owned in last.values() for it in owned), PARTITIONS)
        report.holds("a rebalance", len(owners) > 3, f"{said}")
        report.equal("members that left", sorted(line for line in said if line.endswith(" left")), [f"{it} left" for it in sorted(last)])
        offsets = fetched(server)
        report.holds("committed offsets", sorted(offsets) == PARTITIONS and min(offsets.values()) > 0, f"{offsets}")
        server.kill()
    with Server(programs.server, *disk) as server:
        server.load()
        report.equal("offsets after a kill", fetched(server), offsets)
        said = client(server, 0, "consume", "demo", "--members", "1", "--seconds", "1")
        wanted = " ".join(f"{it}@{offsets[it]}" for it in PARTITIONS)
        report.holds("a member that goes on where the last ones were", said[0].endswith(f" owns {wanted}"), f"{said}")
        check_commands(report, server)
    report.equal("a server that is not there", client(server, 3, "list"), [])


def check_commands(report, server):
    report.equal("list", client(server, 0, "list"), ["demo consumer Empty"])
    said = client(server, 0, "describe", "demo")
    report.holds("describe", re.fullmatch(r"state Empty, generation \d+, type consumer, protocol -", said[0]), f"{said}")
    with server.connect() as member:
        joined = member.ask("JOIN other - - c 600000 60000 consumer range=x6162").split()
        report.equal("reset of a group with members", client(server, 1, "reset", "other", "t:0:1"), [])
        said = client(server, 0, "describe", "other")
        report.holds("describe of a member", said[1].startswith(f"{joined[5]} instance - client c "), f"{said}")
    many = [f"t:{it}" for it in range(100)]
    report.equal("reset", client(server, 0, "reset", "demo", "events:0:1000", *(f"{it}:{number}" for number, it in enumerate(many))), ["OK"])
    report.equal("fetch", client(server, 0, "fetch", "demo", "events:0", "none:9", *many),
                 ["events:0 1000", "none:9 -1", *(f"{it} {number}" for number, it in enumerate(many))])
    report.equal("drop", client(server, 0, "drop", "demo", "events:0", "none:9", *many), ["OK"])
    report.equal("fetch after a drop", client(server, 0, "fetch", "demo", "events:0", "t:99"), ["events:0 -1", "t:99 -1"])
    report.equal("drop in a group with members", client(server, 1, "drop", "other", "t:0"), [])
    report.equal("drop in a group that is not there", client(server, 1, "drop", "none", "t:0"), [])
    numbers = range(300)
    report.equal("reset in a new group", client(server, 0, "reset", "alone", *(f"t:{it}:1" for it in numbers)), ["OK"])
    report.equal("drop of all offsets", client(server, 0, "drop", "alone", *(f"t:{it}" for it in numbers), "t:300"), ["OK"])
    said = client(server, 0, "shell", lines="LIST\nNONE\n")
    report.equal("shell", said, ["GROUPS demo:consumer:Empty other:consumer:CompletingRebalance", "ERR 42 INVALID_REQUEST"])
    report.equal("delete", client(server, 0, "delete", "demo"), ["OK"])
    report.equal("delete of a group that is not there", client(server, 1, "delete", "demo"), [])
    report.equal("no command", client(server, 2), [])


def client(server, status, *words, lines=""):
    """Runs the client, whose status has to be this one. Returns the lines that it prints."""
    ran = subprocess.run([sys.executable, CLIENT, "--address", f"127.0.0.1:{server.port}", *words], input=lines, text=True,
                         capture_output=True, timeout=WAIT_SECONDS)
    if ran.returncode != status:
        raise ValueError(f"{words}: status {ran.returncode}, {ran.stdout} {ran.stderr}")
    return ran.stdout.splitlines()


def fetched(server):
    """Returns the committed offsets of the group by partition."""
    return {name: int(offset) for name, _, offset in (it.partition(" ") for it in client(server, 0, "fetch", "demo", *PARTITIONS))}
