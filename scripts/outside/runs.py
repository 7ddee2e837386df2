"""The scripts that kill a server, treat it badly, and fill a short log: each in few rounds."""
import contextlib
import sys

import hostile_clients
import kill_server
import short_log

ROUNDS = "3"


def check(report, programs, folder):
    server = programs.server
    with report.check("short_log"):
        report.equal("a log that is too short, and made longer", run(short_log.main, [server]), 0)
    with report.check("kill_server"):
        report.equal(f"{ROUNDS} kills while clients commit", run(kill_server.main, [server, ROUNDS]), 0)
    with report.check("hostile_clients"):
        for kind, problem in run(hostile_clients.problems, server).items():
            report.holds(f"beside clients of the kind {kind}", not problem, problem)


def run(script, words):
    """Returns the result. What the script prints goes to standard error."""
    with contextlib.redirect_stdout(sys.stderr):
        return script(words)
