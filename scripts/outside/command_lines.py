"""Words on the command lines of both programs, and standard streams and ports that fail."""
import os
import socket
import subprocess
import tty

from outside.serving import WAIT_SECONDS, run

# Words, the status over an empty script, what is printed, and a text that standard error has.
SIM = [
    ("", 0, "LOADED 0 0 0\n", ""),
    ("--segments 1", 0, "LOADED 0 0 0\n", ""),
    ("--segments=2", 0, "LOADED 0 0 0\n", ""),
    ("--segments 200", 0, "LOADED 0 0 0\n", ""),
    ("--segments 0", 2, "", "0 is not in 1..=200"),
    ("--segments 201", 2, "", "201 is not in 1..=200"),
    ("--segments eight", 2, "", "invalid value 'eight'"),
    ("--segments", 2, "", "--segments"),
    ("--tick-ms 10", 2, "", "unexpected argument '--tick-ms'"),
    ("8", 2, "", "unexpected argument '8'"),
    ("--help", 2, "", "poke S xBYTES"),
    ("-h", 2, "", "poke S xBYTES"),
]

VERSION = "0.12.0"
EMPTY = "LOADED 0 0 0\nCLOSED 0\n"
SERVER = [
    ("--connections 0", 0, EMPTY, ""),
    ("--connections 0 --format", 0, EMPTY, ""),
    ("--connections 0 --segments 1 --tick-ms 10 --compact-free 0", 0, EMPTY, ""),
    ("--connections 0 --segments 200 --tick-ms 60000 --compact-free 199", 0, EMPTY, ""),
    ("--connections 0 --listen 127.0.0.1:65535", 0, EMPTY, ""),
    ("--connections 0 --disk no/such/file", 1, "FAULT File\n", "no/such/file"),
    ("--connections 0 --disk no/such/file --format", 1, "FAULT File\n", "no/such/file"),
    ("--connections 4294967296", 2, "", "4294967296 is not in 0..=4294967295"),
    ("--connections -1", 2, "", "'-1'"),
    ("--segments 0", 2, "", "0 is not in 1..=200"),
    ("--segments 201", 2, "", "201 is not in 1..=200"),
    ("--tick-ms 9", 2, "", "9 is not in 10..=60000"),
    ("--tick-ms 60001", 2, "", "60001 is not in 10..=60000"),
    ("--compact-free 200", 2, "", "200 is not in 0..=199"),
    ("--listen 0.0.0.0:9192", 2, "", "an address is 127.0.0.1:"),
    ("--listen 127.0.0.1:65536", 2, "", "an address is 127.0.0.1:"),
    ("--listen 127.0.0.1", 2, "", "an address is 127.0.0.1:"),
    ("9192", 2, "", "unexpected argument '9192'"),
    ("--connections 0 --exit-on-fault --status-seconds 86400", 0, EMPTY, ""),
    ("--status-seconds 86401", 2, "", "86401 is not in 0..=86400"),
    ("--connections 0 --overwrite", 0, EMPTY, ""),
    ("--overwrite=yes", 2, "", "unexpected value 'yes'"),
    ("--help", 2, "", "--compact-free"),
    ("-h", 2, "", "--compact-free"),
]


def check(report, programs, folder):
    for program, table in ((programs.sim, SIM), (programs.server, SERVER)):
        for words, *wanted in table:
            with report.check(words):
                check_words(report, program, words, *wanted)
    checks = (version, port_that_is_taken, full_output_of_the_server, full_output_of_a_script, full_output_in_a_script,
              input_that_fails)
    for it in checks:
        with report.check(it.__name__):
            it(report, programs, folder)


def check_words(report, program, words, status, output, problem):
    name = f"{os.path.basename(program)} {words}".rstrip()
    ran = run(program, *words.split())
    report.equal(name, (ran.returncode, ran.stdout.decode()), (status, output))
    report.holds(f"{name}: standard error", problem in ran.stderr.decode(), f"no {problem!r} in {ran.stderr[:300]!r}")


def version(report, programs, folder):
    """The version names the kit that proves the program, as `rt version` does."""
    kit = subprocess.run(["rt", "version"], capture_output=True, timeout=WAIT_SECONDS, text=True).stdout.strip()
    for name, program in (("cg_sim", programs.sim), ("cg_server", programs.server)):
        for words in (["--version"], ["-V"]):
            ran = run(program, *words)
            report.equal(f"{name} {words}", (ran.returncode, ran.stdout.decode(), ran.stderr), (0, f"{name} {VERSION} ({kit})\n", b""))
            with open("/dev/full", "wb") as full:
                report.equal(f"{name} {words} with a full output", run(program, *words, output=full).returncode, 3)


def port_that_is_taken(report, programs, folder):
    with socket.create_server(("127.0.0.1", 0)) as taken:
        ran = run(programs.server, "--listen", f"127.0.0.1:{taken.getsockname()[1]}")
    report.equal("a port that is taken", (ran.returncode, ran.stdout), (3, b"FAULT Net\n"))
    report.holds("a port that is taken: standard error", ran.stderr.startswith(b"cg_server: "), f"{ran.stderr!r}")


def full_output_of_the_server(report, programs, folder):
    for words in (["--connections", "0"], ["--listen", "127.0.0.1:0"]):
        with open("/dev/full", "wb") as full:
            report.equal(f"{words} with a full output", run(programs.server, *words, output=full).returncode, 3)


def full_output_of_a_script(report, programs, folder):
    with open("/dev/full", "wb") as full:
        report.equal("a script with a full output", run(programs.sim, output=full, script=b"flush\n").returncode, 3)


def full_output_in_a_script(report, programs, folder):
    """More output than any buffer holds."""
    with open("/dev/full", "wb") as full:
        ran = run(programs.sim, output=full, script=b"s1 LIST\n" * 20_000)
    report.equal("a long script with a full output", ran.returncode, 3)


def input_that_fails(report, programs, folder):
    """The end of a pseudo-terminal whose other end is closed returns the bytes that came before, and then fails."""
    ours, theirs = os.openpty()
    tty.setraw(theirs)
    tty.setraw(ours)
    os.write(theirs, b"s1 FETCH g t:0\ns1 FET")
    os.close(theirs)
    ran = subprocess.run([programs.sim], stdin=ours, capture_output=True, timeout=WAIT_SECONDS)
    os.close(ours)
    report.equal("an input that fails in mid-line", (ran.returncode, ran.stdout), (3, b"LOADED 0 0 0\ns1 FETCHED t:0:-1:x\n"))
