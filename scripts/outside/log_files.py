"""A log has one server at a time, and is formatted only where nothing is lost by it."""
import os

from outside.logfile import SECTOR, Root, sectors_of, slot_bytes
from outside.serving import Server, run

EMPTY = "LOADED 0 0 0\nCLOSED 0\n"
OFFSET = "FETCHED t:0:7:x"
# Words of a second start on the file of a running server.
SECOND = [[], ["--format"], ["--overwrite"], ["--format", "--overwrite", "--segments", "2"]]


def check(report, programs, folder):
    for it in (one_server_a_log, format_of_a_file, overwritten_file, format_of_an_empty_file, room_of_a_new_file):
        with report.check(it.__name__):
            it(report, programs.server, os.path.join(folder, it.__name__))


def one_server_a_log(report, program, path):
    """Whatever a second start asks for, it ends, the first server serves on, and its acknowledged offset outlives a kill."""
    with Server(program, "--disk", path, "--format") as server:
        server.load()
        with server.connect() as client:
            report.equal("a COMMIT", client.ask("COMMIT g -1 - - t:0:7:x"), "OK")
            for words in SECOND:
                ran = run(program, "--listen", "127.0.0.1:0", "--disk", path, *words)
                name = f"a second server with {words}"
                report.equal(name, (ran.returncode, ran.stdout), (1, b"FAULT File\n"))
                said = f"cg_server: {path} is in use by another server\n"
                report.holds(f"{name}: standard error", ran.stderr.decode().startswith(said), f"{ran.stderr!r}")
            report.equal("a FETCH beside them", client.ask("FETCH g t:0"), OFFSET)
        server.kill()
    with Server(program, "--disk", path) as server:
        server.load()
        with server.connect() as client:
            report.equal("a FETCH after a kill", client.ask("FETCH g t:0"), OFFSET)


def format_of_a_file(report, program, path):
    """A file that is not empty is refused, and stays as it is."""
    with open(path, "wb") as file:
        file.write(b"\x01" * 10_000)
    ran = run(program, "--disk", path, "--format", "--segments", "3", "--connections", "0")
    report.equal("a format of a file that is not empty", (ran.returncode, ran.stdout), (1, b"FAULT File\n"))
    said = f"cg_server: {path} exists: remove it, or give --overwrite\n"
    report.holds("a format of a file that is not empty: standard error", ran.stderr.decode().startswith(said), f"{ran.stderr!r}")
    report.holds("a file that was not formatted", content_of(path) == b"\x01" * 10_000)


def overwritten_file(report, program, path):
    """Nothing is left of what the file had."""
    with open(path, "wb") as file:
        file.write(b"\x01" * SECTOR * sectors_of(4))
    for words in (["--overwrite"], ["--format", "--overwrite"]):
        ran = run(program, "--disk", path, *words, "--segments", "3", "--connections", "0")
        report.equal(f"{words} over a file", (ran.returncode, ran.stdout.decode()), (0, EMPTY))
        report.holds(f"the bytes after {words}", content_of(path) == formatted(3))


def format_of_an_empty_file(report, program, path):
    open(path, "wb").close()
    ran = run(program, "--disk", path, "--format", "--segments", "3", "--connections", "0")
    report.equal("a format of an empty file", (ran.returncode, ran.stdout.decode()), (0, EMPTY))
    report.holds("the bytes of a format", content_of(path) == formatted(3))


def room_of_a_new_file(report, program, path):
    """All sectors of a new file have their blocks, so that a file system which is full says so at the format."""
    ran = run(program, "--disk", path, "--format", "--segments", "2", "--connections", "0")
    report.equal("a format of two segments", (ran.returncode, ran.stdout.decode()), (0, EMPTY))
    status = os.stat(path)
    report.equal("the length of a new file", status.st_size, SECTOR * sectors_of(2))
    report.holds("the blocks of a new file", status.st_blocks * 512 >= status.st_size, f"{status.st_blocks} of 512 bytes")


def formatted(segments):
    """Returns the bytes of a new log: a root of epoch 1 in slot 0, then zeros up to the end of the last segment."""
    return slot_bytes(Root(1)) + bytes(SECTOR * (sectors_of(segments) - 2))


def content_of(path):
    with open(path, "rb") as file:
        return file.read()
