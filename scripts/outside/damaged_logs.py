"""Damage: a load reports the fault that docs/FORMATS.md says, and leaves the file as it is.

The server loads a file of each kind of damage. The script program loads the same sectors, which are poked into its disk, and
each record cut at every byte.
"""
import os
import subprocess
from concurrent.futures import ThreadPoolExecutor

from outside import damaged_records, damaged_roots
from outside.damage import GOOD, SEGMENTS, slots_of, with_frames
from outside.logfile import SECTOR, BadLog, LogFile, Root, sectors_of
from outside.read_log import read
from outside.records import BadRecord
from outside.scripting import poke, run_script
from outside.serving import WAIT_SECONDS


def check(report, programs, folder):
    damaged_records.check_fields(report)
    cases = [*damaged_roots.roots(), *damaged_roots.frames(), *damaged_records.fields(), *damaged_records.twice(),
             *damaged_records.versions(), *damaged_records.ends()]
    report.equal("damaged logs that Python reads", [it.name for it in cases if is_read(it)], [])
    check_poked(report, programs.sim, [*cases, *damaged_records.cuts()])
    check_files(report, programs.server, [*cases, *damaged_roots.late_gates()], folder)
    for name, content, fault in short_files():
        check_short_file(report, programs.server, os.path.join(folder, "short"), name, content, fault)


def is_read(case):
    """Returns whether the reader of this folder finds nothing wrong."""
    content = bytearray(SECTOR * sectors_of(SEGMENTS))
    for sector, bytes_of_it in case.sectors().items():
        content[SECTOR * sector:SECTOR * (sector + 1)] = bytes_of_it
    try:
        log = LogFile(bytes(content))
        return bool(log.slots() and log.base_commands is not None and log.number)
    except (BadLog, BadRecord):
        return False


def check_poked(report, program, cases):
    """Loads each case on one disk. The sectors in which it differs from the one before are poked; a good log ends the script."""
    script, disk = ["stop keep"], {}
    for case in [*cases, with_frames("good", "", GOOD)]:
        sectors = case.sectors()
        # The program formats its disk, so the first case is poked whole.
        changed = [it for it in sorted({*disk, *sectors}) if not disk or disk.get(it) != sectors.get(it)]
        script += [*(poke(it, sectors.get(it, b"")) for it in changed), "load"]
        disk = sectors
    ran = run_script(program, script, "--segments", str(SEGMENTS))
    wanted = ["LOADED 0 0 0", *(f"FAULT {case.fault}" for case in cases), "LOADED 1 0 1"]
    report.equal("the script of damaged logs ends", (ran.status, len(ran.lines)), (0, len(wanted)))
    for case, found, line in zip(cases, ran.lines[1:], wanted[1:]):
        report.equal(f"poked: {case.name}", found, line)


def load(program, path):
    ran = subprocess.run([program, "--disk", path, "--connections", "0"], capture_output=True, text=True, timeout=WAIT_SECONDS)
    return ran.returncode, ran.stdout


def check_files(report, program, cases, folder):
    def check_one(number):
        path = os.path.join(folder, f"{number}")
        cases[number].write(path)
        before = read(path)
        found = load(program, path)
        after = read(path)
        os.remove(path)
        return found, before == after

    with ThreadPoolExecutor(os.cpu_count()) as pool:
        results = [*pool.map(check_one, range(len(cases)))]
    for case, (found, is_unchanged) in zip(cases, results):
        report.equal(f"file: {case.name}", found, (1, f"FAULT {case.fault}\n"))
        report.holds(f"file as it was: {case.name}", is_unchanged, "it differs")


def short_files():
    """Files that are too short for a log: a name, the bytes, and the fault."""
    root = slots_of(Root(1))
    return [
        ("a file of no bytes", b"", "NoRoot"),
        ("a root on three sectors", root[:3 * SECTOR], "NoRoot"),
        ("four sectors of zeros", bytes(4 * SECTOR), "NoRoot"),
        ("a root of a disk without a segment", root, "BadRoot"),
    ]


def check_short_file(report, program, path, name, content, fault):
    with open(path, "wb") as file:
        file.write(content)
    report.equal(f"file: {name}", load(program, path), (1, f"FAULT {fault}\n"))
    report.equal(f"file as it was: {name}", read(path), content)
