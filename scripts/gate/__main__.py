"""The gate of this repository, and its parts. Run by `make`:

  gate test [--anew]      the gate: `rt ci`, example scripts, tests from outside, edits that fit, prose; the last line is
                          'N passed, M failed'. --anew proves again what this machine has proved before
  gate check [CRATE ..]   `rt ci` for these crates (all by default) and those that they use
  gate build PROGRAM ..   proves and builds programs, unless they were built from the same files
  gate unproved PROGRAM   builds a program without proofs, unless it was built from the same files, and prints its path
  gate scripts PROGRAM    runs the example scripts through a built script program
  gate prose              looks for phrases that docs and comments do not use, and for files without a first line on them
  gate mutants [--sample N] [CRATE ..]
                          tries every edit of the crates (all by default), or N of them, drawn by the sum of the commit;
                          the last line is 'N refused, M not refused'
  gate dear [CRATE ..]    prints the functions of the crates (all by default) over which the last `rt check` took longest
"""
import os
import subprocess
import sys

import kit
import programs
import unproved
from cases import run_cases
from crates import every_crate
from dear import seconds_of
from edits import try_edits, unfit_edits
from prose import findings

DEAREST = 20
CASES = "crates/cg_sim/cases"


def chosen_of(every, names):
    for name in names:
        if name not in [it.name for it in every]:
            sys.exit(f"gate: crates.txt names no crate {name}")
    return [it for it in every if not names or it.name in names]


def check(names):
    return subprocess.run(["rt", "ci", *[it.name for it in chosen_of(every_crate(), names)]]).returncode


def build(names):
    for name in names:
        if not programs.build(name):
            return 1
    return 0


def scripts(program):
    well, differ = run_cases(program, CASES)
    print("\n".join([*differ, f"{well} passed, {len(differ)} failed"]))
    return 1 if differ else 0


def prose():
    found = findings(".")
    print("\n".join([*found, f"{len(found)} places"]))
    return 1 if found else 0


def dear(names):
    for crate in chosen_of(every_crate(), names):
        seconds = seconds_of(crate)
        print(f"{crate.name}: {sum(seconds.values()):.0f} s")
        for name, time_taken in seconds.most_common(DEAREST):
            print(f"{time_taken:8.1f} {name}")
    return 0


def outside(sim, server):
    """Runs the tests of the built programs from outside. Returns how many passed and how many failed."""
    ran = subprocess.Popen([sys.executable, "scripts/outside", sim, server], stdout=subprocess.PIPE, stderr=subprocess.STDOUT, text=True)
    last = ""
    for line in ran.stdout:
        if last:
            print(last, flush=True)
        last = line.rstrip("\n")
    counts = kit.LAST.fullmatch(last)
    if not counts or (ran.wait() == 0) != (counts[2] == "0"):
        print(f"scripts/outside ended with status {ran.wait()}: {last}")
        return 0, 1
    return int(counts[1]), int(counts[2])


def show(what, passed, failed):
    print(f"{what}: {passed} passed, {failed} failed", flush=True)
    return passed, failed


def test(anew):
    every = every_crate()
    sim, server = (f"crates/{it}/out/{it}" for it in ("cg_sim", "cg_server"))
    passed, failed, times = kit.ci(anew=anew, on_line=lambda line: print(line, flush=True))
    counts = [show("rt ci", passed, failed)]
    if os.path.isfile(sim) and os.path.isfile(server):
        programs.note_built()
        well, differ = run_cases(sim, CASES)
        print("".join(f"{it}\n" for it in differ), end="")
        counts += [show("example scripts", well, len(differ)), show("tests from outside", *outside(sim, server))]
    else:
        counts += [show("example scripts and tests from outside, without a program", 0, 1)]
    for what, found in [("edits that fit", unfit_edits(every)), ("prose", findings("."))]:
        print("".join(f"{it}\n" for it in found), end="")
        counts += [show(what, int(not found), int(bool(found)))]
    print("\n".join(times.table()))
    passed, failed = (sum(it) for it in zip(*counts))
    print(f"{passed} passed, {failed} failed")
    return 1 if failed else 0


def mutants(words):
    number = None
    if words[:1] == ["--sample"]:
        if not words[1:2] or not words[1].isdigit() or not int(words[1]):
            sys.exit("gate: a sample is a number of edits, at least 1")
        number, words = int(words[1]), words[2:]
    every = every_crate()
    return try_edits(every, chosen_of(every, words), number)


VERBS = {"check": check, "build": build, "mutants": mutants, "dear": dear}


def main(words):
    verb, rest = words[:1], words[1:]
    if verb == ["test"] and rest in ([], ["--anew"]):
        return test(bool(rest))
    if verb == ["scripts"] and len(rest) == 1:
        return scripts(rest[0])
    if verb == ["unproved"] and len(rest) == 1:
        print(unproved.build(chosen_of(every_crate(), rest)[0].name))
        return 0
    if words == ["prose"]:
        return prose()
    if verb and verb[0] in VERBS:
        return VERBS[verb[0]](rest)
    print(__doc__, file=sys.stderr)
    return 2


if __name__ == "__main__":
    sys.exit(main(sys.argv[1:]))
