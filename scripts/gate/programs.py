"""Programs that are proved and built: by the gate, or by `rt ci` over a copy of the crates that a program needs, which takes what earlier
runs on this machine proved."""
import os
import shutil
import sys
import tempfile

import crates
import kit


def _stamp(program):
    return f"{program}.from"


def _sum(crate, every):
    return f"{kit.version()} {crates.sum_of(crates.with_those_below(every, [crate.name]))}\n"


def _is_built(crate, every):
    if not os.path.isfile(crate.program) or not os.path.isfile(_stamp(crate.program)):
        return False
    with open(_stamp(crate.program), encoding="utf-8") as file:
        return file.read() == _sum(crate, every)


def note_built():
    """Notes of each program that the gate has just built from which files it was built."""
    every = crates.every_crate()
    for crate in every:
        if crate.program and os.path.isfile(crate.program):
            with open(_stamp(crate.program), "w", encoding="utf-8") as file:
                file.write(_sum(crate, every))


def build(name):
    """Proves and builds a program, unless it was built from the same files. Returns whether it is there."""
    every = crates.every_crate()
    crate = next((it for it in every if it.name == name and it.program), None)
    if crate is None:
        sys.exit(f"gate: crates.txt names no program {name}")
    if _is_built(crate, every):
        return True
    print(f"proving {name} and what it uses; what this machine has proved before is not proved again ..", file=sys.stderr, flush=True)
    stamp = _sum(crate, every)
    with tempfile.TemporaryDirectory(prefix="build-") as room:
        crates.copy(crates.with_those_below(every, [name]), f"{room}/repository")
        _, failed, _ = kit.ci(f"{room}/repository", on_line=lambda line: print(line, file=sys.stderr, flush=True))
        if failed:
            return False
        os.makedirs(os.path.dirname(crate.program), exist_ok=True)
        shutil.copy(f"{room}/repository/{crate.program}", f"{crate.program}.new")
    os.replace(f"{crate.program}.new", crate.program)
    with open(_stamp(crate.program), "w", encoding="utf-8") as file:
        file.write(stamp)
    return True
