"""The repository's crates, as crates.txt lists them, and copies of some of them."""
import hashlib
import os
import shutil
from dataclasses import dataclass

# What a proof of a crate reads, and what its program is run on.
PROVED = ("src", "specs", "proofs")
RUN_ON = ("stdin", "stdout", "args", "status", "data")


@dataclass(frozen=True)
class Crate:
    """A crate with the names of the crates of this repository that it uses, those that these use among them."""

    name: str
    below: tuple

    @property
    def folder(self):
        return f"crates/{self.name}"

    @property
    def program(self):
        """Returns where a gate or a build leaves the program, or None for a library."""
        return f"{self.folder}/out/{self.name}" if os.path.isfile(f"{self.folder}/src/main.rt") else None


def _listed():
    """Returns each crate's line of crates.txt: its name and the libraries that it uses."""
    with open("crates.txt", encoding="utf-8") as file:
        lines = [line.partition(":") for line in file if line.strip() and not line.startswith("#")]
    return {name.strip(): used.split() for name, _, used in lines}


def every_crate():
    """Returns the crates, each after those that it uses."""
    listed, found = _listed(), {}

    def visit(name):
        if name not in found:
            direct = [it for it in listed[name] if it in listed]
            for it in direct:
                visit(it)
            below = dict.fromkeys(below for it in direct for below in (*found[it].below, it))
            found[name] = Crate(name, tuple(below))

    for name in listed:
        visit(name)
    return list(found.values())


def with_those_below(crates, names):
    """Returns the named crates and all that they use, each after those that it uses."""
    wanted = {it for crate in crates if crate.name in names for it in (*crate.below, crate.name)}
    return [it for it in crates if it.name in wanted]


def copy(crates, room):
    """Copies what proofs and runs of these crates read to a folder that `rt ci` takes as the top of a repository. No must-fail edit
    is copied."""
    listed = _listed()
    os.makedirs(f"{room}/.git")
    shutil.copyfile("HANDLES", f"{room}/HANDLES")
    with open(f"{room}/crates.txt", "w", encoding="utf-8") as file:
        file.writelines(f"{it.name}: {' '.join(listed[it.name])}\n" for it in crates)
    for crate in crates:
        os.makedirs(f"{room}/{crate.folder}")
        for part in (*PROVED, *RUN_ON):
            path = f"{crate.folder}/{part}"
            if os.path.isdir(path):
                shutil.copytree(path, f"{room}/{path}")
            elif os.path.isfile(path):
                shutil.copyfile(path, f"{room}/{path}")


def sum_of(crates):
    """Returns a sum of all that the proofs of these crates read, but for the kit."""
    listed, found = _listed(), hashlib.sha256()
    for crate in crates:
        found.update(repr((crate.name, listed[crate.name])).encode())
        for part in PROVED:
            for at, folders, files in os.walk(f"{crate.folder}/{part}"):
                folders.sort()
                for name in sorted(files):
                    with open(f"{at}/{name}", "rb") as file:
                        found.update(repr((f"{at}/{name}", file.read())).encode())
    return found.hexdigest()
