"""Which functions the prover takes long over, by the times of the files that a crate's last checks left in out/: the time between two
files counts for the function of the second. With more than one job, and on a busy machine, only the order of the functions says much."""
import os
from collections import Counter

# Where `rt check` keeps its work, in a crate's folder.
KEPT = "out/incremental"

# A file of the proof library, and of a function's theorem in it.
SUFFIX, THEOREM = ".oantt", ".Met"

# Longer than a function takes: a pause between two checks.
PAUSE_SECONDS = 240


def _function_of(module, functions):
    """Returns the function that a module is about, or the module where it is about none."""
    name = module
    while name and name not in functions:
        name = name.rpartition(".")[0]
    return name or module


def seconds_of(crate):
    """Returns the seconds that each function of the crate took."""
    found = []
    for folder, _, names in os.walk(f"{crate.folder}/{KEPT}"):
        modules = [it for it in names if it.endswith(SUFFIX) and "-proofs." in it]
        found += [(os.stat(f"{folder}/{it}").st_mtime, it.removesuffix(SUFFIX).partition("-proofs.")[2]) for it in modules]
    found.sort()
    functions = {module.removesuffix(THEOREM) for _, module in found if module.endswith(THEOREM)}
    seconds = Counter()
    for (before, _), (after, module) in zip(found, found[1:]):
        if after - before < PAUSE_SECONDS:
            seconds[_function_of(module, functions)] += after - before
    return seconds
