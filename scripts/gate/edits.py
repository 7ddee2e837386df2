"""Edits that the prover must refuse: `must-fail/` of a crate has those that the gate tries, `mutants/` the others. An edit is a file with a
line `file: PATH` and pairs of lines `old: TEXT` and `new: TEXT`; lines that begin with # are comments."""
import os
import re
import shutil
import subprocess
import tempfile

import crates
import kit

FOLDERS = ("must-fail", "mutants")
TRIED = re.compile(r"(?:rt: )?must-fail (\w+)/([\w.-]+\.edit): (refused|NOT REFUSED|BAD EDIT|NOT TRIED)(.*)")


def edits_of(crate):
    """Returns the paths of the crate's edits, in the order of their names."""
    found = [f"{crate.folder}/{folder}/{name}" for folder in FOLDERS if os.path.isdir(f"{crate.folder}/{folder}") for name in os.listdir(f"{crate.folder}/{folder}")]
    return sorted((it for it in found if it.endswith(".edit")), key=os.path.basename)


def _why_unfit(crate, edit):
    """Returns why an edit cannot be applied to its crate, or None."""
    texts, path, old, pairs = {}, None, None, 0
    with open(edit, encoding="utf-8") as file:
        lines = file.read().split("\n")
    for line in lines:
        if line.startswith("file: "):
            path, old = f"{crate.folder}/{line[6:].strip()}", None
            if not os.path.isfile(path):
                return f"there is no file {path}"
            if path not in texts:
                with open(path, encoding="utf-8") as file:
                    texts[path] = file.read()
        elif line.startswith("old: "):
            old = line[5:]
        elif line.startswith("new:"):
            if path is None or old is None:
                return "a line 'new:' comes before any 'file:' or 'old:'"
            if texts[path].count(old) != 1:
                return f"{old!r} is {texts[path].count(old)} times in {path}, and not once"
            texts[path], old, pairs = texts[path].replace(old, line[4:].removeprefix(" ")), None, pairs + 1
        elif line.strip() and not line.startswith("#"):
            return f"a line is neither a comment nor 'file:', 'old:' or 'new:': {line[:60]}"
    return None if pairs else "it has no pair of 'old:' and 'new:'"


def unfit_edits(every):
    """Returns a line for each edit that cannot be applied, and for each name that a crate has twice."""
    found = []
    for crate in every:
        edits = edits_of(crate)
        found += [f"{it}: {why}" for it in edits for why in [_why_unfit(crate, it)] if why]
        names = [os.path.basename(it) for it in edits]
        found += [f"{crate.name}: two edits are named {it}" for it in {*names} if names.count(it) > 1]
    return found


def sampled(edits, number):
    """Returns this many edits, those from a place on that the sum of the commit decides, so that the samples of many commits go through all
    of them. They are neighbours, since the first edit of a crate costs a proof of it."""
    commit = subprocess.run(["git", "rev-parse", "HEAD"], capture_output=True, text=True, check=True).stdout.strip()
    first = int(commit, 16) % len(edits)
    return [edits[(first + it) % len(edits)] for it in range(min(number, len(edits)))]


def try_edits(every, chosen, number=None):
    """Tries the edits of the chosen crates, or this many of them, by `rt ci` over a copy in which they are the crates' must-fail edits.
    Results are kept on the machine, so a run that was stopped goes on. Returns the exit status."""
    edits = [(crate, it) for crate in chosen for it in edits_of(crate)]
    if not edits:
        print("0 refused, 0 not refused")
        return 0
    edits = sampled(edits, number) if number else edits
    names = [crate.name for crate, _ in edits]
    outcomes = {}

    def on_line(line):
        tried = TRIED.match(line)
        if tried:
            outcomes[tried[1], tried[2]] = tried[3]
        print(line, flush=True)

    with tempfile.TemporaryDirectory(prefix="mutants-") as room:
        crates.copy(crates.with_those_below(every, names), f"{room}/repository")
        for crate, edit in edits:
            folder = f"{room}/repository/{crate.folder}/must-fail"
            os.makedirs(folder, exist_ok=True)
            shutil.copy(edit, folder)
        kit.ci(f"{room}/repository", on_line=on_line)
    wrong = [f"{crate.name}/{os.path.basename(it)}: {outcomes.get((crate.name, os.path.basename(it)), 'not tried')}" for crate, it in edits]
    wrong = [it for it in wrong if not it.endswith(": refused")]
    print("\n".join([*wrong, f"{len(edits) - len(wrong)} refused, {len(wrong)} not refused"]))
    return 1 if wrong else 0
