"""Runs the example scripts through the script program and compares what it prints."""
import gzip
import os
import subprocess
from concurrent.futures import ThreadPoolExecutor

SECONDS = 120


def _text(path):
    """Returns the bytes of the file, packed or not, or None where there is neither."""
    if os.path.isfile(f"{path}.gz"):
        with gzip.open(f"{path}.gz") as file:
            return file.read()
    if not os.path.isfile(path):
        return None
    with open(path, "rb") as file:
        return file.read()


def _compare(program, script):
    """Runs one script and returns what differs, or None. NAME is the input, NAME.args the program's words, one a line, and
    NAME.stdout what it must print. NAME.status is the exit status; without it, a script whose output ends in a bad line ends
    with 1, any other with 0."""
    wanted = _text(f"{script}.stdout")
    if wanted is None:
        return "there is no .stdout beside it"
    words = (_text(f"{script}.args") or b"").decode().splitlines()
    last = wanted.rstrip(b"\n").rpartition(b"\n")[2]
    try:
        ran = subprocess.run([program, *words], input=_text(script), capture_output=True, timeout=SECONDS)
    except subprocess.TimeoutExpired:
        return f"it had not ended after {SECONDS} seconds"
    if ran.stdout != wanted:
        lines = zip(ran.stdout.split(b"\n") + [b""], wanted.split(b"\n") + [b""])
        number, printed = next((i, a) for i, (a, b) in enumerate(lines, 1) if a != b)
        return f"line {number} of what it printed differs: {printed[:100].decode(errors='replace')}"
    status = int(_text(f"{script}.status") or last.startswith(b"BAD SCRIPT LINE"))
    return None if ran.returncode == status else f"it ended with status {ran.returncode}, and not {status}"


def run_cases(program, folder):
    """Runs every script of the folder. Returns the number that passed and, for each other one, its name with what differs."""
    names = {it.removesuffix(".gz") for it in os.listdir(folder)}
    scripts = sorted(it for it in names if not it.endswith((".stdout", ".args", ".status")))
    lost = sorted(it for it in names - {*scripts} if it.rpartition(".")[0] not in names)
    with ThreadPoolExecutor(os.cpu_count()) as pool:
        found = [*zip(scripts, pool.map(lambda it: _compare(program, f"{folder}/{it}"), scripts))]
    failed = [f"{name}: {why}" for name, why in found if why] + [f"{it}: there is no script" for it in lost]
    return len(scripts) - sum(1 for _, why in found if why), failed
