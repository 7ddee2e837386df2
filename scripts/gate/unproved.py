"""A program that is built without proofs, in a minute or two: `rt try` compiles it with checks in place of proofs, and runs it in a
folder of its own, from which it is kept for later starts."""
import os
import shutil
import signal
import subprocess
import sys
import tempfile
import time

import crates
import kit

# Seconds between two lines that say that the build goes on.
SAY_SECONDS = 10
LOOK_SECONDS = 0.1
# What keeps each program running until it is found: its words, and its input. A server waits for a connection, and a script of two
# million lines takes seconds.
RUNNING = {"cg_server": (["--listen", "127.0.0.1:0"], b""), "cg_sim": ([], b"tick\n" * 2_000_000)}


def _say(line):
    print(line, file=sys.stderr, flush=True)


def path_of(crate):
    return f"{crate.folder}/out/unproved/{crate.name}"


def _is_kept(path, stamp):
    if not os.path.isfile(path) or not os.path.isfile(f"{path}.from"):
        return False
    with open(f"{path}.from", encoding="utf-8") as file:
        return file.read() == stamp


def _program(room):
    """Returns the path of the program in this folder that a process runs, or None."""
    for process in filter(str.isdigit, os.listdir("/proc")):
        try:
            with open(f"/proc/{process}/maps", encoding="utf-8", errors="replace") as file:
                for line in file:
                    _, rights, _, _, _, *path = line.rstrip("\n").split(None, 5)
                    if "x" in rights and path and path[0].startswith(room):
                        return path[0]
        except OSError:
            pass
    return None


def _keep(room, path):
    """Keeps the program that runs, if there is one. Returns whether there was."""
    found = _program(room)
    if found is None:
        return False
    os.makedirs(os.path.dirname(path), exist_ok=True)
    shutil.copyfile(found, f"{path}.new")
    os.chmod(f"{path}.new", 0o755)
    os.replace(f"{path}.new", path)
    return True


def _compile(crate, path):
    """Runs `rt try` until the program runs, and keeps that. Returns whether it came to that, and what `rt try` said."""
    begun = said = time.monotonic()
    words, text = RUNNING[crate.name]
    with tempfile.TemporaryDirectory(prefix="unproved-") as room, tempfile.TemporaryFile("w+") as errors, \
         tempfile.TemporaryFile() as given:
        given.write(text)
        given.seek(0)
        trying = subprocess.Popen(["rt", "try", "--", *words], cwd=crate.folder, env={**os.environ, "TMPDIR": room}, stdin=given,
                                  stdout=errors, stderr=errors)
        try:
            while trying.poll() is None:
                if _keep(f"{room}/", path):
                    return True, ""
                if time.monotonic() - said >= SAY_SECONDS:
                    said = time.monotonic()
                    _say(f"  compiling, {said - begun:.0f} s")
                time.sleep(LOOK_SECONDS)
        finally:
            trying.send_signal(signal.SIGTERM)
            trying.wait()
        errors.seek(0)
        return False, errors.read()


def build(name):
    """Returns the path of a program: proved, if it was proved of the files as they are, or else without proofs."""
    every = crates.every_crate()
    crate = next(it for it in every if it.name == name)
    if name not in RUNNING:
        sys.exit(f"gate: {name} is no program that can be built without proofs: {' and '.join(RUNNING)} are")
    stamp = f"{kit.version()} {crates.sum_of(crates.with_those_below(every, [name]))}\n"
    if _is_kept(crate.program, stamp):
        return crate.program
    path = path_of(crate)
    if not _is_kept(path, stamp):
        _say(f"building {name} without proofs, by rt try (a minute or two; kept for the next start) ..")
        begun = time.monotonic()
        is_built, said = _compile(crate, path)
        if not is_built:
            sys.exit(f"{said}gate: rt try did not build {name}")
        with open(f"{path}.from", "w", encoding="utf-8") as file:
            file.write(stamp)
        _say(f"built in {time.monotonic() - begun:.0f} s")
    _say(f"this build of {name} is not proved: it has checks in place of proofs. make install makes the proved one")
    return path
