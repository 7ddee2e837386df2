"""Processes that a part starts, and their end: each is stopped when the part ends, however that comes."""
import os
import shutil
import signal
import subprocess

from .fault import Fault

HERE = os.path.dirname(os.path.abspath(__file__))
STOP_SECONDS = 20


class Process:
    """A process with its output in a file, stopped at the end of a `with`."""

    def __init__(self, name, words, folder, stop_by=signal.SIGTERM, **how):
        self.name, self.stop_by = name, stop_by
        self.log = os.path.join(folder, f"{name.replace(' ', '_')}.log")
        how.setdefault("stdin", subprocess.DEVNULL)
        with open(self.log, "w") as log:
            how.setdefault("stdout", log)
            # A session of its own: Ctrl-C reaches the driver alone, which stops what it started.
            self.popen = subprocess.Popen(words, stderr=log, start_new_session=True, **how)
        self.pid = self.popen.pid

    def __enter__(self):
        return self

    def __exit__(self, *_):
        self.stop()

    def stop(self):
        """Asks the process to end, and kills it where it does not."""
        if self.popen.poll() is None:
            self.popen.send_signal(self.stop_by)
            try:
                self.popen.wait(STOP_SECONDS)
            except subprocess.TimeoutExpired:
                self.popen.kill()
                self.popen.wait()
        for stream in (self.popen.stdin, self.popen.stdout):
            if stream:
                stream.close()

    def said(self):
        """Returns the end of what the process wrote to its file."""
        with open(self.log, errors="replace") as file:
            return file.read()[-600:].strip()

    def fault(self, what):
        """Returns a fault that says what the process did, and what it said."""
        ended = self.popen.poll()
        status = f" (status {ended})" if ended is not None else ""
        return Fault(f"{self.name} {what}{status}: {self.said() or 'it said nothing'}")

    def expect(self, word):
        """Reads a line of standard output that begins with this word. Returns its words."""
        words = self.popen.stdout.readline().split()
        if words[:1] != [word]:
            raise self.fault(f"printed {' '.join(words) or 'nothing'} in place of {word}")
        return words


def compile_c(name, target, *flags):
    """Compiles a file of this folder by gcc."""
    if not shutil.which("gcc"):
        raise Fault("gcc is missing, which builds the load generator")
    words = ["gcc", "-O2", "-Wall", "-Wextra", "-pthread", *flags, "-o", target, os.path.join(HERE, name)]
    ran = subprocess.run(words, capture_output=True, text=True, check=False)
    if ran.returncode:
        raise Fault(f"{' '.join(words)} failed:\n{ran.stderr}")
    return target


def has_room(folder, mib):
    """Ends the run where the disk of a folder has less room than this."""
    free = shutil.disk_usage(folder).free >> 20
    if free < mib:
        raise Fault(f"{folder} has {free} MiB free, and {mib} MiB are needed: give another --folder")
