"""The script program as a process that is fed blocks of lines, and the processor time that each block takes."""
import fcntl
import os
import struct
import subprocess
import termios
import time

from .processes import Process
from .usage import state

POLL_SECONDS = 0.0005


class ScriptProgram(Process):
    """A cg_sim that reads a pipe and prints to a file.

    Its one thread sleeps once it has read all and the pipe is empty. So the time that its processor clock runs between two such
    moments is what the lines between them cost, whatever else the machine does.
    """

    def __init__(self, program, folder, segments):
        self.output = os.path.join(folder, "replies")
        # Appending, so that the file can be emptied between two blocks.
        with open(self.output, "wb") as file:
            flags = fcntl.fcntl(file, fcntl.F_GETFL)
            fcntl.fcntl(file, fcntl.F_SETFL, flags | os.O_APPEND)
            super().__init__("cg_sim", [program, "--segments", str(segments)], folder, stdin=subprocess.PIPE, stdout=file)
        # The clock of another process: see clock_getcpuclockid.
        self.clock = (~self.pid << 3) | 2

    def _unread(self):
        return struct.unpack("i", fcntl.ioctl(self.popen.stdin.fileno(), termios.FIONREAD, bytes(4)))[0]

    def _is_idle(self):
        return self._unread() == 0 and state(self.pid) == "S"

    def settle(self):
        """Waits until all lines are played. Returns the processor time up to now, in seconds."""
        while not (self._is_idle() and self._is_idle()):
            if self.popen.poll() is not None:
                raise self.fault("ended early")
            time.sleep(POLL_SECONDS)
        return time.clock_gettime(self.clock)

    def play(self, lines):
        """Plays lines. Returns the processor seconds that they took, and what was printed."""
        text = "".join(f"{line}\n" for line in lines).encode()
        before = self.settle()
        try:
            self.popen.stdin.write(text)
            self.popen.stdin.flush()
        except BrokenPipeError:
            raise self.fault("ended early") from None
        seconds = self.settle() - before
        with open(self.output, "r+b") as file:
            printed = file.read()
            file.truncate(0)
        return seconds, printed

    def stop(self):
        """Ends the program by the end of its input."""
        try:
            self.popen.stdin.close()
        except BrokenPipeError:
            pass
        self.popen.kill()
        super().stop()
