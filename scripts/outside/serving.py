"""A server that was started, connections to it, and the lines that come over them.

No wait here is for a fixed time: each ends with an event, and the limit only says when to give up.
"""
import queue
import socket
import subprocess
import threading

# Seconds after which something that has to come is missing. A machine whose processors are all busy needs a part of it.
WAIT_SECONDS = 60


def run(program, *words, output=subprocess.PIPE, script=b"", **how):
    """Runs a program to its end."""
    how = {"input": script, "stdout": output, "stderr": subprocess.PIPE, "timeout": WAIT_SECONDS, **how}
    return subprocess.run([program, *words], **how)


class Server:
    """A cg_server on a free port. It is killed at the end of a `with` block if it did not end before."""

    def __init__(self, program, *words, **how):
        self.process = subprocess.Popen([program, "--listen", "127.0.0.1:0", *words], stdin=subprocess.DEVNULL,
                                        stdout=subprocess.PIPE, stderr=subprocess.PIPE, text=True, **how)
        self._lines = queue.Queue()
        self.warnings = []
        self._readers = [threading.Thread(target=it, daemon=True) for it in (self._read_output, self._read_warnings)]
        for reader in self._readers:
            reader.start()
        self.port = None

    def _read_output(self):
        for line in self.process.stdout:
            self._lines.put(line.rstrip("\n"))
        self._lines.put(None)

    def _read_warnings(self):
        self.warnings.extend(self.process.stderr)

    def line(self):
        """Returns the next line of standard output, or None at its end."""
        try:
            return self._lines.get(timeout=WAIT_SECONDS)
        except queue.Empty:
            raise TimeoutError("the server printed no further line") from None

    def listen(self):
        """Waits until connections are accepted."""
        line = self.line()
        if line is None or not line.startswith("LISTENING "):
            raise RuntimeError(f"the server did not listen: {line}")
        self.port = int(line.rpartition(":")[2])
        return self

    def load(self):
        """Waits until the log is loaded too. Returns the numbers of commands, records and offsets."""
        if self.port is None:
            self.listen()
        line = self.line()
        if line is None or not line.startswith("LOADED "):
            raise RuntimeError(f"the server did not load: {line}")
        return tuple(int(word) for word in line.split()[1:])

    def connect(self):
        return Connection(self.port)

    def end(self):
        """Waits for the end of the server. Returns its status, and the lines that were not read before."""
        self.process.wait(WAIT_SECONDS)
        self._join()
        lines = []
        while (line := self._lines.get(timeout=WAIT_SECONDS)) is not None:
            lines.append(line)
        return self.process.returncode, lines

    def kill(self):
        """Kills the server with SIGKILL."""
        self.process.kill()
        self.process.wait(WAIT_SECONDS)
        self._join()

    def _join(self):
        for reader in self._readers:
            reader.join(WAIT_SECONDS)
        self.process.stdout.close()
        self.process.stderr.close()

    def __enter__(self):
        return self

    def __exit__(self, *_):
        if self.process.poll() is None:
            self.kill()


class Connection:
    """A connection that sends request lines and reads reply lines."""

    def __init__(self, port):
        self.stream = socket.create_connection(("127.0.0.1", port), WAIT_SECONDS)
        self.stream.setsockopt(socket.IPPROTO_TCP, socket.TCP_NODELAY, 1)
        self._replies = self.stream.makefile("rb")

    def send(self, *lines):
        """Sends these lines in one write."""
        self.send_bytes("".join(f"{line}\n" for line in lines).encode())

    def send_bytes(self, data):
        self.stream.sendall(data)

    def reply(self):
        """Returns the next reply line; the empty string if the connection ended."""
        return self._replies.readline().decode().rstrip("\n")

    def replies(self, count):
        return [self.reply() for _ in range(count)]

    def ask(self, line):
        """Sends a line and returns its reply."""
        self.send(line)
        return self.reply()

    def end_of_lines(self):
        """Sends no more. Returns all that the server still sends before it ends the connection."""
        self.stream.shutdown(socket.SHUT_WR)
        return self.rest()

    def rest(self):
        """Returns all that the server sends before it ends the connection."""
        return self._replies.read().decode()

    def close(self):
        self._replies.close()
        self.stream.close()

    def __enter__(self):
        return self

    def __exit__(self, *_):
        self.close()
