"""The servers that are loaded: the coordinator's, Redis, PostgreSQL, and a stub that keeps nothing. Each listens on 127.0.0.1."""
import glob
import os
import pwd
import shutil
import signal
import socket
import subprocess
import time
from dataclasses import dataclass
from typing import Callable

from .fault import Fault
from .processes import Process

HOST = "127.0.0.1"
GROUPS = 64
PARTITIONS = 50
START_SECONDS = 30


@dataclass(frozen=True)
class Target:
    """A server that runs: how load.c talks to it, and what reads back the offsets that it holds."""

    name: str
    protocol: str
    process: Process
    port: int
    stored: Callable[[], dict]


def free_port():
    with socket.socket() as it:
        it.bind((HOST, 0))
        return it.getsockname()[1]


def preloaded(settings, library):
    """Returns the environment of a server, with the slower syncs where they are asked for."""
    if not settings.slow_ms:
        return dict(os.environ)
    return dict(os.environ, LD_PRELOAD=library, SLOW_MS=f"{settings.slow_ms:g}")


def _until(process, is_ready):
    """Waits until a server is ready."""
    end = time.monotonic() + START_SECONDS
    while not is_ready():
        if process.popen.poll() is not None:
            raise process.fault("ended at its start")
        if time.monotonic() > end:
            raise process.fault(f"was not ready after {START_SECONDS} s")
        time.sleep(0.05)


def ask(port, lines):
    """Sends request lines to the coordinator, and returns a reply for each."""
    with socket.create_connection((HOST, port), START_SECONDS) as stream:
        replies = stream.makefile("r")
        answers = []
        for line in lines:
            stream.sendall(f"{line}\n".encode())
            answers.append(replies.readline().rstrip("\n"))
        return answers


class Coordinator(Process):
    """A cg_server, with its port once its log is loaded, and how long the load took."""

    def __init__(self, program, folder, words, env=None):
        words = [program, "--listen", f"{HOST}:0", *words]
        super().__init__("cg_server", words, folder, signal.SIGKILL, stdout=subprocess.PIPE, text=True, env=env)
        try:
            listening = self.expect("LISTENING")
            begin = time.perf_counter()
            loaded = self.expect("LOADED")
        except BaseException:
            self.stop()
            raise
        self.load_seconds = time.perf_counter() - begin
        self.port = int(listening[1].rpartition(":")[2])
        self.loaded = [int(it) for it in loaded[1:]]

    def stored(self):
        """Returns the offset of each partition that the load sets."""
        found = {}
        partitions = " ".join(f"t:{it}" for it in range(PARTITIONS))
        for group, reply in enumerate(ask(self.port, [f"FETCH g{it} {partitions}" for it in range(GROUPS)])):
            for word in reply.split()[1:]:
                _, partition, offset, _ = word.split(":")
                found[f"g{group}", int(partition)] = int(offset)
        return found


def start_coordinator(stack, settings, folder, env):
    log = os.path.join(folder, "log")
    words = ["--disk", log, "--overwrite", "--segments", "200", "--compact-free", "120"]
    process = stack.enter_context(Coordinator(settings.server, folder, words, env))
    return Target("`cg_server`", "line", process, process.port, process.stored)


def start_stub(stack, load, folder, threads):
    process = stack.enter_context(Process("stub", [load, "stub", str(threads)], folder, stdout=subprocess.PIPE, text=True))
    port = int(process.expect("LISTENING")[1].rpartition(":")[2])
    return Target("stub", "line", process, port, dict)


def _redis_list(replies):
    """Reads a list of strings, each of which has a line with its length before it."""
    count = int(replies.readline()[1:])
    lines = [replies.readline().rstrip("\r\n") for _ in range(2 * count)]
    return lines[1::2]


def _redis_stored(port):
    found = {}
    with socket.create_connection((HOST, port), START_SECONDS) as stream:
        replies = stream.makefile("r", newline="\r\n")
        for group in range(GROUPS):
            stream.sendall(f"HGETALL g{group}\r\n".encode())
            words = _redis_list(replies)
            for field, offset in zip(words[::2], words[1::2]):
                found[f"g{group}", int(field.partition(":")[2])] = int(offset)
    return found


def _answers(port):
    try:
        socket.create_connection((HOST, port), 1).close()
        return True
    except OSError:
        return False


def start_redis(stack, folder, env):
    """Starts Redis, where it is installed."""
    program = shutil.which("redis-server")
    if not program:
        return None
    port = free_port()
    words = [program, "--port", str(port), "--bind", HOST, "--dir", folder, "--appendonly", "yes", "--appendfsync", "always",
             "--save", "", "--daemonize", "no"]
    process = stack.enter_context(Process("Redis", words, folder, env=env))
    _until(process, lambda: _answers(port))
    return Target("Redis", "redis", process, port, lambda: _redis_stored(port))


def _postgres_program(name):
    """Returns the path of a program of PostgreSQL, which Debian does not put on the PATH."""
    return shutil.which(name) or next(iter(sorted(glob.glob(f"/usr/lib/postgresql/*/bin/{name}"))[::-1]), None)


def _postgres_user(folder):
    """Returns the words for Popen that start PostgreSQL as a user who is not root, and gives that user the folder."""
    if os.geteuid():
        return {}
    try:
        user = pwd.getpwnam("postgres")
    except KeyError:
        raise Fault("PostgreSQL does not run as root, and there is no user postgres") from None
    os.chown(folder, user.pw_uid, user.pw_gid)
    return {"user": user.pw_uid, "group": user.pw_gid, "extra_groups": []}


def start_postgres(stack, folder, env, connections):
    """Starts PostgreSQL with an empty table, where it is installed."""
    program, init, client = (_postgres_program(name) for name in ("postgres", "initdb", "psql"))
    if not (program and init and client):
        return None
    port, data = free_port(), os.path.join(folder, "data")
    user = _postgres_user(folder)
    made = subprocess.run([init, "-D", data, "-A", "trust", "-U", "postgres", "-N"], capture_output=True, text=True, check=False,
                          cwd=folder, **user)
    if made.returncode:
        raise Fault(f"initdb failed: {made.stderr.strip()}")
    options = {"port": port, "listen_addresses": HOST, "unix_socket_directories": "", "max_connections": connections + 50,
               "fsync": "on", "synchronous_commit": "on"}
    words = [program, "-D", data, *(word for name, value in options.items() for word in ("-c", f"{name}={value}"))]
    process = stack.enter_context(Process("PostgreSQL", words, folder, signal.SIGINT, env=env, cwd=folder, **user))

    def ask_sql(text):
        words = [client, "-h", HOST, "-p", str(port), "-U", "postgres", "-AtF", " ", "-c", text]
        return subprocess.run(words, capture_output=True, text=True, check=False, cwd=folder)

    def stored():
        rows = (line.split() for line in ask_sql("select grp, part, off from offsets").stdout.splitlines())
        return {(group, int(part)): int(offset) for group, part, offset in rows}

    _until(process, lambda: ask_sql("select 1").returncode == 0)
    table = ask_sql("create table offsets(grp text, part int, off bigint not null, primary key (grp, part))")
    if table.returncode:
        raise Fault(f"PostgreSQL made no table: {table.stderr.strip()}")
    return Target("PostgreSQL", "postgres", process, port, stored)
