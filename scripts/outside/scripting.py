"""Runs scripts through the script program."""
import subprocess
from dataclasses import dataclass

SECONDS = 300


@dataclass(frozen=True)
class Ran:
    status: int
    lines: list


def run_script(program, lines, *words):
    """Returns the status, and the printed lines."""
    script = "".join(f"{line}\n" for line in lines)
    ran = subprocess.run([program, *words], input=script, capture_output=True, text=True, timeout=SECONDS)
    return Ran(ran.returncode, ran.stdout.splitlines())


def poke(sector, content):
    return f"poke {sector} x{content.rstrip(bytes(1)).hex()}"
