"""Counts what passed, what failed and what was left out."""
import contextlib
import traceback


class Report:
    """The result of a run: a failed check is printed at once, and so is one that is left out."""

    def __init__(self):
        self.passed = self.failed = self.left_out = 0

    def equal(self, name, found, wanted):
        """Passes if both are equal."""
        self.holds(name, found == wanted, f"found {_short(found)}, wanted {_short(wanted)}")

    def holds(self, name, is_true, why=""):
        """Passes if the condition is true."""
        if is_true:
            self.passed += 1
        else:
            self.failed += 1
            print(f"FAILED {name}: {why}", flush=True)

    def leave_out(self, name, why):
        self.left_out += 1
        print(f"left out {name}: {why}", flush=True)

    @contextlib.contextmanager
    def check(self, name):
        """Counts an exception within the block as a failed check."""
        try:
            yield
        except (Exception, SystemExit) as error:
            line = traceback.extract_tb(error.__traceback__)[-1]
            self.holds(name, False, f"{type(error).__name__}: {_short(str(error))} ({line.name}, line {line.lineno})")


def _short(value):
    text = value.replace("\n", " ") if isinstance(value, str) else repr(value)
    return text if len(text) <= 400 else f"{text[:200]} .. {text[-200:]}"
