"""What ends a run: a message for the person who started it."""


class Fault(Exception):
    """Something that a run needs is missing, or a program did not do what was expected of it."""
