"""The seed of what is drawn at random: printed, so that a run can be repeated."""
import os
import random
import sys


def seed(name):
    """Returns the number that OUTSIDE_SEED gives, or another one each time."""
    number = int(os.environ.get("OUTSIDE_SEED") or random.SystemRandom().randrange(10**9))
    print(f"{name}: OUTSIDE_SEED={number}", file=sys.stderr, flush=True)
    return number
