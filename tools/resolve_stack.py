#!/usr/bin/env python3
"""Says how many KB of stack resolve needs for each file that tools/resolve_runs.py makes, the deepest chains among them.

usage: tools/resolve_stack.py [PROGRAM]

PROGRAM is crates/resolve/out/resolve if not said otherwise, which is built if need be. The need is found by running it under lower and lower limits, to 4 KB; with a limit it
either gives the lines owed or is killed.
"""

import sys

from built import built
from resolve_runs import made_runs
from runs import difference

MOST = 65536


def need(command, run):
    """The lowest limit in KB, to 4, under which the run gives what is owed; None if no limit is high enough."""

    def fits(stack):
        return difference(command, run._replace(stack=stack)) is None

    low, high = 0, MOST
    if not fits(high):
        return None
    while high - low > 4:
        middle = (low + high) // 2
        low, high = (low, middle) if fits(middle) else (middle, high)
    return high


def main():
    command = sys.argv[1:] or [built("resolve stack", "resolve")]
    if command[0] is None:
        return
    needs = [(need(command, run), run.name) for run in made_runs()]
    for stack, name in sorted(needs, key=lambda row: -(row[0] or MOST + 1)):
        print(f"{stack or f'over {MOST}':>8} KB  {name}")


if __name__ == "__main__":
    main()
