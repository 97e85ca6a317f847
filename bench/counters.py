"""The counters of tasks.py, state by state, for the script beside it that writes certificates.

How far a state is from the start is the sum of its values.
"""

import itertools
import sys

import measure
import tasks

MOST = 46
TASK = tasks.counters(MOST)
# All states, those of least cost first.
STATES = sorted(itertools.product(range(MOST + 1), repeat=3), key=sum)


def write_pair(folder):
    """Writes domain.pddl and problem.pddl of the folder, and stops where `list` numbers the values in another order."""
    TASK.write(folder)
    ran = measure.run(["list", "domain.pddl", "problem.pddl"], folder)
    values = [line for line in ran.text.splitlines() if line.startswith("value ")]
    if [f"(value {name})" in line for name, line in zip("abc", values)] != [True] * 3:
        sys.exit(f"{sys.argv[0]}: `list` has the values {values} in place of those of a, b and c")


def bound(nodes):
    """The cost of the state that comes next after so many in the order of the search."""
    return TASK.bound(nodes)
