"""The yardstick, for the script beside it: a search written in Rust elsewhere, which reads the text of `list`.

Its source isn't part of the repository. It takes the budget as its word, and answers in one line that begins as that of
`solve` and goes on with `; expanded N, states M, ..`.
"""

import os
import re
import shutil
import subprocess
import sys

import measure


def compiled(source, folder):
    """The path of the yardstick, built from its source into the folder; none where it is to be left out, which is said."""
    if source is None:
        print("the yardstick is left out: its source isn't given")
        return None
    rustc = shutil.which("rustc") or shutil.which("rustc", path=os.path.expanduser("~/.cargo/bin"))
    if rustc is None:
        print("the yardstick is left out: there is no rustc")
        return None
    program = os.path.join(folder, "yardstick")
    subprocess.run([rustc, "-O", "--cap-lints", "allow", "-o", program, os.path.abspath(source)], check=True)
    return program


def run(program, times, listing, nodes, folder, answer):
    """Runs it, compares what it says with the answer of `solve`, and gives the run, and how many states it expanded."""
    ran = measure.least(times, [str(nodes)], folder, program, listing)
    said = re.match(r"(.*); expanded (\d+), states (\d+), ", ran.text)
    if ran.status or not said or said[1] != answer.rpartition(", weak")[0]:
        sys.exit(f"{sys.argv[0]}: wanted {answer!r} of the yardstick, and got {ran.text!r}")
    return ran, int(said[2])
