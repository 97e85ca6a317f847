"""Runs the built program and measures it. The scripts beside it import this."""

import os
import subprocess
import sys
import tempfile
import time

TOP = os.path.dirname(os.path.dirname(os.path.abspath(__file__)))
PROGRAM = os.path.join(TOP, "crates", "famuvoliel", "out", "famuvoliel")
# It starts the program from a small process. A child's peak memory is never told as less than that of its parent,
# so without it no peak below this script's own, some 15 to 40 MiB, can be seen.
TIMER = "/usr/bin/time"


class Run:
    """What one run said, how it ended, how long it took, also in processor time, and the most memory that it held."""

    def __init__(self, text, status, seconds, processor, peak_kib):
        self.text, self.status, self.seconds, self.processor, self.peak_kib = text, status, seconds, processor, peak_kib


def build():
    """Has the starter prove and build the program where that is to be done."""
    started = subprocess.run([os.path.join(TOP, "famuvoliel")], stdout=subprocess.DEVNULL)
    # Without words the program itself ends with 2.
    if started.returncode != 2:
        sys.exit(f"{sys.argv[0]}: the program could not be built")


def run(words, folder, program=PROGRAM, text=""):
    """Runs the program itself, or another one, in the folder, on this text as its standard input."""
    with tempfile.TemporaryFile() as given, tempfile.TemporaryFile() as out, tempfile.NamedTemporaryFile("r") as peak:
        given.write(text.encode("ascii"))
        given.seek(0)
        timer = [TIMER, "-o", peak.name, "-f", "%M"] if os.path.exists(TIMER) else []
        start = time.monotonic()
        child = subprocess.Popen([*timer, program, *words], cwd=folder, stdin=given, stdout=out)
        _, ended, used = os.wait4(child.pid, 0)
        seconds = time.monotonic() - start
        child.returncode = os.waitstatus_to_exitcode(ended)
        out.seek(0)
        peak_kib = int(peak.read().split()[-1]) if timer else used.ru_maxrss
        return Run(out.read().decode(), child.returncode, seconds, used.ru_utime + used.ru_stime, peak_kib)


def least(times, words, folder, program=PROGRAM, text=""):
    """The run of the least processor time, of so many that say the same."""
    runs = [run(words, folder, program, text) for _ in range(times)]
    return min(runs, key=lambda ran: ran.processor)


def write(folder, name, text):
    """Writes a file of the folder."""
    with open(os.path.join(folder, name), "w", encoding="ascii") as file:
        file.write(text)


def expect(ran, text, status):
    """Stops where a run said something else than what it has to say."""
    if (ran.text, ran.status) != (text, status):
        sys.exit(f"{sys.argv[0]}: wanted {text!r} and status {status}, and got {ran.text!r} and {ran.status}")


def machine():
    """The machine's processors in a line."""
    model = "unknown"
    with open("/proc/cpuinfo", encoding="utf-8") as file:
        for line in file:
            if line.startswith("model name"):
                model = line.partition(":")[2].strip()
                break
    return f"{os.cpu_count()} processors, {model}"
