"""Measures the two readers alone: seconds and peak memory for a domain and a problem of 16 MB, and of a tenth.

Each command does more than read. So it has the toolchain build a small program on a copy of the crates, in a folder of its
own, which is taken away again. The program reads one file and ends with 0 where it is read.
"""

import os
import shutil
import subprocess
import sys
import tempfile

import measure

MOST_BYTES = 1 << 24
LIBRARIES = ("np_io", "np_lex", "np_syntax", "np_problem")
SOURCE = """//! Reads one file.
#![tactic(auto)]

use np_io::{FileShelf, Shelf};
use np_READS::read_READS;
use std::process::ExitCode;

fn main(rt: HostRuntime) -> ExitCode {
    let mut shelf = FileShelf::new(rt.alloc(), rt);
    let Ok(bytes) = shelf.fetch(rt.alloc(), "text", 16777216) else {
        return ExitCode::from(4);
    };
    match read_READS(rt.alloc(), bytes.as_slice()) {
        Ok(_) => ExitCode::from(0),
        Err(_) => ExitCode::from(3),
    }
}
"""


def lines():
    """The lines of crates.txt, by crate."""
    with open(os.path.join(measure.TOP, "crates.txt"), encoding="utf-8") as file:
        return {line.partition(":")[0]: line for line in file if not line.startswith("#")}


def below(names, wanted):
    """The wanted crates, and those that they stand on."""
    for name in wanted:
        if name in names and name not in below.found:
            below.found.add(name)
            below(names, names[name].partition(":")[2].split())
    return below.found


below.found = set()


def build(folder):
    """Builds a program for each of the two readers, and gives their paths."""
    names = lines()
    wanted = below(names, LIBRARIES)
    for name in wanted:
        shutil.copytree(os.path.join(measure.TOP, "crates", name), os.path.join(folder, "crates", name))
    programs = {}
    text = "".join(names[name] for name in sorted(wanted))
    for kind in ("domain", "problem"):
        text += f"reads_{kind}: np_io np_syntax np_problem\n"
        source = os.path.join(folder, "crates", f"reads_{kind}", "src")
        os.makedirs(source)
        crate = "np_syntax" if kind == "domain" else "np_problem"
        measure.write(source, "main.rt", SOURCE.replace("np_READS", crate).replace("READS", kind))
        programs[kind] = os.path.join(folder, "crates", f"reads_{kind}", "out", f"reads_{kind}")
    measure.write(folder, "crates.txt", text)
    for kind, program in programs.items():
        # It is run without a file, and then ends with another status than 0.
        ran = subprocess.run(["rt", "run"], cwd=os.path.dirname(os.path.dirname(program)), capture_output=True, text=True)
        if not os.path.exists(program):
            sys.exit(f"{sys.argv[0]}: the reader of a {kind} could not be built\n{ran.stdout}{ran.stderr}")
    return programs


def filled(head, line, tail, size):
    """A text of about this size: lines by number between a head and a tail."""
    parts, length, number = [head], len(head) + len(tail), 0
    while True:
        part = line(number)
        if length + len(part) > size:
            return "".join(parts) + tail
        parts.append(part)
        length += len(part)
        number += 1


def domain(size):
    """Actions with parameters, conditions and effects of every kind."""

    def action(n):
        return (
            f"(:action drive-{n} :parameters (?t - truck ?a ?b - place)\n"
            f" :precondition (and (at ?t ?a) (not (= ?a ?b)) (>= (fuel ?t) (* 0.{n % 9 + 1} (distance ?a ?b))))\n"
            f" :effect (and (not (at ?t ?a)) (at ?t ?b) (decrease (fuel ?t) {n % 97}.5) (increase (total-cost) (distance ?a ?b))))\n"
        )

    head = (
        "(define (domain wide) (:requirements :typing :numeric-fluents)\n(:types truck place - object)\n"
        "(:predicates (at ?t - truck ?p - place))\n(:functions (fuel ?t - truck) (distance ?a ?b - place) (total-cost) - number)\n"
    )
    return filled(head, action, ")\n", size)


def problem(size):
    """Half of it objects, and half of it atoms and values at the start."""
    objects = filled("(define (problem wide) (:domain wide)\n(:objects", lambda n: f" place-{n}", " - place)\n", size // 2)

    def fact(n):
        return f"(at truck-{n} place-{n})\n" if n % 2 else f"(= (distance place-{n} place-{n + 1}) {n % 1000}.25)\n"

    return objects + filled("(:init ", fact, ")\n(:goal (at truck-1 place-1))\n(:metric minimize (total-cost)))\n", size - len(objects))


def report():
    """Prints a line for each of the four texts. Seconds are of processor time."""
    print(f"{'file':>8} {'bytes':>10} {'seconds':>9} {'MB/s':>7} {'peak MiB':>9} {'of the file':>12}")
    with tempfile.TemporaryDirectory() as folder:
        programs = build(folder)
        for kind, text_of in (("domain", domain), ("problem", problem)):
            for size in (MOST_BYTES // 10, MOST_BYTES):
                text = text_of(size)
                measure.write(folder, "text", text)
                ran = measure.run([], folder, programs[kind])
                measure.expect(ran, "", 0)
                peak = ran.peak_kib * 1024 / len(text)
                print(f"{kind:>8} {len(text):>10} {ran.processor:>9.3f} {len(text) / ran.processor / 1e6:>7.1f} {ran.peak_kib / 1024:>9.1f} {peak:>12.1f}")
