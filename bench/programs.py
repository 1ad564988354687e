#!/usr/bin/env python3
"""What the scripts share that build a program of their own, with its proof, in a copy of the repository."""

import os
import shutil
import subprocess

import measure

# which count of steps a function takes that opens one for nobody
GHOSTS = """use Rattle.%(crate)s.proofs.%(function)s.Given as goal

abbrev pub ghosts-stitch_with : goal.ghosts-stitch_with
ghosts-stitch_with a = record { name = a.blank.name; parts = a.blank.parts }
"""


def add_crate(copy, line, program, function):
    """The folder of a program's crate in a copy of the repository, with the program as it is now.

    `line` is that of crates.txt, `program` a file of bench/, and `function` the one of the program that calls its
    `stitch_with`.
    """
    crate = line.split(":")[0]
    if not os.path.exists(os.path.join(copy, "crates.txt")):
        shutil.copytree(measure.TOP, copy, dirs_exist_ok=True, ignore=shutil.ignore_patterns(".git", "bench"))
    with open(os.path.join(copy, "crates.txt"), encoding="utf-8") as source:
        listed = source.read()
    if line not in listed:
        measure.write(copy, "crates.txt", (listed + line).encode())
    folder = os.path.join(copy, "crates", crate)
    proofs = os.path.join(folder, "proofs", function)
    os.makedirs(os.path.join(folder, "src"), exist_ok=True)
    os.makedirs(proofs, exist_ok=True)
    shutil.copy(os.path.join(measure.TOP, "bench", program), os.path.join(folder, "src", "main.rt"))
    measure.write(proofs, "Invariants.antt", (GHOSTS % {"crate": crate, "function": function}).encode())
    return folder


def build(folder):
    """The program of a crate, proved and built; what it says of no input is thrown away."""
    program = os.path.join(folder, "out", os.path.basename(folder))
    done = subprocess.run(["rt", "run"], cwd=folder, stdin=subprocess.DEVNULL, stdout=subprocess.PIPE,
                          stderr=subprocess.STDOUT, check=False)
    if not os.path.exists(program):
        measure.fail("the program was not built: " + done.stdout.decode("utf-8", "replace")[-2000:])
    return program
