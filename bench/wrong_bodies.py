#!/usr/bin/env python3
"""Tries the wrong bodies that the gate doesn't.

Each crate keeps the ten that tell most in its folder must-fail, and the gate tries these. The others stand in
bench/wrong_bodies, a folder for each crate. They are put into a copy of the repository, and `rt must-fail` tries them there:
each has to be refused.
"""

import argparse
import os
import shutil
import subprocess
import sys
import tempfile

import measure

FOLDER = os.path.join(measure.TOP, "bench", "wrong_bodies")


def try_crates(copy, crates):
    """Puts the wrong bodies of the crates in place of those in a copy, and tries them; whether all were refused."""
    for crate in os.listdir(os.path.join(copy, "crates")):
        target = os.path.join(copy, "crates", crate, "must-fail")
        shutil.rmtree(target, ignore_errors=True)
        if crate in crates:
            shutil.copytree(os.path.join(FOLDER, crate), target)
    done = subprocess.run(["rt", "must-fail"] + crates, cwd=copy, check=False)
    return done.returncode == 0


def main():
    known = sorted(os.listdir(FOLDER))
    parser = argparse.ArgumentParser(description=__doc__.splitlines()[0])
    parser.add_argument("crates", nargs="*", default=known, help="the crates whose wrong bodies are tried (all)")
    crates = parser.parse_args().crates
    for crate in crates:
        if crate not in known:
            measure.fail("bench/wrong_bodies has no " + crate)
    with tempfile.TemporaryDirectory() as folder:
        copy = os.path.join(folder, "copy")
        shutil.copytree(measure.TOP, copy, ignore=shutil.ignore_patterns(".git", "bench", "out"))
        if not try_crates(copy, crates):
            measure.fail("not all were refused")


if __name__ == "__main__":
    sys.exit(main())
