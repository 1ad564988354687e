#!/usr/bin/env python3
"""Compares the stitching of sets with the model of call_graph.py, on worked cases and on random sets.

The program of bench/stitching_program.txt reads the sets in the form of short_form.py, stitches each, and prints its nodes, its
edges, the statuses of its sites and the counts, which must be those of the model, line by line. It is built, with its proof, in a
copy of the repository (--copy keeps the copy, and takes it where it is there); with --try it is run there without a
proof. At the first difference the set is printed, and the exit status is 1. With --text the sets and the lines that the model
gives are written to a folder, and nothing is run.
"""

import argparse
import os
import subprocess
import sys
import tempfile

import call_graph
import call_graph_cases
import measure
import programs
import random_sets
import short_form

CRATE = ("fcg_stitching: fcg_grammar fcg_views fcg_bytes fcg_partial fcg_order fcg_analysis fcg_join fcg_resolve fcg_select "
         "fcg_edges fcg_stitch fcg_cases\n")

# the bounds of a run with --try: of the steps of the interpreter, which is too slow for many sets, and of the seconds of the
# program that is compiled without a proof and runs after it
STEPS = "1000"
SECONDS = "500"


def make_copy(copy):
    """The folder of the program's crate in a copy of the repository, with the program as it is now."""
    return programs.add_crate(copy, CRATE, "stitching_program.txt", "lines_of")


def run_words(words, folder, text):
    """What a command prints in a folder on a text; its errors go to a file beside, whose end is shown where it fails."""
    errors = os.path.join(folder, "errors")
    with open(errors, "wb") as sink:
        done = subprocess.run(words, cwd=folder, input=text.encode(), stdout=subprocess.PIPE, stderr=sink, check=False)
    if done.returncode != 0:
        with open(errors, "rb") as source:
            told = done.stdout[-2000:] + source.read()[-2000:]
        measure.fail("%s ended with status %d: %s" % (" ".join(words), done.returncode, told.decode("utf-8", "replace")))
    return done.stdout.decode()


def run_unproved(copy, text):
    """What the program prints on a text, without a proof."""
    return run_words(["rt", "try", "--steps", STEPS, "--seconds", SECONDS], make_copy(copy), text)


def build_and_run(copy, text):
    """What the proved program prints on a text."""
    folder = make_copy(copy)
    return run_words([programs.build(folder)], folder, text)


def all_sets(options):
    """The sets of the worked cases and the random ones."""
    cases = [call_graph_cases.releases_of(case.releases) for case in call_graph_cases.CASES]
    found = random_sets.make_sets(options.sets, options.seed)
    random_sets.check_sets(cases + found)
    return cases + found


def wanted_lines(releases):
    """The lines that the program must print of a set."""
    return list(call_graph.lines(call_graph.analyse(releases))) + ["end"]


def split_sets(text):
    """The lines that were printed of each set."""
    lines = []
    for line in text.splitlines():
        lines.append(line)
        if line == "end":
            yield lines
            lines = []
    if lines:
        yield lines


def show_difference(number, releases, told, wanted):
    """Prints a set of which the program says something else than the model, and the first line that differs."""
    sys.stdout.write(short_form.write_set(releases))
    pairs = list(zip(told + ["(nothing)"], wanted + ["(nothing)"]))
    first = next(((one, other) for one, other in pairs if one != other), pairs[-1])
    measure.fail("of set %d the program says '%s', and the model '%s'" % (number, *first))


def compare(sets, text):
    """Compares what the program printed with the model; the first difference ends the script."""
    told = list(split_sets(text))
    for number, releases in enumerate(sets):
        wanted = wanted_lines(releases)
        lines = told[number] if number < len(told) else []
        if lines != wanted:
            show_difference(number, releases, lines, wanted)
    if len(told) != len(sets):
        measure.fail("the program printed %d sets for %d" % (len(told), len(sets)))
    edges = sum(line.startswith("edge ") for lines in told for line in lines)
    print("%d sets, %d edges: the program says what the model says" % (len(sets), edges))


def options_of():
    """The words of the command line."""
    parser = argparse.ArgumentParser(description=__doc__.splitlines()[0])
    random_sets.add_options(parser)
    parser.add_argument("--try", dest="unproved", action="store_true", help="run the program without a proof")
    parser.add_argument("--copy", help="the folder of the copy in which the program is built")
    parser.add_argument("--text", metavar="FOLDER", help="write the sets and the model's lines to files of this folder")
    return parser.parse_args()


def main():
    options = options_of()
    sets = all_sets(options)
    text = "".join(short_form.write_set(releases) for releases in sets)
    if options.text:
        measure.write(options.text, "sets", text.encode())
        lines = [line for releases in sets for line in wanted_lines(releases)]
        measure.write(options.text, "lines", "\n".join(lines + [""]).encode())
        return
    with tempfile.TemporaryDirectory() as folder:
        run = run_unproved if options.unproved else build_and_run
        compare(sets, run(options.copy or os.path.join(folder, "copy"), text))


if __name__ == "__main__":
    sys.exit(main())
