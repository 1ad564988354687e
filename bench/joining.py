#!/usr/bin/env python3
"""Times the joining and the stitching of stored graphs: the modules of a JDK, and these with the jars of the machine.

The program of bench/joining_program.txt reads a bundle for each module and each jar, makes their graphs and joins or stitches
them. It is built, with its proof, in a copy of the repository (--copy keeps the copy, and takes it where it is there). Printed
are the known types and methods, which must be as many as this script counts by itself, and the edges, unless there are more
than a call graph may have; the least milliseconds of some runs that joining and stitching took, beside those of list over the
same bundles; and the peaks of memory that they took above the graphs.
"""

import argparse
import collections
import os
import struct
import subprocess
import sys
import tempfile

import java_base
import measure
import plain
import programs
import real_input

CRATE = ("fcg_joining: fcg_grammar fcg_views fcg_classfile fcg_bytes fcg_class fcg_partial fcg_order fcg_analysis fcg_join "
         "fcg_resolve fcg_select fcg_edges fcg_stitch\n")

# the most bytes of the class files of a bundle
MOST = 60000000


def heads(bundle):
    """The names of the types of a bundle, and how many methods each has."""
    return [(view.name, len(view.methods)) for view in plain.views(bundle)]


def known(bundles):
    """How many types and methods the bundles have together, where the first of a name is taken."""
    found = {}
    for bundle in bundles:
        for name, methods in heads(bundle):
            found.setdefault(name, methods)
    return len(found), sum(found.values())


def module_bundles(home, folder):
    """A bundle for each module of a JDK."""
    modules = collections.OrderedDict()
    for path, body in real_input.module_classes(home, folder):
        body = real_input.written_as(body, min(real_input.major(body), real_input.GREATEST))
        modules.setdefault(path.split(b"/")[0], []).append((path, body))
    return [plain.pack(entries) for entries in modules.values()]


def jar_bundles(folders, most=MOST):
    """A bundle for each jar below the folders, of the class files that are read."""
    jars = collections.OrderedDict()
    for path, body in real_input.jar_classes(folders):
        if plain.class_fault(body) is None:
            jars.setdefault(path.split(b"/")[0], []).append((path, body))
    return [plain.pack(entries) for entries in jars.values() if sum(len(body) for _, body in entries) <= most]


def write_input(folder, bundles):
    """A file with the bundles, each with its length before it."""
    return measure.write(folder, "bundles", b"".join(struct.pack(">I", len(bundle)) + bundle for bundle in bundles))


def run(program, path, words=()):
    """What one run prints, and its peak of memory in bytes."""
    note = path + ".time"
    environment = dict(os.environ, GLIBC_TUNABLES=java_base.TUNABLES)
    with open(path, "rb") as source:
        done = subprocess.run(["/usr/bin/time", "-f", "%M", "-o", note, program] + list(words), stdin=source,
                              stdout=subprocess.PIPE, env=environment, check=False)
    if done.returncode != 0:
        measure.fail("the program ended with status %d" % done.returncode)
    with open(note, encoding="ascii") as text:
        peak = int(text.read().split()[-1]) * 1024
    return [int(word) for word in done.stdout.split()], peak


def list_seconds(folder, bundles, runs):
    """The least seconds of list over all bundles, one after the other, less those of starting the program as often."""
    total = 0.0
    for number, bundle in enumerate(bundles):
        path = measure.write(folder, "bundle%d" % number, bundle)
        total += min(java_base.run_once(path, [java_base.PROGRAM, "list"]) for _ in range(runs))
        os.remove(path)
    path = measure.write(folder, "empty", plain.pack([]))
    started = min(java_base.run_once(path, [java_base.PROGRAM, "list"]) for _ in range(10 * runs))
    return total - started * len(bundles)


def least(program, path, word, runs):
    """What the quickest of some runs prints, and the least peak of memory."""
    told = [run(program, path, [word]) for _ in range(runs)]
    return min((numbers for numbers, _ in told), key=lambda numbers: numbers[-1]), min(peak for _, peak in told)


def measure_set(label, program, bundles, options):
    """Joins and stitches the bundles some times, and prints what it took."""
    with tempfile.TemporaryDirectory() as folder:
        path = write_input(folder, bundles)
        _, beside = least(program, path, "graphs", 1)
        joined, join_peak = least(program, path, "join", options.runs)
        stitched, stitch_peak = least(program, path, "stitch", options.runs)
        listed = list_seconds(folder, bundles, options.runs) * 1000.0
    edges = "%d edges" % stitched[0] if stitched[0] else "too many edges"
    print("%s: %d bundles, %d bytes, %d types, %d methods, %s" % (
        label, len(bundles), sum(map(len, bundles)), joined[0], joined[1], edges))
    for name, microseconds, peak in (("joining", joined[-1], join_peak), ("stitching", stitched[-1], stitch_peak)):
        print("  %s %.1f ms, list %.1f ms, a share of %.3f; above the peak with the graphs alone %.1f MB" % (
            name, microseconds / 1000.0, listed, microseconds / 1000.0 / listed, (peak - beside) / 1e6))
    if options.count:
        counted = known(bundles)
        if counted != (joined[0], joined[1]):
            measure.fail("counted are %d types and %d methods" % counted)
        print("  counted as many")


def options_of():
    """The words of the command line."""
    parser = argparse.ArgumentParser(description=__doc__.splitlines()[0])
    parser.add_argument("--runs", type=int, default=5, help="how often each is run (5)")
    parser.add_argument("--copy", help="the folder of the copy in which the program is built")
    parser.add_argument("--count", action="store_true", help="count the types and methods too, which takes minutes")
    parser.add_argument("--most", type=int, default=MOST, help="the most bytes of the class files of a jar (%d)" % MOST)
    parser.add_argument("--jars", nargs="*", default=real_input.JAR_FOLDERS, metavar="FOLDER", help="the folders whose jars are read")
    return parser.parse_args()


def main():
    options = options_of()
    measure.ready()
    homes = real_input.jdks()
    if not homes:
        measure.fail("there is no JDK")
    with tempfile.TemporaryDirectory() as folder:
        copy = options.copy or os.path.join(folder, "copy")
        program = programs.build(programs.add_crate(copy, CRATE, "joining_program.txt", "measure_stitch"))
        modules = module_bundles(homes[0], folder)
        measure_set("the modules of " + os.path.basename(homes[0]), program, modules, options)
        measure_set("these with the jars", program, modules + jar_bundles(options.jars, options.most), options)


if __name__ == "__main__":
    sys.exit(main())
