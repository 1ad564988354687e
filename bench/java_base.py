#!/usr/bin/env python3
"""Times list and sites over all class files of the module java.base, beside cat of the same bytes.

The bundle is made of the class files of the oldest JDK on the machine, those of a newer version with the greatest
that they may have. Each command reads it from a file and writes to /dev/null; of each the least seconds of some runs
are printed, the megabytes of class files a second, and the peak memory of one more run by time(1), also as a share of
the bundle. Runs of the commands take turns, so that what else the machine does is in all of them. With --program the
built program is run itself, in the environment that ./fcg gives it, else ./fcg, whose look at the sources is part of
its time. With --keep the bundle stays where the option says. With --instructions valgrind counts the instructions of
one run of each.
"""

import argparse
import os
import re
import subprocess
import sys
import tempfile
import time

import measure
import plain
import real_input

# what ./fcg sets for glibc
TUNABLES = "glibc.malloc.hugetlb=1:glibc.malloc.top_pad=4194304:glibc.malloc.mmap_threshold=1073741824"

PROGRAM = os.path.join(measure.TOP, "crates", "fcg_tool", "out", "fcg_tool")


def run_once(path, words):
    """The seconds of one run on a file, its output thrown away."""
    with open(path, "rb") as source:
        begin = time.perf_counter()
        done = subprocess.run(words, stdin=source, stdout=subprocess.DEVNULL, check=False)
        took = time.perf_counter() - begin
    if done.returncode != 0:
        measure.fail("%s ended with status %d" % (" ".join(words), done.returncode))
    return took


def count_instructions(folder, path, words):
    """How many instructions one run takes, as valgrind counts them; None without valgrind."""
    note = os.path.join(folder, "counted")
    full = ["valgrind", "--tool=callgrind", "--callgrind-out-file=" + note] + words
    try:
        with open(path, "rb") as source:
            subprocess.run(full, stdin=source, stdout=subprocess.DEVNULL, stderr=subprocess.DEVNULL, check=True)
        with open(note, encoding="utf-8", errors="replace") as text:
            found = re.search(r"^(?:summary|totals): (\d+)", text.read(), re.M)
    except (OSError, subprocess.CalledProcessError):
        return None
    return int(found.group(1)) if found else None


def options_of():
    """The words of the command line."""
    parser = argparse.ArgumentParser(description=__doc__.splitlines()[0])
    parser.add_argument("--runs", type=int, default=5, help="how often each is run (5)")
    parser.add_argument("--program", action="store_true", help="run the built program itself, not ./fcg")
    parser.add_argument("--keep", metavar="FILE", help="where the bundle is kept")
    parser.add_argument("--instructions", action="store_true", help="count instructions too")
    return parser.parse_args()


def main():
    """Makes the bundle and prints the rows."""
    options = options_of()
    os.environ.setdefault("GLIBC_TUNABLES", TUNABLES)
    homes = real_input.jdks()
    if not homes:
        sys.exit("there is no JDK")
    measure.ready()
    front = [PROGRAM] if options.program else [measure.FCG]
    commands = {"cat": ["cat"], "list": front + ["list"], "sites": front + ["sites"]}
    with tempfile.TemporaryDirectory() as folder:
        entries = real_input.base(homes[0], folder)
        data = plain.pack(entries)
        path = options.keep or os.path.join(folder, "base")
        with open(path, "wb") as sink:
            sink.write(data)
        classes = sum(len(body) for _, body in entries)
        print("%s: %d class files, %d bytes; bundle %d bytes" % (os.path.basename(homes[0]), len(entries), classes, len(data)))
        best = {}
        for _ in range(options.runs):
            for name, words in commands.items():
                took = run_once(path, words)
                best[name] = min(best.get(name, took), took)
        for name, words in commands.items():
            took = best[name]
            line = "%-6s %7.3f s %7.1f MB/s" % (name, took, classes / took / 1e6)
            peak = measure.weigh(path, words, digest=False).peak
            if peak is not None:
                line += "  peak %6.1f MB, %4.2f of the bundle" % (peak * 1024 / 1e6, peak * 1024 / len(data))
            if options.instructions and name != "cat":
                count = count_instructions(folder, path, [PROGRAM] + words[1:])
                line += "" if count is None else "  %d million instructions" % round(count / 1e6)
            print(line, flush=True)


if __name__ == "__main__":
    main()
