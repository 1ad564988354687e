#!/usr/bin/env python3
"""Runs ./fcg on class files of the JDKs of the machine, each with one byte changed.

The place and the byte come from a fixed seed. Each run must end with status 0 or 3, and its output and errors
must be exactly those of plain.py. The counts by status and by rule are printed; at a difference the bundle is
printed in hex, and the exit status is 1.
"""

import argparse
import collections
import json
import random
import sys
import tempfile
import time
from concurrent import futures

import measure
import plain
import real_input

SEED = 20240307
LONGEST = 20000


def class_files(longest):
    """The class files of at most so many bytes of the modules of every JDK, each body once."""
    found = []
    seen = set()
    with tempfile.TemporaryDirectory() as folder:
        for home in real_input.jdks():
            for _, body in real_input.module_classes(home, folder):
                if len(body) <= longest and body not in seen:
                    seen.add(body)
                    found.append(body)
    return found


def one_byte_changed(body, chance):
    """The body with one byte changed; half of the places are in its first quarter or are changed by one bit."""
    place = chance.randrange(len(body) if chance.random() < 0.75 else len(body) // 4)
    value = body[place] ^ (1 << chance.randrange(8)) if chance.random() < 0.5 else chance.randrange(256)
    if value == body[place]:
        value ^= 0xFF
    return body[:place] + bytes([value]) + body[place + 1:]


def changes(bodies, count, seed, oldest):
    """Bundles of one changed class file each; those of newer versions are first written as a version that is read."""
    chance = random.Random(seed)
    for _ in range(count):
        body = chance.choice(bodies)
        if oldest and real_input.major(body) > real_input.GREATEST:
            body = real_input.written_as(body, real_input.GREATEST)
        yield plain.pack([(b"A.class", one_byte_changed(body, chance))])


def outcome(want):
    """What plain.py says, in a word: read, or the rule."""
    if want[0] == 0:
        return "read"
    return json.loads(want[2])["rule"]


def compare(bundle, command, alone):
    """The bundle, the command, and the answers of the program and of plain.py."""
    want = plain.answer(bundle, command)
    got = want if alone else measure.run_bytes(bundle, measure.COMMANDS[command])
    return bundle, command, got, want


def compare_all(bundles, commands, alone):
    """Compares every bundle, the commands in turns; a few runs of the program are under way at a time."""
    with futures.ThreadPoolExecutor(2) as pool:
        waiting = collections.deque()
        for number, bundle in enumerate(bundles):
            waiting.append(pool.submit(compare, bundle, commands[number % len(commands)], alone))
            if len(waiting) > 8:
                yield waiting.popleft().result()
        while waiting:
            yield waiting.popleft().result()


def main():
    """Tries every change."""
    parser = argparse.ArgumentParser(description=__doc__, formatter_class=argparse.RawDescriptionHelpFormatter)
    parser.add_argument("count", nargs="?", type=int, default=10000, help="how many changes (10000)")
    parser.add_argument("--seed", type=int, default=SEED, help="the seed (%d)" % SEED)
    parser.add_argument("--longest", type=int, default=LONGEST, help="the most bytes of a class file (%d)" % LONGEST)
    parser.add_argument("--commands", nargs="*", default=["sites", "list"], help="the commands that are run in turns (sites list)")
    parser.add_argument("--as-they-are", action="store_true", help="leave the versions of newer class files as they are")
    parser.add_argument("--all", action="store_true", help="go on after a difference")
    parser.add_argument("--alone", action="store_true", help="only print what plain.py says, without ./fcg")
    options = parser.parse_args()
    bodies = class_files(options.longest)
    if not bodies:
        print("no JDK found")
        return 1
    print("%d class files of at most %d bytes" % (len(bodies), options.longest), flush=True)
    if not options.alone:
        measure.ready()
    begin = time.monotonic()
    counts = collections.Counter()
    differences = 0
    bundles = changes(bodies, options.count, options.seed, not options.as_they_are)
    for bundle, command, got, want in compare_all(bundles, options.commands, options.alone):
        counts[got[0], outcome(want)] += 1
        if got != want or got[0] not in (0, 3):
            differences += 1
            print("DIFFERENCE: %s\n  input %s\n  fcg      %r\n  plain.py %r" % (command, bundle.hex(), got, want), flush=True)
            if not options.all:
                break
    for (status, what), number in sorted(counts.items()):
        print("status %d %-14s %6d" % (status, what, number))
    print("%d changes, %d differences, %.0f s" % (sum(counts.values()), differences, time.monotonic() - begin))
    return 1 if differences else 0


if __name__ == "__main__":
    sys.exit(main())
