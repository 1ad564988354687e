#!/usr/bin/env python3
"""Compares the model of call_graph.py with worked cases, whose answers were found by hand.

A case has a name, its releases in short form, and what is wanted of it: the number of nodes, the edges, and the statuses of
all sites in order. The deep hierarchies are smaller here than the program takes them. Ends with status 1 where one differs.
"""

import argparse
import collections
import sys

import call_graph
import measure
import short_form
from short_form import Reference, Release

METHOD, PHANTOM, NO_CALL, KIND, NONE = "method", "phantom", "nocall", "KindMismatch", "NoSuchMethod"

# statuses are given as one text with blanks between
Case = collections.namedtuple("Case", "name releases nodes edges statuses")

CALLS_M = "class p/T static t()V [ virtual p/%s.m()V ]"
DOUBLED = [("g:a:1", "class p/X static f()V"),
           ("g:b:1", "class p/X static f()V [ static p/Y.g()V ] class p/Y static g()V [ static p/X.f()V ]")]
OVER_G = "class p/G pub m()V class p/P extends p/G"
OVER_H = "class p/G pub m()V class p/H pub m()V class p/P extends p/H"
CALLS_SUPER = "class p/C extends p/P pub m()V [ special p/P.m()V ]"
LOGGING = [
    ("shop:app:1", "class shop/Main static main([Ljava/lang/String;)V [ static log/Factory.get()Llog/Logger; "
                   "interface log/Logger.info(Ljava/lang/String;)V ]"),
    ("log:api:1", "interface log/Logger abs info(Ljava/lang/String;)V class log/Factory static get()Llog/Logger; "
                  "[ static log/Binder.get()Llog/Logger; ]"),
    ("log:impl:1", "class log/Binder static get()Llog/Logger; [ new impl/Simple special impl/Simple.<init>()V ] "
                   "class impl/Simple implements log/Logger pub <init>()V [ special java/lang/Object.<init>()V ] "
                   "pub info(Ljava/lang/String;)V [ static impl/Out.write(Ljava/lang/String;)V ] "
                   "class impl/Out static write(Ljava/lang/String;)V")]
CIRCULAR = [("g:a:1", "class p/A extends p/B pub m()V"), ("g:b:1", "class p/B extends p/A"),
            ("g:c:1", "class p/C extends p/A pub m()V " + CALLS_M % "A")]
OBJECT_PRESENT = [("j:b:1", "class java/lang/Object without superclass pub hashCode()I"),
                  ("g:a:1", "class p/T static t()V [ virtual [I.hashCode()I virtual p/T.none()V ]")]


def alone(*types):
    """One release with these types."""
    return [("g:a:1", " ".join(types))]


def chain_of_classes(count):
    """Classes of which each extends the one before, and a call of what the first declares, by the name of the last."""
    below = ["class p/C%d extends p/C%d" % (number, number - 1) for number in range(1, count)]
    return alone("class p/C0 pub m()V", *below, CALLS_M % ("C%d" % (count - 1)))


def circle_of_classes(count):
    """Classes of which each extends the next, and the last the first."""
    circle = ["class p/C%d extends p/C%d pub m()V" % (number, (number + 1) % count) for number in range(count)]
    return alone(*circle, CALLS_M % "C0")


def diamonds(count):
    """Pairs of interfaces of which both implement both of the pair before, and a class that implements the last pair."""
    pairs = ["interface p/%s%d implements p/A%d implements p/B%d" % (side, number, number - 1, number - 1)
             for number in range(1, count + 1) for side in "AB"]
    last = "class p/K implements p/A%d implements p/B%d" % (count, count)
    return alone("interface p/A0 pub m()V interface p/B0", *pairs, last, CALLS_M % "K")


def packages_in_turns(count):
    """Classes in two packages in turns, each with a package-private method and below the one before."""
    names = ["pq"[number % 2] + "/C%d" % number for number in range(count)]
    below = ["class %s extends %s package m()V" % pair for pair in zip(names[1:], names)]
    return alone("class %s package m()V" % names[0], *below, CALLS_M % "C0")


CASES = [
    Case("self-call", alone("class p/A static m()V [ static p/A.m()V ]"), 1, [(0, 0)], METHOD),
    Case("doubled-class", DOUBLED, 2, [(1, 0)], METHOD),
    Case("doubled-class, the other first", DOUBLED[::-1], 2, [(0, 1), (1, 0)], "method method"),
    Case("absent-interface", alone(
        "class p/R1 implements java/lang/Runnable pub run()V class p/R2 implements java/lang/Runnable pub run()V",
        "class p/M static m()V [ interface java/lang/Runnable.run()V ]"), 3, [(2, 0), (2, 1)], PHANTOM),
    Case("package-private", alone(
        "class p/A package m()V class p/B extends p/A pub m()V class q/C extends p/B pub m()V class q/D extends p/A pub m()V",
        CALLS_M % "A"), 5, [(4, 0), (4, 1), (4, 2)], METHOD),
    Case("defaults, two", alone("interface p/I pub m()V interface p/J pub m()V class p/K implements p/I implements p/J",
                                CALLS_M % "K"), 3, [], METHOD),
    Case("defaults, beside an abstract method", alone(
        "interface p/I pub m()V interface p/J abs m()V class p/K implements p/I implements p/J", CALLS_M % "K"),
        3, [(2, 0)], METHOD),
    Case("defaults, below both", alone(
        "interface p/I pub m()V interface p/J pub m()V interface p/L implements p/I implements p/J pub m()V",
        "class p/K implements p/L", CALLS_M % "K"), 4, [(3, 2)], METHOD),
    Case("private-and-static", alone(
        "class p/A pub m()V class p/B extends p/A private m()V class p/C extends p/A static m()V", CALLS_M % "A"),
        4, [(3, 0)], METHOD),
    Case("special-super", [("l:l:1", OVER_G), ("a:a:1", CALLS_SUPER)], 2, [(1, 0)], METHOD),
    Case("special-super, moved", [("l:l:2", OVER_H), ("a:a:1", CALLS_SUPER)], 3, [(2, 1)], METHOD),
    Case("logging-set", LOGGING, 7, [(0, 2), (0, 5), (2, 3), (3, 4), (5, 6)],
         "method method method nocall method phantom method"),
    Case("circular-types", CIRCULAR, 2, [(1, 0)], PHANTOM),
    Case("two-chains", alone("class p/T static t()V [ static p/L.l()V static p/R.r()V ] class p/L static l()V [ static p/Z.z()V ]",
                             "class p/R static r()V [ static p/Z.z()V ] class p/Z static z()V"),
         4, [(0, 1), (0, 2), (1, 3), (2, 3)], "method method method method"),
    Case("lambda", alone("class p/L static main()V [ handle6 java/lang/invoke/LambdaMetafactory.metafactory()V",
                         "handle6 p/L.lambda$main$0()V ] static lambda$main$0()V"), 2, [(0, 1)], "phantom method"),
    Case("object-present", OBJECT_PRESENT, 2, [(1, 0)], "method NoSuchMethod"),
    Case("first-body", alone("class p/A static m()V [ static p/A.m()V ]"), 1, [(0, 0)], METHOD),
    Case("deep-hierarchies, a chain", chain_of_classes(60), 2, [(1, 0)], METHOD),
    Case("deep-hierarchies, a circle", circle_of_classes(60), 1, [], PHANTOM),
    Case("deep-hierarchies, diamonds", diamonds(12), 2, [(1, 0)], METHOD),
    Case("deep-hierarchies, packages", packages_in_turns(20), 21, [(20, number) for number in range(0, 20, 2)], METHOD),
]

# sets with references and what they stand for: a word, or the number of a method
REFERENCES = [
    (LOGGING, Reference("log/Factory", True, "get", "()Llog/Logger;"), KIND),
    (LOGGING, Reference("log/Logger", False, "info", "(Ljava/lang/String;)V"), KIND),
    (LOGGING, Reference("java/lang/Object", False, "<init>", "()V"), PHANTOM),
    (OBJECT_PRESENT, Reference("[I", False, "hashCode", "()I"), 0),
    (OBJECT_PRESENT, Reference("p/T", False, "none", "()V"), NONE),
]


def releases_of(rows):
    """Releases, from coordinates and types in short form."""
    return [Release(coordinate, short_form.read_types(text)) for coordinate, text in rows]


def difference(case):
    """What differs of a case, or None."""
    result = call_graph.analyse(releases_of(case.releases))
    statuses = [call_graph.status_word(status) for row in result.statuses for status in row]
    wanted = case.statuses.split()
    failed = sum(word in (KIND, NONE) for word in wanted)
    pairs = [("nodes", len(result.nodes), case.nodes), ("edges", result.edges, case.edges), ("statuses", statuses, wanted),
             ("phantoms", result.phantoms, wanted.count(PHANTOM)), ("failed", result.failed, failed)]
    return next(("%s are %s for %s" % row for row in pairs if row[1] != row[2]), None)


def outcome_of(rows, reference):
    """What a reference stands for: a word, or the number of a method."""
    outcome = call_graph.Analysis(releases_of(rows)).resolved(reference)
    return call_graph.status_word(outcome) if outcome.node is None else outcome.node.number


def joined_circular_differs():
    """Whether the types of the circular set, their gaps, or what is below two names, are not as they must be."""
    analysis = call_graph.Analysis(releases_of(CIRCULAR))
    below = [[name for name in analysis.named if analysis.is_at_or_below(name, other)] for other in ("p/A", "java/lang/Object")]
    return (list(analysis.named), analysis.has_gap("p/C"), below) != (["p/C", "p/T"], True, [["p/C"], ["p/C", "p/T"]])


def main():
    argparse.ArgumentParser(description=__doc__.splitlines()[0]).parse_args()
    found = [(case.name, difference(case)) for case in CASES]
    found += [("resolution-outcomes, " + "%s.%s" % (reference.owner, reference.name),
               None if outcome_of(rows, reference) == wanted else "it is %s for %s" % (outcome_of(rows, reference), wanted))
              for rows, reference, wanted in REFERENCES]
    found.append(("joined-circular", "types, gaps or what is below differ" if joined_circular_differs() else None))
    for name, told in found:
        print("%s: %s" % (name, "as wanted" if told is None else told))
    if any(told is not None for _, told in found):
        measure.fail("a case differs")
    print("%d cases, all as wanted" % len(found))


if __name__ == "__main__":
    sys.exit(main())
