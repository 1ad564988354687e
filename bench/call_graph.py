#!/usr/bin/env python3
"""An independent model of class hierarchy analysis: nodes, edges, statuses and counts of a set of releases.

It is written from the rules of docs/analysis.md, one function for each rule, and shares no code with the program, so that
the two can be compared. It is slow: each rule is asked anew of all types. As a script it reads a set in the form of
short_form.py from its input and prints what the model says of it, as the program of stitching_program.txt does.
"""

import argparse
import collections
import functools
import sys

import short_form
from short_form import ABSTRACT, INTERFACE, OBJECT, PRIVATE, PROTECTED, PUBLIC, STATIC

INIT = "<init>"

# the kind that each handle counts as, and the kinds that make no call
HANDLES = {"handle5": "virtual", "handle6": "static", "handle7": "special", "handle8": "special", "handle9": "interface"}
NOT_CALLS = ("new", "staticfield")

# a view with the coordinate of its release, and a method by its number
Type = collections.namedtuple("Type", "coordinate view")
Node = collections.namedtuple("Node", "number type method")

# what a reference stands for: "method" with a node, "phantom", or "failed" with a cause
Outcome = collections.namedtuple("Outcome", "word node cause")
PHANTOM = Outcome("phantom", None, None)
KIND_MISMATCH = Outcome("failed", None, "KindMismatch")
NO_SUCH_METHOD = Outcome("failed", None, "NoSuchMethod")
NO_CALL = Outcome("nocall", None, None)

# what the model says of a set; of each node a list of the statuses of its sites
Result = collections.namedtuple("Result", "types nodes edges statuses phantoms failed")


def has(flags, bit):
    """Whether a flag is set."""
    return flags & bit != 0


def is_interface(of):
    """Whether a type is an interface; any other is a class."""
    return has(of.view.flags, INTERFACE)


def is_instance(node):
    """Whether a method is an instance method."""
    return not has(node.method.flags, STATIC)


def is_abstract(node):
    """Whether a method is abstract."""
    return has(node.method.flags, ABSTRACT)


def is_private(node):
    """Whether a method has the flag of private ones."""
    return has(node.method.flags, PRIVATE)


def is_package_private(node):
    """Whether a method has none of the three flags of access."""
    return not has(node.method.flags, PUBLIC | PRIVATE | PROTECTED)


def is_public_instance(node):
    """Whether a method is public and an instance method."""
    return has(node.method.flags, PUBLIC) and is_instance(node)


def package(name):
    """The package of a type of this name."""
    return name.rpartition("/")[0]


def is_array(name):
    """Whether an owner of this name is an array."""
    return name.startswith("[")


def kind_of(site):
    """The kind of a site, where a handle has the kind that it counts as."""
    return HANDLES.get(site.kind, site.kind)


def used_superclass(of):
    """The name that a type uses as superclass, or None."""
    return None if of.view.name == OBJECT or is_interface(of) else of.view.superclass


def used_interfaces(of):
    """The names that a type uses as interfaces."""
    return [] if of.view.name == OBJECT else list(of.view.interfaces)


def used_names(of):
    """All names that a type uses."""
    superclass = used_superclass(of)
    return used_interfaces(of) + ([] if superclass is None else [superclass])


def links(of, other):
    """Whether a type links to another."""
    if is_interface(other):
        return other.view.name in used_interfaces(of)
    return other.view.name == used_superclass(of)


def reached(of, types):
    """The types to which one or more links lead, in the order of `types`."""
    found = []
    waiting = [of]
    while waiting:
        one = waiting.pop()
        for other in types:
            if links(one, other) and not any(other is old for old in found):
                found.append(other)
                waiting.append(other)
    return [one for one in types if any(one is old for old in found)]


def classes(releases):
    """The classes of a set: the views of its releases, one after the other, each with its coordinate."""
    return [Type(release.coordinate, view) for release in releases for view in release.views]


def winners(types):
    """The types of which no earlier one has the name."""
    return [one for at, one in enumerate(types) if all(one.view.name != old.view.name for old in types[:at])]


def known_types(types):
    """The winners from which no links lead back to themselves."""
    first = winners(types)
    return [one for one in first if not any(other is one for other in reached(one, first))]


def numbered(types):
    """The nodes: the methods of types in order, numbered from 0."""
    methods = [(one, method) for one in types for method in one.view.methods]
    return [Node(number, one, method) for number, (one, method) in enumerate(methods)]


class Analysis:
    """The rules over the known types of a set. A type is asked for by its name, of which there is one."""

    def __init__(self, releases):
        self.types = known_types(classes(releases))
        self.nodes = numbered(self.types)
        self.named = {one.view.name: one for one in self.types}
        # what is asked again and again is kept
        self.above = functools.cache(self._above)
        self.has_gap = functools.cache(self._has_gap)
        self.chain = functools.cache(self._chain)
        self.one_default = functools.cache(self._one_default)
        self.super_methods = functools.cache(self._super_methods)
        self.can_override = functools.cache(self._can_override)
        self.selected = functools.cache(self._selected)
        self.declared = functools.cache(self._declared)

    # types

    def _above(self, name):
        """The names of the types above the known type of this name, in the order of types."""
        return [one.view.name for one in reached(self.named[name], self.types)]

    def at_or_above(self, name):
        """The known type of this name, and those above it."""
        return [self.named[name]] + [self.named[other] for other in self.above(name)]

    def is_class(self, name):
        """Whether there is a known class of this name."""
        return name in self.named and not is_interface(self.named[name])

    def is_present(self):
        """Whether Object is a known class."""
        return self.is_class(OBJECT)

    def linked_superclass(self, name):
        """The name of the class to which the known type of this name links as its superclass, or None."""
        superclass = used_superclass(self.named[name])
        return superclass if superclass is not None and self.is_class(superclass) else None

    def has_link_to_name(self, of, name):
        """Whether a type links to a known type of this name."""
        return name in self.named and links(of, self.named[name])

    def _has_gap(self, name):
        """Whether not all that the known type of this name has from above is known."""
        if not self.is_present():
            return True
        return any(not self.has_link_to_name(one, used) for one in self.at_or_above(name) for used in used_names(one))

    def _chain(self, name):
        """The names of the chain of the known type of this name."""
        if is_interface(self.named[name]):
            return [name]
        chain = []
        while name is not None:
            chain.append(name)
            name = self.linked_superclass(name)
        if self.is_present() and OBJECT not in chain:
            chain.append(OBJECT)
        return chain

    def is_at_or_below(self, name, other):
        """Whether the known type of this name is at or below the other name."""
        types = self.at_or_above(name)
        if other == OBJECT or any(one.view.name == other for one in types):
            return True
        return other not in self.named and any(other in used_names(one) for one in types)

    # methods

    def _declared(self, owner, name, desc):
        """The method that a known type declares, or None."""
        for node in self.nodes:
            if (node.type.view.name, node.method.name, node.method.desc) == (owner, name, desc):
                return node
        return None

    def _super_methods(self, owner, name, desc):
        """The superinterface methods of the known type `owner` for a name and a descriptor."""
        above = [other for other in self.above(owner) if is_interface(self.named[other])]
        return [node for node in self.nodes
                if (node.method.name, node.method.desc) == (name, desc) and node.type.view.name in above
                and not is_private(node) and is_instance(node)]

    def specific(self, owner, name, desc):
        """Those superinterface methods that are maximally-specific."""
        methods = self.super_methods(owner, name, desc)
        return [node for node in methods
                if not any(node.type.view.name in self.above(other.type.view.name) for other in methods if other is not node)]

    def _one_default(self, owner, name, desc):
        """The one maximally-specific method that isn't abstract, or None."""
        defaults = [node for node in self.specific(owner, name, desc) if not is_abstract(node)]
        return defaults[0] if len(defaults) == 1 else None

    # resolution

    def public_of_object(self, name, desc):
        """The public instance method of Object, where it is present."""
        node = self.declared(OBJECT, name, desc) if self.is_present() else None
        return node if node is not None and is_public_instance(node) else None

    def first_of_chain(self, reference):
        """What the first type of the owner's chain that declares the method gives, or None."""
        for name in self.chain(reference.owner):
            node = self.declared(name, reference.name, reference.desc)
            if node is not None:
                return node
        return None

    def from_superinterfaces(self, reference):
        """The one default of the owner, or else its first superinterface method, or None."""
        asked = reference.owner, reference.name, reference.desc
        default = self.one_default(*asked)
        if default is not None:
            return default
        methods = self.super_methods(*asked)
        return methods[0] if methods else None

    def resolved_of_array(self, reference):
        """What a reference stands for whose owner is an array."""
        if reference.is_interface:
            return KIND_MISMATCH
        if not self.is_present():
            return PHANTOM
        node = self.declared(OBJECT, reference.name, reference.desc)
        return NO_SUCH_METHOD if node is None else Outcome("method", node, None)

    def found_by(self, reference):
        """The method that a reference to a known type of the right kind finds, or None."""
        node = self.first_of_chain(reference)
        if node is None and reference.is_interface:
            node = self.public_of_object(reference.name, reference.desc)
        return self.from_superinterfaces(reference) if node is None else node

    def resolved(self, reference):
        """What a reference stands for."""
        if is_array(reference.owner):
            return self.resolved_of_array(reference)
        if reference.owner not in self.named:
            return PHANTOM
        if reference.is_interface != is_interface(self.named[reference.owner]):
            return KIND_MISMATCH
        node = self.found_by(reference)
        if node is not None:
            return Outcome("method", node, None)
        return PHANTOM if self.has_gap(reference.owner) else NO_SUCH_METHOD

    # overriding and selection

    def between(self, lower, upper):
        """The names in the chain of the type `lower`, after it and before `upper`; none where that isn't in it."""
        chain = self.chain(lower)
        return chain[1:chain.index(upper)] if upper in chain else []

    def _can_override(self, number, other):
        """Whether the method of a number can override that of the other."""
        over, under = self.nodes[number], self.nodes[other]
        if (over.method.name, over.method.desc) != (under.method.name, under.method.desc):
            return False
        if not is_instance(over) or not is_instance(under) or is_private(over):
            return False
        if has(under.method.flags, PUBLIC) or has(under.method.flags, PROTECTED):
            return True
        if not is_package_private(under):
            return False
        return package(over.type.view.name) == package(under.type.view.name) or self.is_handed_on(over, under)

    def is_handed_on(self, over, under):
        """Whether between two methods stands one that the first can override and that can override the second."""
        for name in self.between(over.type.view.name, under.type.view.name):
            middle = self.declared(name, over.method.name, over.method.desc)
            if middle is not None and self.can_override(over.number, middle.number) \
                    and self.can_override(middle.number, under.number):
                return True
        return False

    def overrides_outcome(self, node, outcome):
        """Whether a method of the name and descriptor can override what a reference stands for."""
        if outcome == PHANTOM:
            return is_instance(node) and not is_private(node)
        return self.can_override(node.number, outcome.node.number)

    def _selected(self, name, number, method, desc):
        """The method that is selected for the known class of this name, or None.

        The resolved method is told by its number, or by None where it is a phantom.
        """
        outcome = PHANTOM if number is None else Outcome("method", self.nodes[number], None)
        if number is not None and is_private(self.nodes[number]):
            return self.nodes[number]
        for one in self.chain(name):
            node = self.declared(one, method, desc)
            if node is not None and self.overrides_outcome(node, outcome):
                return node
        return self.one_default(name, method, desc)

    # special calls

    def superclass_names(self, name):
        """The superclass names of the known type of this name."""
        found = []
        at = name
        while at is not None:
            superclass = used_superclass(self.named[at])
            linked = self.linked_superclass(at)
            if linked is not None or (superclass is not None and superclass not in self.named):
                found.append(superclass)
            at = linked
        return found

    def search(self, start, name, desc):
        """The method that the search of a special call finds from a known type on, or None."""
        for one in self.chain(start):
            node = self.declared(one, name, desc)
            if node is not None and is_instance(node):
                return node
        node = self.public_of_object(name, desc) if is_interface(self.named[start]) else None
        return self.one_default(start, name, desc) if node is None else node

    def special(self, caller, reference):
        """The method of an `invokespecial` in the known type `caller`, or None."""
        outcome = self.resolved(reference)
        if outcome.word == "failed" or (outcome.node is not None and not is_instance(outcome.node)):
            return None
        if reference.name == INIT:
            is_own = outcome.node is not None and outcome.node.type.view.name == reference.owner
            return outcome.node if is_own and self.is_class(reference.owner) else None
        if not reference.is_interface and reference.owner in self.superclass_names(caller):
            start = self.linked_superclass(caller)
        else:
            start = reference.owner if reference.owner in self.named else None
        return None if start is None else self.search(start, reference.name, reference.desc)

    # edges

    def receivers(self, owner):
        """The names of the known classes that aren't abstract and are at or below a name."""
        return [one.view.name for one in self.types
                if not is_interface(one) and not has(one.view.flags, ABSTRACT) and self.is_at_or_below(one.view.name, owner)]

    def dispatched(self, reference):
        """The targets of a virtual or an interface site whose owner is no array."""
        outcome = self.resolved(reference)
        if outcome.word == "failed" or (outcome.node is not None and not is_instance(outcome.node)):
            return []
        number = None if outcome.node is None else outcome.node.number
        found = [self.selected(name, number, reference.name, reference.desc) for name in self.receivers(reference.owner)]
        return [node for node in found if node is not None and not is_abstract(node)]

    def array_targets(self, kind, reference):
        """The targets of a site whose owner is an array."""
        node = self.resolved(reference).node
        if node is None or is_abstract(node) or is_instance(node) == (kind == "static"):
            return []
        return [node]

    def targets(self, caller, site):
        """The methods to which a site of a known type leads."""
        kind = kind_of(site)
        if kind in NOT_CALLS:
            return []
        if is_array(site.reference.owner):
            return self.array_targets(kind, site.reference)
        if kind == "static":
            node = self.resolved(site.reference).node
            return [node] if node is not None and not is_instance(node) else []
        if kind == "special":
            node = self.special(caller, site.reference)
            return [node] if node is not None and not is_abstract(node) else []
        return self.dispatched(site.reference)

    def edges(self):
        """The pairs of the numbers of callers and targets, in order, each once."""
        return sorted({(node.number, target.number) for node in self.nodes for site in node.method.sites
                       for target in self.targets(node.type.view.name, site)})

    def status(self, site):
        """The status of a site."""
        return NO_CALL if kind_of(site) in NOT_CALLS else self.resolved(site.reference)

    def result(self):
        """What the model says of the set."""
        statuses = [[self.status(site) for site in node.method.sites] for node in self.nodes]
        words = [status.word for row in statuses for status in row]
        names = [one.view.name for one in self.types]
        nodes = [(node.type.coordinate, node.type.view.name, node.method.name, node.method.desc) for node in self.nodes]
        return Result(names, nodes, self.edges(), statuses, words.count("phantom"), words.count("failed"))


def analyse(releases):
    """What the model says of a set of releases, in its order."""
    return Analysis(releases).result()


def status_word(status):
    """A status as it is printed: a failed one by its cause."""
    return status.cause if status.word == "failed" else status.word


def lines(result):
    """The lines of what is said of a set, as the program prints them."""
    yield "types %d" % len(result.types)
    for node in result.nodes:
        yield "node " + " ".join(node)
    for edge in result.edges:
        yield "edge %d %d" % edge
    for number, row in enumerate(result.statuses):
        yield " ".join(["status", str(number)] + [status_word(status) for status in row])
    yield "counts %d %d %d %d" % (len(result.nodes), len(result.edges), result.phantoms, result.failed)


def main():
    argparse.ArgumentParser(description=__doc__.splitlines()[0]).parse_args()
    for releases in short_form.read_sets(sys.stdin.read()):
        for line in lines(analyse(releases)):
            print(line)
        print("end")


if __name__ == "__main__":
    sys.exit(main())
