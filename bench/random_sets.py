#!/usr/bin/env python3
"""Makes random small sets of one to three releases that meet the corner cases of the analysis often.

There are few names, so that types are doubled, absent, circular and of the wrong kind, and methods hide and override each other.
Printed is how often each corner case, each kind of target and each status came up in the sets, by the model of call_graph.py;
with --text the sets themselves, in the form of short_form.py. Ends with status 1 where a corner case never came up.
"""

import argparse
import collections
import random
import sys

import call_graph
import measure
import short_form
from short_form import ABSTRACT, INTERFACE, OBJECT, PRIVATE, PROTECTED, PUBLIC, STATIC, Method, Reference, Release, Site, View

SEED = 20240301
SETS = 200

# the names of most classes, of which two are in the package without a name, those of most interfaces, and those of no type
CLASS_NAMES = ["p/A", "p/B", "q/C", "M", "N"]
INTERFACE_NAMES = ["p/I", "p/J", "q/K", "q/L"]
ABSENT_NAMES = ["x/Y", "x/Z"]
ARRAYS = ["[I", "[Lp/A;"]
COORDINATES = ["g:a:1", "g:b:1", "g:c:1"]

# the signatures of methods, and one that no type declares
SIGNATURES = [("m", "()V"), ("n", "()V"), ("m", "(I)V"), ("<init>", "()V")]
UNDECLARED = ("none", "()V")

METHOD_FLAGS = [PUBLIC] * 7 + [0] * 6 + [PROTECTED] * 2 + [PRIVATE] * 3 + [PUBLIC | STATIC] * 4 + [PUBLIC | ABSTRACT] * 3 + [
    PUBLIC | PRIVATE, ABSTRACT, PROTECTED | ABSTRACT, STATIC, PRIVATE | STATIC, PUBLIC | STATIC | ABSTRACT]
INTERFACE_METHOD_FLAGS = [PUBLIC] * 8 + [PUBLIC | ABSTRACT] * 6 + [0, 0, PRIVATE, PRIVATE, PUBLIC | STATIC, ABSTRACT, PUBLIC | PRIVATE]
# how a set is made: the share of its classes that are below Object alone, that of those that are below the class before
# them, that of methods with the first signature, and how many methods a type may have
Manner = collections.namedtuple("Manner", "below_object below_last first_signature methods")
MANNERS = [Manner(0.4, 0.2, 0.5, [0, 1, 1, 2, 3]), Manner(0.04, 0.85, 0.9, [0, 1, 1, 1, 2]), Manner(0.04, 0.85, 0.9, [1, 1, 2]),
           Manner(0.5, 0.3, 0.7, [0, 0, 1, 2])]
SITE_KINDS = ["virtual"] * 6 + ["interface"] * 4 + ["special"] * 5 + ["static"] * 4 + [
    "new", short_form.STATIC_FIELD, "handle5", "handle6", "handle7", "handle8", "handle9"]


# types of corner cases that chance seldom makes, which some sets begin a release with, and the numbers of a site that names an
# InterfaceMethodref: a package-private method that is handed on, one in the package without a name, a special call past a static
# method, one of an absent superclass by each constant, and one that finds the method of Object from an interface
SHAPES = [
    ("class p/A package m()V class p/B extends p/A pub m()V class q/C extends p/B pub m()V class N static n()V [ virtual p/A.m()V ]",
     None),
    ("class M package m()V class N extends M package m()V class p/A static n()V [ virtual M.m()V ]", None),
    ("class p/A pub m()V class p/B extends p/A static m()V class q/C extends p/B pub m()V [ special p/A.m()V ]", None),
    ("class p/A extends x/Y pub m()V class p/B extends p/A pub m()V [ special x/Y.m()V ]", None),
    ("class p/A extends x/Y pub m()V class p/B extends p/A pub m()V [ special x/Y.m()V ]", (1, 0, 0)),
    ("class java/lang/Object without superclass pub m()V interface p/I class N implements p/I pub m()V [ special p/I.m()V ]",
     (2, 0, 0)),
]
SHAPED = 0.2

# what is counted of sites by their kinds and statuses, of which each must come up
CALL_KINDS = ["virtual", "interface", "special", "static"] + list(short_form.HANDLES)
STATUSES = ["nocall", "method", "phantom", "KindMismatch", "NoSuchMethod"]
LABELS = ["status, " + word for word in STATUSES] + ["targets, " + kind for kind in CALL_KINDS] + [
    "sites, " + kind for kind in CALL_KINDS + ["new", short_form.STATIC_FIELD]]


def happens(chance, share):
    """Whether what happens in this share of all tries happens now."""
    return chance.random() < share


def random_flags(chance, name):
    """The flags of a type of this name: most often those of its kind."""
    is_interface = (name in INTERFACE_NAMES) != happens(chance, 0.06)
    if name == OBJECT:
        is_interface = happens(chance, 0.15)
    if is_interface:
        return 0x0601
    return 0x0021 | (ABSTRACT if happens(chance, 0.2) else 0)


def random_superclass(chance, manner, name):
    """The name of a superclass of a type of this name, or None."""
    if name == OBJECT:
        return None if happens(chance, 0.8) else chance.choice(CLASS_NAMES + ABSENT_NAMES)
    if happens(chance, manner.below_object):
        return OBJECT
    if happens(chance, 0.04):
        return None
    if happens(chance, 0.3 if name == CLASS_NAMES[0] else 0.1):
        return chance.choice(ABSENT_NAMES * 3 + INTERFACE_NAMES + ARRAYS + [name])
    # mostly one that stands earlier, so that not all chains are circles
    earlier = CLASS_NAMES[:CLASS_NAMES.index(name)] if name in CLASS_NAMES else CLASS_NAMES
    if earlier and happens(chance, manner.below_last):
        return earlier[-1]
    return chance.choice(earlier or [OBJECT]) if happens(chance, 0.85) else chance.choice(CLASS_NAMES)


def random_interfaces(chance, name, superclass):
    """The names of the interfaces of a type of this name."""
    count = chance.choice([0, 0, 1, 1, 2, 2, 3])
    if happens(chance, 0.05):
        return [superclass or OBJECT]
    at = INTERFACE_NAMES.index(name) if name in INTERFACE_NAMES else len(INTERFACE_NAMES)
    earlier = INTERFACE_NAMES[:at]
    found = []
    for _ in range(count):
        if happens(chance, 0.12):
            found.append(chance.choice(ABSENT_NAMES + CLASS_NAMES + [OBJECT, name]))
        elif happens(chance, 0.08):
            found.append(chance.choice(INTERFACE_NAMES))
        elif earlier:
            found.append(chance.choice(earlier))
    return found


def random_signature(chance, manner):
    """The name and the descriptor of a method."""
    return SIGNATURES[0] if happens(chance, manner.first_signature) else chance.choice(SIGNATURES)


def random_name(chance, kind):
    """The name of an owner of a site of a kind: most often one whose type is of the kind's sort."""
    if kind in short_form.INTERFACE_KINDS and happens(chance, 0.6):
        return chance.choice(INTERFACE_NAMES)
    return chance.choice(CLASS_NAMES * 3 + CLASS_NAMES[:1] * 4 + INTERFACE_NAMES * 2 + ABSENT_NAMES * 2 + ARRAYS + [OBJECT, OBJECT])


def random_member(chance, manner, kind, declared):
    """The owner, the name and the descriptor of what a site of a kind names."""
    static = call_graph.HANDLES.get(kind, kind) == "static"
    fitting = [row[:3] for row in declared if bool(row[3] & STATIC) == static]
    if fitting and happens(chance, 0.4):
        return chance.choice(fitting)
    if happens(chance, 0.06):
        return (random_name(chance, kind), *UNDECLARED)
    return (random_name(chance, kind), *random_signature(chance, manner))


def is_interface_reference(chance, kind, owner):
    """Whether a site of a kind that names this owner names an InterfaceMethodref."""
    if kind in short_form.INTERFACE_KINDS:
        return True
    if kind in ("virtual", "handle5", short_form.STATIC_FIELD):
        return False
    return (owner in INTERFACE_NAMES) != happens(chance, 0.4 if owner in ABSENT_NAMES else 0.12)


def special_member(chance, view, signature, member):
    """What a special site names: often a method of the calling one's signature, in a type above, or an `<init>`."""
    if happens(chance, 0.2):
        return member[0], call_graph.INIT, "()V"
    if view.superclass is None or happens(chance, 0.4):
        return member
    return (view.superclass if happens(chance, 0.5) else chance.choice(CLASS_NAMES[:3] + ABSENT_NAMES), *signature)


def random_reference(chance, manner, kind, view, signature, declared):
    """What a site of a kind names, in a method of this signature of a type."""
    if kind == "new":
        return Reference(chance.choice(CLASS_NAMES + ABSENT_NAMES + ARRAYS), False, "", "")
    member = random_member(chance, manner, kind, declared)
    if kind in ("special", "handle7", "handle8"):
        member = special_member(chance, view, signature, member)
    if happens(chance, 0.06):
        member = (view.name, *signature)
    return Reference(member[0], is_interface_reference(chance, kind, member[0]), *member[1:])


def random_sites(chance, manner, view, signature, declared):
    """The sites of a method of this signature of a type."""
    sites = []
    for _ in range(chance.choice([0, 1, 2, 3, 4, 5])):
        kind = chance.choice(SITE_KINDS)
        reference = random_reference(chance, manner, kind, view, signature, declared)
        sites.append(Site(short_form.place_after(sites, kind), kind, reference))
    return sites


def random_methods(chance, manner, view):
    """The methods of a type, without sites, of which no two have one name and descriptor."""
    flags = INTERFACE_METHOD_FLAGS if view.flags & INTERFACE else METHOD_FLAGS
    signatures = []
    for _ in range(chance.choice(manner.methods) + (view.name == OBJECT)):
        signature = random_signature(chance, manner)
        if signature not in signatures:
            signatures.append(signature)
    return [Method(chance.choice(flags), *signature, []) for signature in signatures]


def random_view(chance, manner, name):
    """A type of this name, whose methods have no sites."""
    flags = random_flags(chance, name)
    superclass = random_superclass(chance, manner, name)
    view = View(name, flags, superclass, random_interfaces(chance, name, superclass), [])
    return view._replace(methods=random_methods(chance, manner, view))


def random_release(chance, manner, coordinate, share):
    """A release that has each name with this chance, and a few of them twice."""
    names = [name for name in CLASS_NAMES + INTERFACE_NAMES if happens(chance, share)]
    if happens(chance, 0.05):
        names.append(chance.choice(ARRAYS))
    if names and happens(chance, 0.1):
        names.append(chance.choice(names))
    chance.shuffle(names)
    return Release(coordinate, [random_view(chance, manner, name) for name in names])


def with_object(chance, manner, releases):
    """The releases, to one of which Object was added."""
    at = chance.randrange(len(releases))
    views = list(releases[at].views)
    views.insert(chance.randrange(len(views) + 1), random_view(chance, manner, OBJECT))
    return short_form.replaced(releases, at, releases[at]._replace(views=views))


def with_sites(chance, manner, releases):
    """The releases, to whose methods sites were added."""
    declared = [(view.name, method.name, method.desc, method.flags)
                for release in releases for view in release.views for method in view.methods]

    def of_method(view, method):
        return method._replace(sites=random_sites(chance, manner, view, (method.name, method.desc), declared))

    def of_view(view):
        return view._replace(methods=[of_method(view, method) for method in view.methods])

    return [release._replace(views=[of_view(view) for view in release.views]) for release in releases]


def with_shape(chance, releases):
    """The releases, one of which begins with the types of a corner case."""
    at = chance.randrange(len(releases))
    text, site = chance.choice(SHAPES)
    views = short_form.read_types(text)
    if site is not None:
        views = short_form.change(views, "constant", site)
    views = views + releases[at].views
    return short_form.replaced(releases, at, releases[at]._replace(views=views))


def random_set(chance):
    """A set of one to three releases."""
    manner = chance.choice(MANNERS)
    count = chance.choice([1, 2, 2, 3])
    share = {1: 0.9, 2: 0.65, 3: 0.5}[count]
    releases = [random_release(chance, manner, coordinate, share) for coordinate in COORDINATES[:count]]
    if happens(chance, 0.6):
        releases = with_object(chance, manner, releases)
    if happens(chance, 0.1):
        releases = with_object(chance, manner, releases)
    releases = with_sites(chance, manner, releases)
    if happens(chance, SHAPED):
        releases = with_shape(chance, releases)
    if count > 1 and happens(chance, 0.06):
        releases[-1] = releases[0]
    return releases


def make_sets(count, seed):
    """Random sets, which a seed decides."""
    chance = random.Random(seed)
    return [random_set(chance) for _ in range(count)]


def is_valid(view):
    """Whether a view is valid: no two methods have one name and descriptor. All tables and names are small here."""
    signatures = [(method.name, method.desc) for method in view.methods]
    return len(set(signatures)) == len(signatures)


def check_sets(sets):
    """Fails where a view isn't valid, or where a set comes back otherwise from its text."""
    for releases in sets:
        if not all(is_valid(view) for release in releases for view in release.views):
            measure.fail("a view is not valid: " + short_form.write_set(releases))
        if list(short_form.read_sets(short_form.write_set(releases))) != [releases]:
            measure.fail("a set comes back otherwise: " + short_form.write_set(releases))


class Counts:
    """How often each corner case came up: of each its number in all sets, and in how many sets it is."""

    def __init__(self):
        self.total = collections.Counter()
        self.sets = collections.Counter()
        self.here = collections.Counter()

    def add(self, label, number):
        """Adds a number to a corner case, for the set at hand."""
        self.here[label] += int(number)

    def end_set(self):
        """Ends the set at hand."""
        for label, number in self.here.items():
            self.total[label] += number
            self.sets[label] += number > 0
        self.here.clear()


def count_sets(counts, releases):
    """Counts what is of the releases of a set, without the rules."""
    coordinates = [release.coordinate for release in releases]
    for number in (1, 2, 3):
        counts.add("sets of %d releases" % number, len(releases) == number)
    counts.add("sets with a coordinate twice", len(set(coordinates)) < len(coordinates))
    flags = [method.flags for release in releases for view in release.views for method in view.methods]
    counts.add("methods public and private", sum(one & (PUBLIC | PRIVATE) == PUBLIC | PRIVATE for one in flags))
    counts.add("methods static and abstract", sum(one & (STATIC | ABSTRACT) == STATIC | ABSTRACT for one in flags))
    counts.add("methods package-private", sum(not one & (PUBLIC | PRIVATE | PROTECTED) for one in flags))
    counts.add("methods private", sum(bool(one & PRIVATE) for one in flags))
    counts.add("methods protected", sum(bool(one & PROTECTED) for one in flags))


def count_types(counts, analysis, releases):
    """Counts the corner cases of types."""
    types = call_graph.classes(releases)
    first = call_graph.winners(types)
    circular = [one for one in first if one.view.name not in analysis.named]
    dropped = [one for one in types if not any(one is other for other in first)]
    counts.add("types known", len(analysis.types))
    counts.add("types doubled", len(dropped))
    counts.add("types circular", len(circular))
    counts.add("types dropped by a circular one", sum(any(one.view.name == other.view.name for other in circular) for one in dropped))
    present = analysis.is_present()
    counts.add("Object present", present)
    counts.add("Object absent", OBJECT not in analysis.named)
    counts.add("Object an interface", OBJECT in analysis.named and not present)
    counts.add("types named as arrays", sum(call_graph.is_array(name) for name in analysis.named))
    counts.add("types with a gap, Object present", sum(present and analysis.has_gap(name) for name in analysis.named))
    counts.add("types without a gap", sum(not analysis.has_gap(name) for name in analysis.named))


def count_links(counts, analysis):
    """Counts the corner cases of links."""
    for of in analysis.types:
        superclass = call_graph.used_superclass(of)
        named = call_graph.used_interfaces(of)
        known = analysis.named.get(superclass)
        counts.add("superclass absent", superclass is not None and known is None)
        counts.add("superclass an interface", known is not None and call_graph.is_interface(known))
        counts.add("interface absent", any(name not in analysis.named for name in named))
        counts.add("interface a class", any(analysis.is_class(name) for name in named))
        counts.add("superclass among the interfaces", superclass in named)
        counts.add("interface named twice", len(set(named)) < len(named))
        chain = analysis.chain(of.view.name)
        counts.add("Object added to a chain", chain[-1] == OBJECT and OBJECT not in analysis.above(of.view.name)
                   and of.view.name != OBJECT)
        at = [one.view.name for one in analysis.types if call_graph.links(of, one)]
        counts.add("an interface above by two links", any(
            sum(name == one or name in analysis.above(one) for one in at) > 1 and not analysis.is_class(name)
            for name in analysis.above(of.view.name)))


def count_defaults(counts, analysis):
    """Counts the corner cases of superinterface methods."""
    signatures = sorted({(node.method.name, node.method.desc) for node in analysis.nodes})
    for owner in analysis.named:
        for signature in signatures:
            methods = analysis.super_methods(owner, *signature)
            specific = analysis.specific(owner, *signature)
            concrete = [node for node in specific if not call_graph.is_abstract(node)]
            counts.add("one default", len(concrete) == 1)
            counts.add("several defaults", len(concrete) > 1)
            counts.add("one default beside an abstract method", len(concrete) == 1 and len(specific) > 1)
            counts.add("a first superinterface method that isn't specific", bool(methods) and methods[0] not in specific)


def count_overriding(counts, analysis):
    """Counts the corner cases of overriding."""
    for over in analysis.nodes:
        for under in analysis.nodes:
            can = over is not under and analysis.can_override(over.number, under.number)
            owners = call_graph.package(over.type.view.name), call_graph.package(under.type.view.name)
            private = call_graph.is_package_private(under)
            counts.add("package-private methods overridden", can and private and owners[0] == owners[1])
            counts.add("package-private methods overridden through one between", can and private and owners[0] != owners[1])


def first_declared(analysis, name, reference):
    """The first method of the reference's name and descriptor in the chain of a known type, or None."""
    found = [analysis.declared(one, reference.name, reference.desc) for one in analysis.chain(name)]
    return next((node for node in found if node is not None), None)


def count_dispatch(counts, analysis, reference):
    """Counts the corner cases of a virtual or an interface site whose owner is no array."""
    outcome = analysis.resolved(reference)
    if outcome.word == "failed" or (outcome.node is not None and not call_graph.is_instance(outcome.node)):
        counts.add("dispatched to a static method", outcome.word != "failed")
        return
    number = None if outcome.node is None else outcome.node.number
    counts.add("private methods resolved by a dispatched site", outcome.node is not None and call_graph.is_private(outcome.node))
    for name in analysis.receivers(reference.owner):
        chosen = analysis.selected(name, number, reference.name, reference.desc)
        first = first_declared(analysis, name, reference)
        counts.add("receivers of a phantom that select", chosen is not None and number is None)
        counts.add("nothing is selected", chosen is None)
        counts.add("an abstract method is selected", chosen is not None and call_graph.is_abstract(chosen))
        counts.add("a default is selected", chosen is not None and call_graph.is_interface(chosen.type))
        counts.add("a method that can't override is passed over", chosen is not None and first is not None and first != chosen)
    counts.add("no receiver", not analysis.receivers(reference.owner))


def count_special(counts, analysis, caller, reference):
    """Counts the corner cases of a special site whose owner is no array."""
    is_name = reference.owner in analysis.superclass_names(caller)
    starts = is_name and not reference.is_interface and reference.name != call_graph.INIT
    target = analysis.special(caller, reference)
    resolved = analysis.resolved(reference)
    counts.add("special, <init>", reference.name == call_graph.INIT)
    counts.add("special, <init> of the named class", reference.name == call_graph.INIT and target is not None)
    counts.add("special, <init> that is inherited", reference.name == call_graph.INIT and resolved.node is not None and target is None)
    counts.add("special, from the superclass", starts)
    counts.add("special, from the superclass to another method", starts and target is not None and target != resolved.node)
    counts.add("special, an absent superclass name", starts and reference.owner not in analysis.named)
    counts.add("special, an absent superclass name and a target", starts and reference.owner not in analysis.named and target is not None)
    counts.add("special, an InterfaceMethodref and a target", reference.is_interface and target is not None)
    counts.add("special, to an abstract method", target is not None and call_graph.is_abstract(target))
    chain = analysis.chain(analysis.linked_superclass(caller)) if starts and analysis.linked_superclass(caller) else []
    first = next((node for node in (analysis.declared(name, reference.name, reference.desc) for name in chain) if node), None)
    counts.add("special, past a static method", target is not None and first is not None and not call_graph.is_instance(first))
    counts.add("special, Object's method from an interface", target is not None and target.type.view.name == OBJECT
               and not analysis.is_class(reference.owner) and not starts)
    counts.add("special, an InterfaceMethodref to an absent superclass name", is_name and reference.is_interface
               and reference.owner not in analysis.named)
    counts.add("special, to a private method", target is not None and call_graph.is_private(target))


def count_site(counts, analysis, node, site):
    """Counts the corner cases of a site."""
    kind = call_graph.kind_of(site)
    caller, reference = node.type.view.name, site.reference
    counts.add("sites, " + site.kind, 1)
    if kind not in call_graph.NOT_CALLS:
        counts.add("targets, " + site.kind, len(set(target.number for target in analysis.targets(caller, site))))
    counts.add("status, " + call_graph.status_word(analysis.status(site)), 1)
    counts.add("self calls", (reference.owner, reference.name, reference.desc) == (caller, node.method.name, node.method.desc))
    if kind in call_graph.NOT_CALLS:
        counts.add("new or static field, with an array owner", call_graph.is_array(reference.owner))
        return
    counts.add("array owners", call_graph.is_array(reference.owner))
    if call_graph.is_array(reference.owner):
        counts.add("array owners with a target", len(analysis.targets(caller, site)))
        counts.add("array owners of a known type's name", reference.owner in analysis.named)
        return
    known = analysis.named.get(reference.owner)
    counts.add("InterfaceMethodref to a class", known is not None and reference.is_interface and not call_graph.is_interface(known))
    counts.add("Methodref to an interface", known is not None and not reference.is_interface and call_graph.is_interface(known))
    if kind in ("virtual", "interface"):
        count_dispatch(counts, analysis, reference)
    if kind == "special":
        count_special(counts, analysis, caller, reference)


def count_all(sets):
    """How often each corner case came up in the sets."""
    counts = Counts()
    for word in LABELS:
        counts.add(word, 0)
    for releases in sets:
        analysis = call_graph.Analysis(releases)
        count_sets(counts, releases)
        count_types(counts, analysis, releases)
        count_links(counts, analysis)
        count_defaults(counts, analysis)
        count_overriding(counts, analysis)
        for node in analysis.nodes:
            for site in node.method.sites:
                count_site(counts, analysis, node, site)
        counts.add("nodes", len(analysis.nodes))
        counts.add("edges", len(analysis.edges()))
        counts.add("edges to itself", sum(one == other for one, other in analysis.edges()))
        counts.end_set()
    return counts


def show_counts(counts):
    """Prints how often each corner case came up, in order."""
    width = max(len(label) for label in counts.total)
    for label in sorted(counts.total):
        print("%-*s %7d, in %d sets" % (width, label, counts.total[label], counts.sets[label]))


def missing(counts):
    """The corner cases that never came up."""
    return sorted(label for label, number in counts.total.items() if not number)


def add_options(parser):
    """Adds the words that decide the sets."""
    parser.add_argument("--sets", type=int, default=SETS, help="how many sets are made (%d)" % SETS)
    parser.add_argument("--seed", type=int, default=SEED, help="the seed of what is random (%d)" % SEED)


def main():
    parser = argparse.ArgumentParser(description=__doc__.splitlines()[0])
    add_options(parser)
    parser.add_argument("--text", action="store_true", help="print the sets, and count nothing")
    options = parser.parse_args()
    sets = make_sets(options.sets, options.seed)
    check_sets(sets)
    if options.text:
        sys.stdout.write("".join(short_form.write_set(releases) for releases in sets))
        return
    counts = count_all(sets)
    show_counts(counts)
    if missing(counts):
        measure.fail("never: " + ", ".join(missing(counts)))


if __name__ == "__main__":
    sys.exit(main())
