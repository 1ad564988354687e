#!/usr/bin/env python3
"""Reads and writes sets of releases whose types are in the short form of crates/fcg_cases/src/short_form.rt.

The words of the form, between single spaces, go in pairs of a keyword and what it is about; that file describes them. A set is
a text of lines, each a word and what it is about:

    release C           begins a release with this coordinate
    types TEXT          its types, in short form
    type V F            the type of number V has the flags F
    method V M F        its method of number M has the flags F
    constant V M S      the site of number S of this method names an InterfaceMethodref where the form gives it a Methodref
    field V M S         that site, which stands as a static one, is of a static field
    end                 ends the set

Numbers are decimal and begin with 0. The lines after `types` are for what the form can't spell. As a script it reads sets from
its input, writes them again, and ends with status 1 where the text isn't the same.
"""

import argparse
import collections
import sys

# access flags (JVMS 4.1, table 4.1-B, and 4.6, table 4.6-A)
PUBLIC, PRIVATE, PROTECTED, STATIC, INTERFACE, ABSTRACT = 0x0001, 0x0002, 0x0004, 0x0008, 0x0200, 0x0400
OBJECT = "java/lang/Object"

# what a set is made of; the kind of a site is its keyword, or "staticfield"
Reference = collections.namedtuple("Reference", "owner is_interface name desc")
Site = collections.namedtuple("Site", "place kind reference")
Method = collections.namedtuple("Method", "flags name desc sites")
View = collections.namedtuple("View", "name flags superclass interfaces methods")
Release = collections.namedtuple("Release", "coordinate views")

TYPE_FLAGS = {"class": 0x0021, "interface": 0x0601}
METHOD_FLAGS = {"pub": 0x0001, "abs": 0x0401, "static": 0x0009, "private": 0x0002, "package": 0x0000}
HANDLES = ("handle5", "handle6", "handle7", "handle8", "handle9")
INTERFACE_KINDS = ("interface", "handle9")
KINDS = ("static", "special", "virtual", "interface", "new") + HANDLES
STATIC_FIELD = "staticfield"


class Malformed(Exception):
    """A text is not in the form."""


def split_member(word):
    """The name and the descriptor of a method."""
    at = word.find("(")
    if at < 0:
        raise Malformed(word)
    return word[:at], word[at:]


def reference_of(kind, word):
    """What a site of a kind names."""
    if kind == "new":
        return Reference(word, False, "", "")
    owner, dot, member = word.partition(".")
    if not dot:
        raise Malformed(word)
    return Reference(owner, kind in INTERFACE_KINDS, *split_member(member))


def place_after(sites, kind):
    """The place of a site of a kind after others."""
    if not sites:
        return 0
    last = sites[-1]
    if last.kind in HANDLES and kind in HANDLES:
        return last.place
    return last.place + (5 if last.kind in HANDLES or last.kind == "interface" else 3)


def with_site(method, kind, word):
    """A method with one more site."""
    if kind not in KINDS:
        raise Malformed(kind)
    site = Site(place_after(method.sites, kind), kind, reference_of(kind, word))
    return method._replace(sites=method.sites + [site])


def with_words(view, word, named):
    """A type with what two words outside of brackets say."""
    if word in METHOD_FLAGS:
        if "." in named:
            raise Malformed(named)
        return view._replace(methods=view.methods + [Method(METHOD_FLAGS[word], *split_member(named), [])])
    if word == "extends":
        return view._replace(superclass=named)
    if (word, named) == ("without", "superclass"):
        return view._replace(superclass=None)
    if word == "implements":
        return view._replace(interfaces=view.interfaces + [named])
    raise Malformed(word)


def read_types(text):
    """The types of a text in short form."""
    views = []
    in_code = False
    words = iter(text.split(" "))
    for word in words:
        if word in ("[", "]"):
            if in_code == (word == "["):
                raise Malformed(word)
            in_code = word == "["
            continue
        named = next(words, None)
        if named is None or not (views or word in TYPE_FLAGS):
            raise Malformed(word)
        if in_code:
            *methods, last = views[-1].methods
            views[-1] = views[-1]._replace(methods=methods + [with_site(last, word, named)])
        elif word in TYPE_FLAGS:
            views.append(View(named, TYPE_FLAGS[word], OBJECT, [], []))
        else:
            views[-1] = with_words(views[-1], word, named)
    if in_code:
        raise Malformed("[")
    return views


def replaced(items, at, item):
    """A list with another item at a place."""
    return items[:at] + [item] + items[at + 1:]


def change_site(site, word):
    """A site with another constant, or one that is of a static field."""
    if word == "constant":
        return site._replace(reference=site.reference._replace(is_interface=not site.reference.is_interface))
    return site._replace(kind=STATIC_FIELD)


def change(views, word, numbers):
    """The types with what a line after `types` says."""
    view = views[numbers[0]]
    if word == "type":
        return replaced(views, numbers[0], view._replace(flags=numbers[1]))
    method = view.methods[numbers[1]]
    if word == "method":
        method = method._replace(flags=numbers[2])
    elif word in ("constant", "field"):
        sites = replaced(method.sites, numbers[2], change_site(method.sites[numbers[2]], word))
        method = method._replace(sites=sites)
    else:
        raise Malformed(word)
    return replaced(views, numbers[0], view._replace(methods=replaced(view.methods, numbers[1], method)))


def read_sets(text):
    """The sets of a text, each a list of releases."""
    releases = []
    for line in text.splitlines():
        word, _, rest = line.partition(" ")
        if word == "end":
            yield releases
            releases = []
        elif word == "release":
            releases.append(Release(rest, []))
        elif word == "types":
            releases[-1] = releases[-1]._replace(views=read_types(rest))
        else:
            numbers = [int(number) for number in rest.split(" ")]
            releases[-1] = releases[-1]._replace(views=change(releases[-1].views, word, numbers))
    if releases:
        raise Malformed("a set without end")


def keyword(flags, keywords):
    """The keyword of flags, or the one whose flags differ in fewest bits."""
    return min(keywords, key=lambda word: bin(flags ^ keywords[word]).count("1"))


def site_words(site):
    """The words of a site."""
    reference = site.reference
    if site.kind == "new":
        return ["new", reference.owner]
    kind = "static" if site.kind == STATIC_FIELD else site.kind
    return [kind, "%s.%s%s" % (reference.owner, reference.name, reference.desc)]


def method_words(method):
    """The words of a method."""
    words = [keyword(method.flags, METHOD_FLAGS), method.name + method.desc]
    if method.sites:
        words += ["["] + [word for site in method.sites for word in site_words(site)] + ["]"]
    return words


def type_words(view):
    """The words of a type."""
    words = [keyword(view.flags, TYPE_FLAGS), view.name]
    if view.superclass is None:
        words += ["without", "superclass"]
    elif view.superclass != OBJECT:
        words += ["extends", view.superclass]
    for name in view.interfaces:
        words += ["implements", name]
    return words + [word for method in view.methods for word in method_words(method)]


def site_changes(at, site):
    """The lines that make a site of a type's method what the form can't spell; `at` has the numbers of these."""
    if site.kind == STATIC_FIELD:
        yield "field %d %d %d" % at
    elif site.reference.is_interface != (site.kind in INTERFACE_KINDS):
        yield "constant %d %d %d" % at


def type_changes(number, view):
    """The lines that make a type what the form can't spell."""
    if view.flags not in TYPE_FLAGS.values():
        yield "type %d %d" % (number, view.flags)
    for at, method in enumerate(view.methods):
        if method.flags not in METHOD_FLAGS.values():
            yield "method %d %d %d" % (number, at, method.flags)
        for place, site in enumerate(method.sites):
            yield from site_changes((number, at, place), site)


def write_types(views):
    """The text of types in short form, as far as it can spell them."""
    return " ".join(word for view in views for word in type_words(view))


def write_release(release):
    """The lines of a release."""
    yield "release " + release.coordinate
    if release.views:
        yield "types " + write_types(release.views)
    for number, view in enumerate(release.views):
        yield from type_changes(number, view)


def write_set(releases):
    """The text of a set."""
    lines = [line for release in releases for line in write_release(release)]
    return "\n".join(lines + ["end", ""])


def main():
    argparse.ArgumentParser(description=__doc__.splitlines()[0]).parse_args()
    text = sys.stdin.read()
    again = "".join(write_set(releases) for releases in read_sets(text))
    sys.stdout.write(again)
    return 0 if again == text else 1


if __name__ == "__main__":
    sys.exit(main())
