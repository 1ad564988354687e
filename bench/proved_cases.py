#!/usr/bin/env python3
"""Compares the model of call_graph.py with the cases of the crate fcg_analysis, which the prover computes from the definitions.

The sets are read from specs/Cases/*.antt of that crate, and what is said of them from the contracts in src/cases.rt,
src/choices.rt and src/conditions.rt: both sides of each equation are computed, the left one by the model. Equations of words that
this script has not, such as those of reach, are counted as passed over. Ends with status 1 where an equation doesn't hold.
"""

import argparse
import os
import re
import sys

import call_graph
import measure
import short_form
from short_form import Method, Reference, Release, Site, View

CRATE = os.path.join(measure.TOP, "crates", "fcg_analysis")
SETS = ["ShortForm", "Sets", "Choices", "Conditions"]
SOURCES = ["cases", "choices", "conditions"]

_TOKEN = re.compile(r'"[^"]*"|0x[0-9a-fA-F]+|[0-9]+|\w+|\+\+|\S')
_DEFINITION = re.compile(r"^abbrev (?:pub )?(\w+) : .*\n\1((?: \w+)*) =((?: .*)?(?:\n +.*)*)", re.M)
_EQUATION = re.compile(r"^ +ensures (?:\w+ )?\{ (.*) ≡ (.*) \}$", re.M)


class Unknown(Exception):
    """A word that this script has not."""


class Function:
    """A function of some arguments, of which the first ones may be given."""

    def __init__(self, count, body, given=()):
        self.count = count
        self.body = body
        self.given = given

    def apply(self, value):
        """The function with one more argument, or its value."""
        given = self.given + (value,)
        return self.body(*given) if len(given) == self.count else Function(self.count, self.body, given)


class Text:
    """The tokens of an expression, and a place among them."""

    def __init__(self, text, words):
        self.tokens = _TOKEN.findall(text)
        self.at = 0
        self.words = words

    def peek(self):
        """The next token, or None."""
        return self.tokens[self.at] if self.at < len(self.tokens) else None

    def take(self, wanted=None):
        """The next token, which must be the wanted one."""
        token = self.peek()
        if token is None or wanted not in (None, token):
            raise Unknown(str(token))
        self.at += 1
        return token

    def whole(self):
        """The value of the whole text."""
        value = self.expression()
        if self.peek() is not None:
            raise Unknown(self.peek())
        return value

    def expression(self):
        """The value of applications between the signs of lists, which bind to the right."""
        value = self.application()
        if self.peek() == "∷":
            self.take()
            return [value] + self.expression()
        if self.peek() == "++":
            self.take()
            return value + self.expression()
        return value

    def application(self):
        """The value of an atom that is applied to those after it."""
        value = self.atom()
        while self.peek() not in (None, "∷", "++", ")", "]", ","):
            if not isinstance(value, Function):
                raise Unknown(self.peek())
            value = value.apply(self.atom())
        return value

    def atom(self):
        """The value of a literal, a word, or what stands in brackets."""
        token = self.take()
        if token == "[":
            self.take("]")
            return []
        if token == "(":
            return self.bracket()
        if token.startswith('"'):
            return token[1:-1]
        if token[0].isdigit():
            return int(token, 0)
        if token not in self.words:
            raise Unknown(token)
        return self.words[token]

    def bracket(self):
        """The value of what stands in brackets: an expression, or a pair."""
        value = self.expression()
        if self.peek() == ",":
            self.take()
            value = value, self.expression()
        self.take(")")
        return value


def number_in(outcome):
    """The number of the method of an outcome, or None."""
    return None if outcome.node is None else outcome.node.number


def statuses(analysis):
    """The words of the statuses of all sites."""
    return [call_graph.status_word(status) for row in analysis.result().statuses for status in row]


def names_below(analysis, name):
    """The names of the known types at or below a name."""
    return [one for one in analysis.named if analysis.is_at_or_below(one, name)]


def chain_names(analysis, of):
    """The names of the chain of a type, where there is one."""
    return None if of is None else analysis.chain(of.view.name)


def types_in(value):
    """The types of an analysis; any other list is itself."""
    return value.types if isinstance(value, call_graph.Analysis) else value


def base_words():
    """The words of the cases that aren't defined from others here: those of sets, and those of the rules."""
    words = {"codes": Function(1, str), "Some": Function(1, lambda value: value), "None": None, "true": True, "false": False,
             "object_name": short_form.OBJECT, "names": Function(1, list), "Handle": Function(1, lambda kind: "handle" + kind),
             "StaticField": short_form.STATIC_FIELD}
    words.update(("K%d" % number, str(number)) for number in range(5, 10))
    words.update((kind.capitalize(), kind) for kind in ("virtual", "interface", "special", "static", "new"))
    words.update({
        "ref_to": Function(4, lambda *parts: Reference(parts[1], parts[0], *parts[2:])),
        "site": Function(2, lambda kind, reference: Site(0, kind, reference)),
        "method": Function(4, Method),
        "type_with": Function(5, lambda flags, superclass, name, interfaces, methods: View(
            name, flags, superclass, interfaces, methods)),
        "release": Function(2, lambda coordinate, views: [Release(coordinate, views)])})
    words.update({
        "known": Function(1, call_graph.Analysis), "edges": Function(1, lambda analysis: analysis.edges()),
        "statuses": Function(1, statuses), "IsMethod": "method", "IsPhantom": "phantom", "IsNoCall": "nocall",
        "IsFailed": Function(1, lambda cause: cause.cause), "Failed": Function(1, lambda cause: cause),
        "Phantom": call_graph.PHANTOM, "KindMismatch": call_graph.KIND_MISMATCH, "NoSuchMethod": call_graph.NO_SUCH_METHOD,
        "phantoms": Function(1, lambda analysis: analysis.result().phantoms),
        "failed": Function(1, lambda analysis: analysis.result().failed), "length": Function(1, len),
        "nodes": Function(1, lambda analysis: analysis.nodes),
        "resolved": Function(2, lambda analysis, reference: analysis.resolved(reference)), "number_in": Function(1, number_in),
        "names_of_types": Function(1, lambda value: [one.view.name for one in types_in(value)]),
        "type_named": Function(2, lambda analysis, name: analysis.named.get(name)),
        "names_below": Function(2, names_below), "chain_names": Function(2, chain_names),
        "has_gap": Function(2, lambda analysis, of: analysis.has_gap(of.view.name)),
        "overrides": Function(3, lambda analysis, over, under: analysis.can_override(over, under)),
        "map": Function(2, lambda function, value: [function.apply(one) for one in types_in(value)])})
    return words


def define(words, name, parameters, body):
    """Adds a word that is defined by others, where these are known."""
    if name in words:
        return
    try:
        if parameters:
            words[name] = Function(len(parameters), lambda *given: Text(body, {**words, **dict(zip(parameters, given))}).whole())
        else:
            words[name] = Text(body, words).whole()
    except Unknown:
        pass


def without_remarks(text):
    """A text without its lines of remarks."""
    return re.sub(r"^--.*\n", "", text, flags=re.M)


def read_words():
    """All words of the cases."""
    words = base_words()
    for page in SETS:
        with open(os.path.join(CRATE, "specs", "Cases", page + ".antt"), encoding="utf-8") as source:
            for name, parameters, body in _DEFINITION.findall(without_remarks(source.read())):
                define(words, name, parameters.split(), body)
    return words


def read_equations():
    """The two sides of each equation of the contracts."""
    for page in SOURCES:
        with open(os.path.join(CRATE, "src", page + ".rt"), encoding="utf-8") as source:
            yield from _EQUATION.findall(source.read())


def main():
    argparse.ArgumentParser(description=__doc__.splitlines()[0]).parse_args()
    words = read_words()
    held = 0
    passed_over = []
    for left, right in read_equations():
        try:
            told, wanted = Text(left, words).whole(), Text(right, words).whole()
        except Unknown as word:
            passed_over.append("%s: %s" % (word, left))
            continue
        if told != wanted:
            measure.fail("%s is %s for %s" % (left, told, wanted))
        held += 1
    for line in passed_over:
        print("passed over, for the word " + line)
    print("%d equations hold, %d are passed over" % (held, len(passed_over)))
    if not held:
        measure.fail("no equation was read")


if __name__ == "__main__":
    sys.exit(main())
