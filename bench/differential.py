#!/usr/bin/env python3
"""Compares ./fcg list and ./fcg sites with plain.py on mutated small bundles.

Hand-made class files and some of javac are changed: one byte to each of several values at every place,
truncation at every length, doubled, dropped and swapped slices, random edits, random class files that have
few faults or none, and lists of edges of the formats. All that is random comes from a fixed seed. Each input is
one run of each command; its status, output and errors must be those of plain.py. At the first difference
the input is printed in hex, and the exit status is 1.
"""

import argparse
import collections
import hashlib
import json
import os
import random
import shutil
import subprocess
import sys
import tempfile
import time

import code_edges
import hostile
import measure
import plain
from hostile import FLAGS, MODULE, Pool, as_module, class_file, u2, u4

SEED = 20240229
SOURCE = """package p.q$r;
@Deprecated interface I\u00e9<T> extends java.util.List<T> {
    <X extends Exception> int[] m(T a, long[][] b) throws X; void n(); interface J { I\u00e9<J> j(); }
}
abstract class C extends Thread {
    C(String a) { super(a); }
    int c(int a, java.util.List<String> b) { switch (a) { case 1: b.get(a).trim(); case 2: return Math.abs(a); default: }
        switch (a) { case 7: run(); case 900: b.size(); } try { return c(a, b); } finally { b.clear(); } }
}
class D { static int i = 3; static final String S = "s"; private long[] l; enum \u00c9 { P; D d = new D(); static D e = P.d; }
    Runnable r(int a) { return () -> System.out.println(a + S + i); }
    java.util.function.Supplier<D> s() { return D::new; }
    D n(D a) { i += System.out.hashCode(); return i > 3 ? n(new D()) : new D[][] { { a } }[0].clone()[0]; } }
"""


def tiny():
    """A small class file."""
    return hostile.smallest()


def rich():
    """A hand-made class file without code, with a bit of everything else."""
    pool = Pool()
    this = pool.named(b"p/A$b\xc3\xa9-\xe2\x82\xac")
    above = pool.named(b"O")
    face = pool.named(b"[;.")
    kinds = [pool.utf8(b"(IJ[[DLp/X;)V"), pool.utf8(b"()[Lq;")]
    names = [pool.utf8(b"<m>"), pool.utf8(b"n\xc0\x80")]
    note = pool.utf8(b"Note")
    code = pool.utf8(b"Cod")
    more = u2(2) + u2(note) + u4(3) + b"abc" + u2(code) + u4(0)
    methods = [(names[0], kinds[0], more), (names[0], kinds[1], b"\0\0"), (names[1], kinds[0], b"\0\0")]
    fields = [(names[0], pool.utf8(b"[[J"), more), (names[1], pool.utf8(b"Lq;"), b"\0\0"), (names[1], pool.utf8(b"D"), b"\0\0")]
    return class_file(pool, this, methods, u2(face) + u2(above), u2(1) + u2(note) + u4(2) + b"xy", above, fields)


def of_javac():
    """Class files of javac, or none where there is no javac."""
    if shutil.which("javac") is None:
        print("no javac found: without its class files")
        return []
    bodies = []
    with tempfile.TemporaryDirectory() as folder:
        source = os.path.join(folder, "I.java")
        with open(source, "w", encoding="utf-8") as sink:
            sink.write(SOURCE)
        words = dict(os.environ, LC_ALL="C.UTF-8")
        target = os.path.join(folder, "target")
        subprocess.run(["javac", "-encoding", "UTF-8", "--release", "17", "-nowarn", "-d", target, source],
                       env=words, check=True)
        for place, _, names in sorted(os.walk(os.fsencode(target))):
            for name in sorted(names):
                with open(os.path.join(place, name), "rb") as made:
                    bodies.append(made.read())
    return sorted(body for body in bodies if plain.class_fault(body) is None)


def alone(body):
    """A bundle of one class file."""
    return plain.pack([(b"A.class", body)])


def bytes_changed(data, most=5):
    """One byte changed to each of several values, `most` of them, at every place."""
    for place, old in enumerate(data):
        for value in sorted(set([old ^ 1, old ^ 0x80, 0x00, (old + 1) & 0xFF, 0x2F][:most]) - {old}):
            yield data[:place] + bytes([value]) + data[place + 1:]


def truncated(data):
    """Every front of the bytes, and the bytes with one more."""
    for length in range(len(data)):
        yield data[:length]
    yield data + b"\0"


def sliced(data, chance, count):
    """Slices doubled, dropped, turned into zeros and swapped with their neighbours."""
    for number in range(count):
        ends = sorted(chance.randrange(len(data) + 1) for _ in range(3))
        low, middle, high = ends
        kind = number % 4
        if kind == 0:
            yield data[:middle] + data[low:middle] + data[middle:]
        elif kind == 1:
            yield data[:low] + data[middle:]
        elif kind == 2:
            yield data[:low] + bytes(middle - low) + data[middle:]
        else:
            yield data[:low] + data[middle:high] + data[low:middle] + data[high:]


def edited(data, chance, count):
    """A few random edits each."""
    for _ in range(count):
        out = bytearray(data)
        for _ in range(chance.randrange(1, 5)):
            place = chance.randrange(len(out))
            kind = chance.randrange(4)
            if kind == 0:
                out[place] = chance.randrange(256)
            elif kind == 1:
                out[place] = (out[place] + chance.choice((-1, 1))) & 0xFF
            elif kind == 2:
                out.insert(place, chance.choice((0, 1, 7, 0x5B, 0x3B, chance.randrange(256))))
            else:
                del out[place]
        yield bytes(out)


TEXTS = [b"", b"A", b"a/b", b"Code", b"BootstrapMethods", b"Signature", b"m", b"<init>", b"\xc3\xa9", b"\xc0\x80",
         b"\xed\xa0\x81\xed\xb0\x80", b"()V", b"(I)V", b"(J)[J", b"([[D[Ljava/lang/Object;I)Z", b"(La;Lb;)Lc;"]
BAD = [b"\x00", b"\x80", b"\xf0\x90\x90\x80", b"(V)V", b"()", b"(L;)V", b"([)V", b"I", b"()VV", b"()[V"]


def nearly(chance):
    """A random class file that often has no fault, and else often only one."""
    texts = [chance.choice(TEXTS if chance.random() < 0.995 else BAD) for _ in range(chance.randrange(2, 6))]
    texts += [b"A", b"m", b"()V", b"(I)V", b"[La;"]
    chance.shuffle(texts)
    entries = texts + [None] * chance.randrange(1, 5)
    chance.shuffle(entries)
    right = [index + 1 for index, text in enumerate(entries) if text]
    pool = Pool()
    for text in entries:
        if text is None:
            pool.class_entry(chance.choice(right) if chance.random() < 0.98 else chance.randrange(len(entries) + 2))
        else:
            pool.utf8(text)

    def pick(wanted):
        """An index of an entry that is wanted, or seldom any."""
        found = [index + 1 for index, text in enumerate(entries) if wanted(text)]
        return chance.choice(found) if found and chance.random() < 0.995 else chance.randrange(len(entries) + 3)

    def attributes():
        """A count and some attributes."""
        out = []
        for _ in range(chance.choice((0, 0, 1, 2))):
            name = pick(lambda t: t is not None and (t not in (b"Code", b"BootstrapMethods") or chance.random() < 0.05))
            body = bytes(chance.randrange(256) for _ in range(chance.randrange(4)))
            out.append(u2(name) + u4(len(body)) + body)
        return u2(len(out)) + b"".join(out)

    methods = []
    seen = set()
    for _ in range(chance.randrange(0, 5)):
        name = pick(lambda t: t)
        kind = pick(lambda t: t is not None and plain.is_method_descriptor(t))
        pair = tuple(entries[index - 1] if 0 < index <= len(entries) else None for index in (name, kind))
        if pair not in seen or chance.random() < 0.1:
            seen.add(pair)
            methods.append((name, kind, attributes()))
    fields = [(pick(lambda t: t), pick(lambda t: t is not None and plain.is_field_descriptor(t)), attributes())
              for _ in range(chance.choice((0, 0, 1, 2, 3)))]
    faces = b"".join(u2(pick(lambda t: t is None)) for _ in range(chance.randrange(3)))
    above = chance.choice((0, pick(lambda t: t is None)))
    flags = FLAGS | (MODULE if chance.random() < 0.1 else 0)
    return class_file(pool, pick(lambda t: t is None), methods, faces, attributes(), above, fields, flags)


def with_descriptor(text, name=b"m"):
    """A bundle of a class file with one method of a name and a descriptor."""
    pool = Pool()
    this = pool.named(b"A")
    return alone(class_file(pool, this, [(pool.utf8(name), pool.utf8(text), b"\0\0")]))


def with_methods(pairs):
    """A bundle of a class file with methods, each with Utf8 entries of its own."""
    pool = Pool()
    this = pool.named(b"A")
    return alone(class_file(pool, this, [(pool.utf8(name), pool.utf8(kind), b"\0\0") for name, kind in pairs]))


def with_pool(raw, count, this=2):
    """A bundle of a class file with raw pool entries after A and its Class."""
    return alone(b"\xca\xfe\xba\xbe\0\0\0\x34" + u2(count) + b"\x01\0\x01A\x07\0\x01" + raw + b"\0\0" + u2(this)
                 + bytes(10))


def with_indexes(this=2, above=0, faces=(), flags=0, version=(0, 52), fields=b"\0\0", tail=b"\0\0\0\0"):
    """A bundle of a class file of the pool A, its Class, an empty Utf8 and its Class."""
    return alone(b"\xca\xfe\xba\xbe" + u2(version[0]) + u2(version[1]) + b"\0\x05\x01\0\x01A\x07\0\x01\x01\0\0\x07\0\x03"
                 + u2(flags) + u2(this) + u2(above) + u2(len(faces)) + b"".join(u2(face) for face in faces)
                 + fields + tail)


PLACES = ("class", "field", "method")


def with_attribute(name, length, body, where, tail=b""):
    """A bundle of a class file with one attribute of its class, its field or its method; its name is a text or an index."""
    pool = Pool()
    this = pool.named(b"A")
    method = pool.utf8(b"m"), pool.utf8(b"()V")
    index = name if isinstance(name, int) else pool.utf8(name)
    field = method[0], pool.utf8(b"I")
    some = {place: b"\0\0" for place in PLACES}
    some[where] = u2(1) + u2(index) + u4(length) + body
    return alone(class_file(pool, this, [method + (some["method"],)], attributes=some["class"],
                            fields=[field + (some["field"],)]) + tail)


def module_edges():
    """Bundles of class files and modules in several orders."""
    body = code_edges.dense()
    module = as_module(body)
    small = as_module(tiny())
    for order in ((module,), (small,), (small, module), (body, module), (module, body), (body, small, body, module), (module,) * 5,
                  (small,) * 300, (body, module) * 20, (module + b"\0", body), (body, small[:-1])):
        yield plain.pack([(b"%d/module-info.class" % number, one) for number, one in enumerate(order)])
    yield plain.pack([(b"module-info.class", small), (b"module-info.class", small)])
    yield plain.pack([(b"META-INF/versions/9/module-info.class", small)])
    yield plain.pack([(b"module-info", small)])
    yield plain.pack([(b"a.class", small)]) + b"\0"


def index_edges():
    """Versions, flags, the indexes of types and of fields, and what follows them."""
    for version in ((0, 44), (0, 45), (3, 45), (0, 65), (0xFFFF, 65), (0, 66), (65, 0), (0, 0x0134), (0, 0)):
        yield with_indexes(version=version)
    for flags in (0x7FFF, 0x8000, 0x8001, 0xFFFF):
        yield with_indexes(flags=flags)
        for index in (0, 1, 3, 4, 5):
            yield with_indexes(flags=flags, this=index)
            yield with_indexes(flags=flags, above=index)
            yield with_indexes(flags=flags, faces=[index])
    for name, kind in ((1, 1), (3, 1), (1, 3), (0, 1), (1, 0), (2, 1), (1, 4), (5, 1)):
        for count in (1, 2):
            for flags in (0, 0x8000):
                yield with_indexes(flags=flags, fields=u2(count) + (b"\0\0" + u2(name) + u2(kind) + b"\0\0") * count)
    for index in (0, 1, 2, 3, 4, 5, 6, 0x0102, 0xFFFF):
        yield with_indexes(this=index)
        yield with_indexes(above=index)
        yield with_indexes(faces=[index])
        yield with_indexes(faces=[2, 2, index])
    yield with_indexes(faces=[2] * 300)
    yield with_indexes(fields=b"\0\x01" + b"\0\0" + u2(1) + u2(1) + b"\0\0")
    yield with_indexes(fields=b"\0\x01")
    for tail in (b"", b"\0", b"\0\0", b"\0\0\0", b"\0\0\0\0\0", b"\0\x01\0\0", b"\0\0\0\x01"):
        yield with_indexes(tail=tail)


def pool_edges():
    """Constant pools."""
    for index in (0, 1, 2, 3, 4, 5, 0xFFFF):
        yield with_pool(b"\x07" + u2(index) + b"\x01\0\x01B", 5)
        yield with_pool(b"\x07" + u2(index) + b"\x01\0\x01B", 5, this=3)
    for count in (0, 1, 2, 3, 4, 0xFFFF):
        yield with_pool(b"", count)
    for tag in range(256):
        size = {3: 4, 4: 4, 5: 8, 6: 8, 8: 2, 15: 3, 16: 2, 19: 2, 20: 2}.get(tag, 4)
        if tag not in (1, 7) and (tag < 24 or tag % 16 in (1, 7)):
            yield with_pool(bytes([tag]) + bytes(size), 5 if tag in (5, 6) else 4)
    for text in utf8_edges():
        yield with_pool(b"\x01" + u2(len(text)) + text, 4)


def attribute_edges():
    """Attributes of the class, of a field and of a method."""
    for place in PLACES:
        for name in (b"Code", b"BootstrapMethods", b"code", b"Cod", b"Codes", b"BootstrapMethod", b"BootstrapMethodsX",
                     b"bootstrapMethods", b"", b"C", b"Code\xc0\x80", 0, 2, 6, 0xFFFF):
            yield with_attribute(name, 2, b"ab", place)
        for length, body in ((0, b""), (1, b""), (3, b"ab"), (1, b"ab"), (0xFFFFFFFF, b"ab"), (0x80000000, b"ab"),
                             (0x01000002, b"ab"), (4, b"Code"), (70000, bytes(70000))):
            yield with_attribute(b"N", length, body, place)
        yield with_attribute(b"N", 0, b"", place, b"\0")


def method_edges():
    """Names and descriptors of methods, and texts of every byte."""
    for name in (b"", b"<clinit>", b"a.b;[/", b"Code", b"n" * 65535):
        yield with_descriptor(b"()V", name)
    yield with_methods([(b"a", b"()V"), (b"a", b"()V")])
    yield with_methods([(b"a", b"()V"), (b"b", b"()V"), (b"c", b"()V"), (b"a", b"()V")])
    yield with_methods([(b"a", b"()V"), (b"a", b"()I"), (b"b", b"()V"), (b"b", b"()I"), (b"A", b"()V")])
    yield with_methods([(b"aa", b"()V"), (b"a", b"()V"), (b"aaa", b"()V")])
    yield with_methods([(b"a", b"(La;)V"), (b"a", b"(Lb;)V"), (b"a", b"(La;)I"), (b"a", b"(La;)V")])
    yield with_methods([(b"m%d" % number, b"()V") for number in range(300)])
    yield with_methods([(b"m%d" % (number % 299), b"()V") for number in range(300)])
    pool = Pool()
    this = pool.named(b"()V")
    yield alone(class_file(pool, this, [(1, 1, b"\0\0")]))
    yield alone(class_file(pool, this, [(1, 1, b"\0\0"), (1, 1, b"\0\0")]))
    for word in (bytes(range(1, 0x80)), bytes(range(1, 0x3B)) + bytes(range(0x3C, 0x80)),
                 b"".join(bytes([0xC0 + number // 2, 0x80 + number]) for number in range(64)),
                 b"".join(bytes([0xE0 + number // 4, 0x80 + number, 0xBF - number]) for number in range(64))):
        pool = Pool()
        index = pool.utf8(word)
        this = pool.class_entry(index)
        kind = pool.utf8(b"(L" + word + b";)L" + word + b";")
        yield alone(class_file(pool, this, [(index, kind, b"\0\0")]))


def class_edges():
    """Edges of class files."""
    for make in (index_edges, pool_edges, attribute_edges, method_edges):
        yield from make()


def utf8_edges():
    """Texts at the edges of the groups of a Utf8 entry."""
    for first in range(256):
        yield bytes([first])
    for first in (0xC0, 0xC1, 0xC2, 0xDF):
        for second in (0x00, 0x7F, 0x80, 0xBF, 0xC0, 0xFF):
            yield bytes([first, second])
    for first in (0xE0, 0xED, 0xEF):
        for second in (0x7F, 0x80, 0xA0, 0xBF, 0xC0):
            for third in (0x7F, 0x80, 0xBF, 0xC0):
                yield bytes([first, second, third])
    yield from (b"\xf0\x90\x80\x80", b"\xef\xbf", b"a\xe0\x80", b"\xe0\x80\x80\x80", b"\xc3\xa9a\xc3", b"a\x00b",
                b"\x7f\xdf\xbf\xef\xbf\xbf\x01", b"x" * 65535, b"\xef\xbf\xbf" * 21845, b"x" * 65534 + b"\xc3")


def descriptor_edges():
    """Descriptors at the edges of their grammar."""
    for kind in range(0x01, 0x80):
        yield b"(%c)V" % kind
        yield b"()%c" % kind
    deep = b"["
    for depth in (1, 2, 254, 255, 256, 257, 32000):
        yield b"(" + deep * depth + b"I)V"
        yield b"()" + deep * depth + b"J"
        yield b"(" + deep * depth + b"La;)V"
        yield b"(" + deep * depth + b"V)V"
        yield b"(" + deep * depth + b")V"
        yield b"()" + deep * depth
        yield b"(I" + deep * depth + b"I" + deep * depth + b"I)V"
    for count in (127, 128, 254, 255, 256, 257):
        yield b"(" + b"I" * count + b")V"
        yield b"(" + b"J" * count + b")V"
        yield b"(I" + b"D" * count + b")V"
        yield b"(" + b"D" * count + b"I)V"
        yield b"(" + b"[J" * count + b")V"
        yield b"(" + b"La;" * count + b")V"
        yield b"(" + b"[D" * count + b"J)V"
    yield from (b"", b"(", b")", b"()", b"V", b"I", b"()()V", b"(()V)V", b"()V ", b" ()V", b"(I", b"(I)", b"I)V", b"(V)V",
                b"()VV", b"()II", b"()Lx", b"()L;", b"()Lx;;", b"()Lx;y", b"(L;)V", b"(La)V", b"(La;", b"(La;b)V",
                b"(L[;)V", b"(L(;)V", b"(L);)V", b"(LI;)V", b"(L/;)V", b"(L.;)V", b"(La.b;)V", b"(L;a;)V", b"(LLa;;)V",
                b"(L\xc3\xa9;)V", b"(L\xc0\x80;)V", b"(\xc3\xa9)V", b"())V", b"(I)V)",
                b"(L" + b"a" * 65530 + b";)V", b"()L" + b"a" * 65531 + b";")


def bundle_edges():
    """Edges of bundles, of paths and of the front of an input."""
    body = tiny()
    for path in (b"", b"a", b".class", b"/.class", b"a/.class", b"a//b.class", b"./a.class", b"../a.class", b"a/../b.class",
                 b"a/./b.class", b"a.class/", b"/a.class", b"a.class", b"A.CLASS", b"a.Class", b"a.clas", b"aclass", b"class",
                 b"META-INF/versions/9/a.class", b"META-INF/versions.class", b"META-INF/versions/.class",
                 b"META-INF/versions/x.class", b"meta-inf/versions/a.class", b"x/META-INF/versions/a.class",
                 b"META-INF/a.class", b"META-INF/versionsa/a.class", b"META-INF//versions/a.class", b"...class", b"..class",
                 b".../a.class", b"..a/.class", b"a/...class", b"a../b.class", b"a./b.class", b"....", b".", b"..", b"/", b"//",
                 b"a.class/b.class", b"a.class/b", b"module-info.class", b"META-INF/versions", b"META-INF/versions/"):
        yield plain.pack([(path, body)])
        yield plain.pack([(b"first.class", body), (path, body)])
    for value in range(256):
        yield plain.pack([(b"x%cy.class" % value, body)])
    for length in (1023, 1024, 1025, 65535):
        yield plain.pack([(b"p" * (length - 6) + b".class", body)])
        yield plain.pack([(b"p/" * ((length - 6) // 2) + b"q" * ((length - 6) % 2) + b".class", body)])
    for order in ("aa", "aba", "abca", "abcb", "aAb", "abcdefgh", "hgfedcba"):
        yield plain.pack([(letter.encode() + b".class", body) for letter in order])
    yield plain.pack([(b"a/b.class", body), (b"a.class", body), (b"a/b/c.class", body), (b"b.class", body)])
    yield plain.pack([(b"a/b.class", body), (b"a", body)])
    yield plain.pack([(b"a.class", body), (b"a.class/b.class", body)])
    yield plain.pack([(b"a.class", b"")])
    yield plain.pack([(b"a.class", body), (b"b.class", b"")])
    yield plain.pack([(b"a.class", body), (b"b.txt", b"")])
    yield plain.pack([(b"%d.class" % number, body) for number in range(300)])
    good = plain.pack([(b"a.class", body), (b"b.class", body)])
    for front in (b"FCGA\0\x01", b"fcgb\0\x01", b"FCGB\0\0", b"FCGB\0\x02", b"FCGB\x01\0", b"FCGB\x01\x01", b"GBFC\0\x01"):
        yield front + good[6:]
    for count in (0, 1, 2, 3, 0x01000002, 0x80000002, 0xFFFFFFFF):
        yield good[:6] + u4(count) + good[10:]
    for size in (len(body) - 1, len(body) + 1, 0x80000000, 0xFFFFFFFF, 0x01000000 + len(body)):
        yield plain.pack([(b"a.class", body)])[:-len(body) - 4] + u4(size) + body
    yield from (b"", b"F", b"FCGB", b"FCGB\0\x01\0\0\0\0", b"FCGB\0\x01\0\0\0\0\0", b"FCGB\0\x01\0\0\0\x01", b"\n")
    for front in (b"PK\x03\x04", b"PK\x03", b"PK", b"P", b"PK\x03\x05", b"PK\x05\x06", b"PK\x04\x03", b"pk\x03\x04",
                  b"\0PK\x03\x04", b"KP\x03\x04", b"PK\x03\x04FCGB"):
        yield front
        yield front + good


def entry_edges():
    """Bundles of several entries of which some are passed over, some aren't shown, and some have a fault."""
    small, bad = tiny(), tiny() + b"\0"
    called = code_edges.dense()
    names = (b"a.class", b"a.txt", b"META-INF/versions/9/a.class", b"META-INF/MANIFEST.MF", b"META-INF/versions/a")
    bodies = (small, bad, called, as_module(small), as_module(bad), b"", b"PK\3\4", called[:-1])
    for name in names:
        for body in bodies:
            yield plain.pack([(name, body)])
            yield plain.pack([(name, body)]) + b"\0"
            yield plain.pack([(name, body)])[:-1]
            for other in names:
                yield plain.pack([(name, body), (b"x/" + other, small), (other, called)])
                yield plain.pack([(b"x/" + other, small), (name, body), (other, bad)])
    for size in (0, 1, 2, 5, 1024, 1025, 1026, 0x8000, 0xFFFF):
        for there in (0, 1, size):
            yield b"FCGB\0\1" + u4(1) + u2(size) + b"p" * there
            yield b"FCGB\0\1" + u4(1) + u2(size) + b"p" * there + b"\0\0\0\0"
    for number in (1, 255, 256, 300):
        yield plain.pack([(b"%d" % one, b"") for one in range(number)] + [(b"a.class", bad)])
        yield plain.pack([(b"%d" % one, b"") for one in range(number)] + [(b"..", bad)])
        yield plain.pack([(b"%d" % one, b"") for one in range(number)]) + b"\0"


def site_limit_edges():
    """Class files and bundles of about as many sites as there may be."""
    million, one = hostile.calls(1000000), hostile.calls(1)
    place = b"META-INF/versions/9/%d.class"
    yield alone(hostile.calls(1000001))
    four = [(place % number, million) for number in range(4)]
    yield plain.pack(four)
    yield plain.pack(four + [(b"m.class", as_module(million)), (b"t.txt", million)])
    for name in (b"a.class", place % 9):
        yield plain.pack(four + [(b"m.class", as_module(million)), (name, one)])
        yield plain.pack(four + [(name, one + b"\0")])
    for count in (999999, 1000000, 1000001):
        for handles in (0, 1, 2):
            yield alone(hostile.linked_calls(count, handles))


def inputs():
    """Every input with the name of its kind."""
    chance = random.Random(SEED)
    bases = [tiny(), rich(), code_edges.dense()] + of_javac()
    yield from (("edges of bundles", data) for data in bundle_edges())
    yield from (("edges of entries", data) for data in entry_edges())
    yield from (("limits of sites", data) for data in site_limit_edges())
    yield from (("edges of class files", data) for data in class_edges())
    yield from (("edges of descriptors", with_descriptor(text)) for text in descriptor_edges())
    yield from (("edges of code", alone(body)) for body in code_edges.edges())
    yield from (("edges of modules", data) for data in module_edges())
    pair = plain.pack([(b"p/A.class", bases[0]), (b"B.class", bases[0])])
    yield from (("bundle, byte changed", data) for data in bytes_changed(pair))
    yield from (("bundle, truncated", data) for data in truncated(pair))
    yield from (("bundle, slices", data) for data in sliced(pair, chance, 100))
    yield from (("bundle, edits", data) for data in edited(pair, chance, 100))
    for body in bases[1:]:
        yield "class file", alone(body)
        yield from (("class file, byte changed", alone(data)) for data in bytes_changed(body, 5 if body in bases[1:3] else 2))
        yield from (("class file, truncated", alone(data)) for data in truncated(body))
        yield from (("class file, slices", alone(data)) for data in sliced(body, chance, 100))
        yield from (("class file, edits", alone(data)) for data in edited(body, chance, 200))
    yield from (("class file, random", alone(nearly(chance))) for _ in range(600))
    yield from (("code, random", alone(code_edges.nearly(chance))) for _ in range(1000))
    yield from (("module, random", alone(code_edges.nearly(chance, FLAGS | MODULE))) for _ in range(200))
    for count in (2, 3, 5):
        for _ in range(20):
            yield "bundle, random", plain.pack(
                [(b"%d.class" % number, chance.choice((nearly, code_edges.nearly))(chance)) for number in range(count)])
            yield "bundle, random, modules", plain.pack(
                [(b"%d.class" % number, code_edges.nearly(chance, chance.choice((FLAGS, FLAGS | MODULE)))) for number in range(count)])


def run_in_pieces(data, size, words):
    """As measure.run_bytes, but the input comes in pieces of a few bytes."""
    child = subprocess.Popen(words, stdin=subprocess.PIPE, stdout=subprocess.PIPE, stderr=subprocess.PIPE, bufsize=0)
    try:
        for start in range(0, len(data), size):
            child.stdin.write(data[start:start + size])
            if start % 64 == 0:
                time.sleep(0.0005)
    except BrokenPipeError:
        pass
    try:
        child.stdin.close()
    except BrokenPipeError:
        pass
    child.stdin = None
    out, err = child.communicate()
    return child.returncode, out, err


def differ(kind, data, got, want):
    """Prints one difference."""
    shown = data.hex() if isinstance(data, bytes) else repr(data)
    print("DIFFERENCE: %s\n  input %s\n  fcg      %r\n  plain.py %r" % (kind, shown, got, want), flush=True)


class Tally:
    """What was compared so far."""

    def __init__(self, options):
        self.options = options
        self.counts = collections.Counter()
        self.differences = 0
        self.pieces = 0
        self.runs = 0

    def compare(self, kind, data, words, want):
        """Compares one run of the program, and some once more with the input in pieces."""
        self.runs += 1
        got = measure.run_bytes(data, words)
        if got == want and self.runs % 50 == 0 and len(data) < 5000:
            self.pieces += 1
            got = run_in_pieces(data, 1 + self.runs % 7, words)
        if got != want:
            differ("%s, %s" % (kind, words[1:]), data, got, want)
            self.differences += 1
            if not self.options.all:
                sys.exit(1)

    def try_input(self, kind, data):
        """Compares both commands on one input."""
        what = "read"
        for command, words in measure.COMMANDS.items():
            want = plain.answer(data, command)
            if want[0] != 0:
                line = json.loads(want[2])
                what = " ".join(filter(None, (line["fault"], line.get("rule"))))
            if not self.options.count:
                self.compare(kind, data, words, want)
        self.counts[kind, what] += 1

    def show(self):
        """Prints the counts."""
        totals = collections.Counter()
        for (kind, what), count in sorted(self.counts.items()):
            print("%-28s %-24s %6d" % (kind, what, count))
            totals[what] += count
        for what, count in sorted(totals.items()):
            print("%-28s %-24s %6d" % ("all", what, count))
        print("%d inputs, %d runs, %d of them also in pieces, %d differences"
              % (sum(totals.values()), self.runs, self.pieces, self.differences))


NO_COMMANDS = ([], ["lis"], ["list", "list"], ["list", ""], ["LIST"], [""], ["--help"], ["list\n"], [" list"], ["-"],
               ["list", "-"], ["\u00e9"], ["site"], ["sites", "sites"], ["sites", ""], ["SITES"], ["list", "sites"],
               ["sites\n"], ["sites", "-"], [" sites"])


def main():
    """Runs every input."""
    parser = argparse.ArgumentParser(description=__doc__, formatter_class=argparse.RawDescriptionHelpFormatter)
    parser.add_argument("--all", action="store_true", help="go on after a difference")
    parser.add_argument("--count", action="store_true", help="only count the inputs by kind and by what plain.py says")
    parser.add_argument("--kinds", nargs="*", metavar="WORD", help="only the kinds of inputs with one of these words")
    options = parser.parse_args()
    if not options.count:
        measure.ready()
    begin = time.monotonic()
    tally = Tally(options)
    seen = set()
    for kind, data in inputs():
        mark = hashlib.sha256(data).digest()
        if mark not in seen and (not options.kinds or any(word in kind for word in options.kinds)):
            seen.add(mark)
            tally.try_input(kind, data)
    if not options.count:
        for words in NO_COMMANDS:
            tally.counts["words", "words"] += 1
            tally.compare("words", alone(tiny()), [measure.FCG] + words, (2, b"", b"words\n"))
    tally.show()
    print("%.0f s" % (time.monotonic() - begin))
    return 1 if tally.differences else 0


if __name__ == "__main__":
    sys.exit(main())
