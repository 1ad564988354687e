#!/usr/bin/env python3
"""Times ./fcg list and ./fcg sites on inputs that a stranger could send, beside cat of the same bytes.

Each input is about as large as the limits allow. The status, the output and the fault of each run are
compared with plain.py; where a case can be made smaller, a second row shows it at a quarter of its size, so
that growth can be seen. A run is bound to 120 seconds and to 8 GiB. The table has the command, the bytes in
and out, the status, the least seconds of ./fcg and of cat (their output to /dev/null), the quotient, and the
peak memory of one run of ./fcg.
"""

import argparse
import hashlib
import random
import struct
import sys
import tempfile

import measure
import plain

LIMIT = plain.LIMIT
U2 = 65535
POOL = 65534
BOUND = 120.0
BUDGET = 30.0
# the bytes of the stems of paths: all that a path may have but the slash and the full stop
STEM = bytes(b for b in range(0x21, 0x100) if b not in (0x2E, 0x2F, 0x5C, 0x7F))
LETTERS = b"ABCDEFGHIJKLMNOPQRSTUVWXYZabcdefghijklmnopqrstuvwxyz0123456789_$"


def u2(number):
    """Two bytes, big-endian."""
    return struct.pack(">H", number)


def u4(number):
    """Four bytes, big-endian."""
    return struct.pack(">I", number)


def stem(number, letters=LETTERS, width=3):
    """A word of `width` letters, another one for each number, in the order of the numbers."""
    out = bytearray()
    for _ in range(width):
        number, digit = divmod(number, len(letters))
        out.append(letters[digit])
    return bytes(reversed(out))


class Pool:
    """A constant pool in the making."""

    def __init__(self):
        self.parts = []

    def utf8(self, text):
        """The index of a new Utf8 entry."""
        self.parts.append(b"\x01" + u2(len(text)) + text)
        return len(self.parts)

    def class_entry(self, index):
        """The index of a new Class entry."""
        self.parts.append(b"\x07" + u2(index))
        return len(self.parts)

    def named(self, text):
        """The index of a new Class entry with a new name."""
        return self.class_entry(self.utf8(text))

    def entry(self, tag, *indexes):
        """The index of a new entry of a tag and indexes."""
        self.parts.append(bytes([tag]) + b"".join(u2(index) for index in indexes))
        return len(self.parts)

    def raw(self, data, more=0):
        """The index of a new entry of these bytes, after which `more` indexes name nothing."""
        self.parts.append(data)
        index = len(self.parts)
        self.parts += [b""] * more
        return index

    def pair(self, name, descriptor):
        """The index of a new NameAndType with a new name and a new descriptor."""
        return self.entry(12, self.utf8(name), self.utf8(descriptor))

    def called(self, owner=b"o/W", name=b"go", descriptor=b"()V", tag=10):
        """The index of a new Methodref, or of another tag, with a new owner, name and descriptor."""
        return self.entry(tag, self.named(owner), self.pair(name, descriptor))

    def data(self):
        """The count and the entries."""
        return u2(len(self.parts) + 1) + b"".join(self.parts)


FLAGS = 0x0601
MODULE = 0x8000


def class_file(pool, this, methods=(), interfaces=b"", attributes=b"\x00\x00", super_index=0, fields=(), flags=FLAGS):
    """A class file; each field and method is (name index, descriptor index, count and bytes of attributes)."""
    parts = [b"\xca\xfe\xba\xbe\x00\x00\x00\x34", pool.data(), u2(flags), u2(this), u2(super_index),
             u2(len(interfaces) // 2), interfaces]
    for members in (fields, methods):
        parts.append(u2(len(members)))
        parts += [b"\x00\x01" + u2(name) + u2(descriptor) + more for name, descriptor, more in members]
    parts.append(attributes)
    return b"".join(parts)


def as_module(body):
    """A class file of class_file, whose class is its pool's second entry, as a module."""
    tail = u2(2)
    return body.replace(u2(FLAGS) + tail, u2(FLAGS | MODULE) + tail, 1)


def code_content(code, rows=b"", inner=b"\0\0", length=None):
    """The content of a Code attribute; `length` stands in it where it isn't that of the code."""
    return (u2(1) + u2(1) + u4(len(code) if length is None else length) + code + u2(len(rows) // 8) + rows + inner)


def attribute(name, content, length=None):
    """An attribute of a name index; `length` stands in it where it isn't that of the content."""
    return u2(name) + u4(len(content) if length is None else length) + content


def attributes(*rows):
    """A count and the attributes."""
    return u2(len(rows)) + b"".join(rows)


def smallest():
    """A small class file."""
    pool = Pool()
    return class_file(pool, pool.named(b"A"))


def one(body):
    """A bundle of one class file."""
    return plain.pack([(b"A.class", body)])


def many(body, size, front=b"", order="up", last=None, letters=STEM, width=3):
    """A bundle of about `size` bytes of one class file at paths that share a front."""
    count = (size - 10) // (6 + len(front) + width + 6 + len(body))
    numbers = list(range(count))
    if order == "down":
        numbers.reverse()
    if order == "shuffled":
        random.Random(1).shuffle(numbers)
    entries = [(front + stem(number, letters, width) + b".class", body) for number in numbers]
    if last is not None:
        entries[-1] = last(entries)
    return plain.pack(entries)


def full(body, size):
    """A bundle of as many copies of one class file as fit in `size` bytes."""
    return many(body, max(size, len(body) + 64))


def spoiled(bundle):
    """The bundle with its last byte changed, where that is the count of attributes of a class file."""
    return bundle[:-1] + b"\x01"


def method_names(part):
    """One class file of 65,535 methods of different names."""
    pool = Pool()
    this = pool.named(b"A")
    kinds = [pool.utf8(b"()V"), pool.utf8(b"()I")]
    names = [pool.utf8(stem(number)) for number in range(POOL - 4)]
    pairs = [(name, kinds[0], b"\0\0") for name in names] + [(name, kinds[1], b"\0\0") for name in names[:5]]
    return one(class_file(pool, this, pairs[:int(len(pairs) * part)]))


def one_name(part, length=60000, fill=b"n", copies=1):
    """One class file of some 65,500 methods of one long name and different descriptors.

    The name is in the pool `copies` times, and the methods take them in turn.
    """
    pool = Pool()
    this = pool.named(b"A")
    names = [pool.utf8(fill * length) for _ in range(copies)]
    kinds = [pool.utf8(b"(L" + stem(number) + b";)V") for number in range(int((POOL - 2 - copies) * part))]
    return one(class_file(pool, this, [(names[place % copies], kind, b"\0\0") for place, kind in enumerate(kinds)]))


def long_fronts(part, pairs=None, front=30000):
    """One class file of methods whose names, and whose descriptors, share a long front."""
    pool = Pool()
    this = pool.named(b"A")
    count = int((LIMIT - 1000000) * part) // (2 * front + 40)
    start = b"n" * front
    names = [pool.utf8(start + stem(number)) for number in range(count)]
    kinds = [pool.utf8(b"(L" + start + stem(number) + b";)V") for number in range(count)]
    if pairs is None:
        chosen = list(zip(names, kinds))
    else:
        chosen = [(names[number // count], kinds[number % count]) for number in range(int(pairs * part))]
        random.Random(2).shuffle(chosen)
    return one(class_file(pool, this, [(name, kind, b"\0\0") for name, kind in chosen]))


def copied_names(part, front=1000):
    """One class file of 65,531 methods, their different names all with one front of 1,000 bytes."""
    pool = Pool()
    this = pool.named(b"A")
    kind = pool.utf8(b"()V")
    start = b"n" * front
    names = [pool.utf8(start + stem(number)) for number in range(int((POOL - 3) * part))]
    return one(class_file(pool, this, [(name, kind, b"\0\0") for name in names]))


def interfaces_body(length=U2):
    """A class file of 65,535 interfaces that name one Class of a long name."""
    pool = Pool()
    this = pool.named(b"A")
    return class_file(pool, this, interfaces=u2(pool.named(b"i" * length)) * U2)


def pool_body(kind, count=POOL):
    """A class file with a pool of `count` entries of one kind."""
    pool = Pool()
    this = pool.named(b"A")
    for number in range(count - 2):
        if kind == "class":
            pool.class_entry(1)
        elif kind == "last":
            pool.class_entry(count)
        elif kind == "empty":
            pool.utf8(b"")
        else:
            pool.utf8(kind)
    if kind == "last":
        pool.parts[-1] = b"\x01\x00\x01A"
    return class_file(pool, this)


def attribute_body(methods, count=U2, name=b"", where="method"):
    """A class file with methods of `count` empty attributes each, or with them itself."""
    pool = Pool()
    this = pool.named(b"A")
    kind = pool.utf8(b"()V")
    word = pool.utf8(name)
    some = u2(count) + (u2(word) + u4(0)) * count
    if where == "class":
        return class_file(pool, this, attributes=some)
    names = [pool.utf8(stem(number)) for number in range(methods)]
    return class_file(pool, this, [(index, kind, some) for index in names])


def descriptor_body(descriptor, methods=1):
    """A class file with methods of one descriptor."""
    pool = Pool()
    this = pool.named(b"A")
    kind = pool.utf8(descriptor)
    names = [pool.utf8(stem(number)) for number in range(methods)]
    return class_file(pool, this, [(name, kind, b"\0\0") for name in names])


def fields_body(count=U2, name=b"f" * U2, descriptor=b"L" + b"c" * (U2 - 2) + b";", rows=0):
    """A class file of `count` fields of one name and descriptor, each with `rows` empty attributes."""
    pool = Pool()
    this = pool.named(b"A")
    word = pool.utf8(b"N" * U2)
    field = pool.utf8(name), pool.utf8(descriptor), u2(rows) + (u2(word) + u4(0)) * rows
    return class_file(pool, this, fields=[field] * count)


def own_fields(part, length=1000):
    """A class file of some 32,700 fields, each of a name and a descriptor of its own that share a front."""
    pool = Pool()
    this = pool.named(b"A")
    fields = []
    for number in range(int((POOL - 2) // 2 * part)):
        word = b"n" * length + stem(number)
        fields.append((pool.utf8(word), pool.utf8(b"L" + word + b";"), b"\0\0"))
    return class_file(pool, this, fields=fields)


def kinds_of_fields(part, descriptor):
    """A class file of some 65,500 fields of a short descriptor of entries of their own."""
    pool = Pool()
    this = pool.named(b"A")
    name = pool.utf8(b"f")
    return class_file(pool, this, fields=[(name, pool.utf8(descriptor), b"\0\0") for _ in range(int((POOL - 3) * part))])


def field_cases():
    """Each case of fields and modules: its name, a function of its part, whether it has a quarter, and its commands."""
    both = ("list", "sites")
    small = as_module(smallest())
    yield "65535 fields of a name and a descriptor of 65535 bytes", lambda part: one(fields_body(int(U2 * part))), True, both
    yield "the same, copies to the limit", lambda part: full(fields_body(), int(LIMIT * part)), True, both
    yield "the same, copies to the limit, refused", lambda part: spoiled(full(fields_body(), int(LIMIT * part))), False, both
    yield ("65535 fields of a descriptor of 255 arrays of one class name",
           lambda part: one(fields_body(int(U2 * part), descriptor=b"[" * 255 + b"L" + b"c" * (U2 - 257) + b";")), True, both)
    yield "65535 fields with 160 attributes each", lambda part: one(fields_body(int(U2 * part), rows=160)), True, both
    yield "65535 empty attributes on 170 fields", lambda part: one(fields_body(int(169 * part), rows=U2)), True, both
    yield "32766 fields of names and descriptors sharing 1000 bytes", lambda part: one(own_fields(part)), True, both
    yield ("65531 fields of a descriptor of 255 arrays, each in an entry of its own",
           lambda part: one(kinds_of_fields(part, b"[" * 255 + b"J")), True, both)
    yield "65535 fields of a short name", lambda part: one(fields_body(int(U2 * part), b"f", b"I")), True, both
    yield "the same, copies to the limit", lambda part: full(fields_body(U2, b"f", b"I"), int(LIMIT * part)), True, both
    yield "smallest modules", lambda part: many(small, int(LIMIT * part)), True, both
    yield "the same, the last refused", lambda part: spoiled(many(small, int(LIMIT * part))), False, both
    yield ("modules of 1000000 calls each",
           lambda part: bundle_of(*[as_module(calls(1000000))] * int(20 * part)), True, both)
    yield ("the same, and 4000000 calls in four class files",
           lambda part: bundle_of(*[as_module(calls(1000000))] * 8, *[calls(1000000)] * 4), False, ("list",))
    yield "the same, and 1000001 calls in a module, refused", lambda part: bundle_of(as_module(calls(1000001))), False, both
    yield ("modules of 1000000 calls of one long reference",
           lambda part: bundle_of(*[as_module(calls(PER_CODE * 45, b"o" * U2, b"n" * U2, LONG_CLASS))] * int(16 * part)), True, both)
    yield "modules of 65535 fields to the limit", lambda part: full(as_module(fields_body()), int(LIMIT * part)), True, both


def sized(size):
    """A bundle of exactly `size` bytes: one class file with one long attribute."""
    pool = Pool()
    this = pool.named(b"A")
    word = pool.utf8(b"Pad")
    short = len(one(class_file(pool, this, attributes=u2(1) + u2(word) + u4(0))))
    return one(class_file(pool, this, attributes=u2(1) + u2(word) + u4(size - short) + bytes(size - short)))


LONG_CLASS = b"(L" + b"c" * (U2 - 5) + b";)V"
ARRAYS = b"(" + (b"[" * 255 + b"J") * 255 + b")V"


def cases():
    """Each case: its name, a function of the part (1 or a quarter) of its size, whether it has a quarter."""
    small = smallest()

    def bad_last(entries):
        """The last entry with a byte too many."""
        return entries[-1][0], entries[-1][1] + b"\0"

    def same_path(entries):
        """The last entry at the path of the first one."""
        return entries[0]

    def by_size(build):
        """A case that is made for a size."""
        return lambda part: build(int(LIMIT * part))

    for order in ("up", "down", "shuffled"):
        yield "smallest class files, paths " + order, by_size(lambda s, o=order: many(small, s, order=o)), True
    for length in (200, 1000):
        for order in ("up", "shuffled"):
            yield ("smallest class files, paths sharing %d bytes, %s" % (length, order),
                   by_size(lambda s, o=order, n=length: many(small, s, b"p" * (n - 1) + b"/", o)), True)
    yield ("smallest class files, paths sharing 500 parts",
           by_size(lambda s: many(small, s, b"p/" * 500)), True)
    yield "smallest class files, the last refused", by_size(lambda s: many(small, s, last=bad_last)), False
    yield "smallest class files, last path again", by_size(lambda s: many(small, s, last=same_path)), False
    yield "65535 methods, other names", method_names, True
    yield ("the same, copies to the limit", by_size(lambda s: full(plain.unpack(method_names(1))[0][1], s)), True)
    yield "65531 methods, names sharing 1000 bytes", copied_names, True
    yield "names and descriptors sharing 30000 bytes", long_fronts, True
    yield "the same, 65535 methods of them, refused", lambda part: spoiled(long_fronts(part, U2)), True
    yield "the same, 65535 methods of them", lambda part: long_fronts(part, U2), False
    yield "one name of 60000 bytes, refused", lambda part: spoiled(one_name(part)), True
    yield "one name of 60000 bytes, 8 times in the pool, refused", lambda part: spoiled(one_name(part, copies=8)), False
    yield ("one name of 60000 bytes, copies to the limit, refused",
           by_size(lambda s: spoiled(full(plain.unpack(one_name(1))[0][1], s))), False)
    yield "one name of 60000 bytes", one_name, True
    yield "one name of 60000 escaped bytes", lambda part: one_name(part, fill=b"."), False
    yield "type names of 65535 escaped bytes", by_size(lambda s: full(long_type(), s)), True
    yield "65535 interfaces of one long name", lambda part: one(interfaces_body()), False
    yield "the same, copies to the limit", by_size(lambda s: full(interfaces_body(), s)), True
    for kind, what in (("class", "Class of entry 1"), ("last", "Class of the last entry"), ("empty", "empty Utf8"),
                       (b"\xe0\x80\x80" * 330, "Utf8 of 990 bytes")):
        yield "pool of 65534 entries, %s" % what, lambda part, k=kind: one(pool_body(k, int(POOL * part))), True
    for kind, what in (("class", "Class of entry 1"), ("empty", "empty Utf8")):
        yield "the same, %s, copies to the limit" % what, by_size(lambda s, k=kind: full(pool_body(k), s)), True
    yield "65535 empty attributes on one method", lambda part: one(attribute_body(1)), False
    yield "the same on 170 methods", lambda part: one(attribute_body(int(170 * part))), True
    yield ("the same on 170 methods, name of 65535 bytes",
           lambda part: one(attribute_body(int(169 * part), name=b"C" * U2)), True)
    yield "65535 empty attributes of the class", lambda part: one(attribute_body(0, where="class")), False
    for descriptor, what in ((LONG_CLASS, "one class name"), (ARRAYS, "255 arrays of 255")):
        yield ("descriptor of %d bytes, %s" % (len(descriptor), what),
               lambda part, d=descriptor: one(descriptor_body(d)), False)
        yield ("the same, class files to the limit",
               by_size(lambda s, d=descriptor: full(descriptor_body(d), s)), True)
        yield ("the same on 65530 methods, refused",
               lambda part, d=descriptor: spoiled(one(descriptor_body(d, int((POOL - 4) * part)))), True)
    yield "65533 times [", lambda part: one(descriptor_body(b"(" + b"[" * (U2 - 2))), False
    yield "65532 times [ and I", lambda part: one(descriptor_body(b"(" + b"[" * (U2 - 4) + b"I)V")), False
    yield "65535 times (", lambda part: one(descriptor_body(b"(" * U2)), False
    yield "exactly the limit", by_size(sized), True
    yield "one byte more", lambda part: sized(LIMIT + 1), False
    yield "exactly the limit, a jar", lambda part: plain.JAR + bytes(LIMIT - 4), False
    yield "one byte more, a jar", lambda part: plain.JAR + bytes(LIMIT - 3), False
    yield "exactly the limit, zeros", lambda part: bytes(LIMIT), False
    yield "the limit, a count of 4294967295 and no entry", lambda part: b"FCGB\0\1\xff\xff\xff\xff" + bytes(LIMIT - 10), False


def long_type():
    """A class file whose name has 65,535 bytes that are escaped."""
    pool = Pool()
    return class_file(pool, pool.named(b"." * U2))


PER_CODE = U2 // 3
STATIC = b"\xb8"
GET = b"\xb2"
PUT = b"\xb3"
NEW = b"\xbb"


def coded(pool, this, code, methods, more=b""):
    """A class file of methods that all have these bytes as the content of their Code attribute."""
    kind = pool.utf8(b"()V")
    word = pool.utf8(b"Code")
    some = attributes(attribute(word, code)) + more
    names = [pool.utf8(stem(number)) for number in range(methods)]
    return class_file(pool, this, [(name, kind, some) for name in names])


def named_by(pool, opcode, owner, name, descriptor):
    """A new entry that a site of this opcode may name."""
    if opcode == NEW:
        return pool.named(owner)
    return pool.called(owner, name, descriptor, 9 if opcode in (GET, PUT) else 10)


def calls(sites, owner=b"A", name=b"a", descriptor=b"()V", opcode=STATIC):
    """A class file of so many calls of one method, or other sites of three bytes, 21,845 to a code."""
    pool = Pool()
    this = pool.named(b"A")
    called = named_by(pool, opcode, owner, name, descriptor)
    kind = pool.utf8(b"()V")
    word = pool.utf8(b"Code")
    methods = []
    while sites > 0:
        count = min(sites, PER_CODE)
        some = attributes(attribute(word, code_content((opcode + u2(called)) * count)))
        methods.append((pool.utf8(stem(len(methods))), kind, some))
        sites -= count
    return class_file(pool, this, methods)


def caller(sites, name, descriptor=b"()V"):
    """A class file of one method of this name and descriptor that has so many calls."""
    pool = Pool()
    this = pool.named(b"A")
    called = pool.called(b"A", b"a")
    some = attributes(attribute(pool.utf8(b"Code"), code_content((STATIC + u2(called)) * sites)))
    return class_file(pool, this, [(pool.utf8(name), pool.utf8(descriptor), some)])


def bundle_of(*bodies):
    """A bundle of class files."""
    return plain.pack([(b"%d.class" % number, body) for number, body in enumerate(bodies)])


def each_named(count, opcode, front=0, rounds=1):
    """A class file whose sites name `count` types or fields of their own, `rounds` times each; names share a front."""
    pool = Pool()
    this = pool.named(b"A")
    kind = pool.utf8(b"I")
    indexes = []
    for number in range(count):
        name = pool.utf8(b"n" * front + stem(number))
        indexes.append(pool.class_entry(name) if opcode == NEW else pool.entry(9, this, pool.entry(12, name, kind)))
    void = pool.utf8(b"()V")
    word = pool.utf8(b"Code")
    code = b"".join(opcode + u2(index) for index in indexes[:PER_CODE])
    some = attributes(attribute(word, code_content(code)))
    return class_file(pool, this, [(pool.utf8(stem(number)), void, some) for number in range(rounds)])


def long_owners(sites, owners=100, length=60000):
    """A class file of so many calls, one owner after the other, whose names share all but their last bytes."""
    pool = Pool()
    this = pool.named(b"A")
    named = [pool.called(b"n" * (length - 3) + stem(number), b"a") for number in range(owners)]
    kind = pool.utf8(b"()V")
    word = pool.utf8(b"Code")
    methods = []
    for first in range(0, sites, PER_CODE):
        code = b"".join(STATIC + u2(named[number % owners]) for number in range(first, min(sites, first + PER_CODE)))
        methods.append((pool.utf8(stem(len(methods))), kind, attributes(attribute(word, code_content(code)))))
    return class_file(pool, this, methods)


def site_cases():
    """Each case of types that are made and of static fields."""
    both = ("list", "sites")
    long, most = b"n" * U2, PER_CODE * 45
    field = b"L" + b"c" * (U2 - 2) + b";"
    for opcode, what in ((NEW, "new"), (GET, "getstatic"), (PUT, "putstatic")):
        yield ("1000000 times %s in one class file" % what,
               lambda part, o=opcode: one(calls(int(1000000 * part), descriptor=b"I", opcode=o)), True, both)
        yield ("1000001 times %s in one class file, refused" % what,
               lambda part, o=opcode: one(calls(1000001, descriptor=b"I", opcode=o)), False, both)
        yield ("4000000 times %s in four class files" % what,
               lambda part, o=opcode: bundle_of(*[calls(int(1000000 * part), descriptor=b"I", opcode=o)] * 4), False, ("list",))
        yield ("983025 times %s of one long name" % what,
               lambda part, o=opcode: one(calls(int(most * part), long, long, field, o)), True, ("list",))
        yield ("the same, in four class files, refused",
               lambda part, o=opcode: spoiled(bundle_of(*[calls(int(most * part), long, long, field, o)] * 4)), True, both)
        yield ("20000 names sharing 1000 bytes, each in 40 times %s" % what,
               lambda part, o=opcode: one(each_named(20000, o, 1000, int(40 * part))), True, both)
    yield ("1000000 calls by 100 owners of 60000 bytes that share a front",
           lambda part: one(long_owners(int(1000000 * part))), True, ("list",))
    yield ("the same, four class files",
           lambda part: bundle_of(*[long_owners(int(1000000 * part))] * 4), False, ("list",))
    yield "21845 times new of a name of 65535 bytes", lambda part: one(calls(int(PER_CODE * part), long, opcode=NEW)), True, both
    yield ("21845 times getstatic of a name of 65535 bytes",
           lambda part: one(calls(int(PER_CODE * part), name=long, descriptor=b"I", opcode=GET)), True, both)
    yield ("21845 times putstatic of 65535 escaped bytes",
           lambda part: one(calls(int(PER_CODE * part), name=b"/" * U2, descriptor=b"I", opcode=PUT)), False, both)


def each_called(count, names=None, descriptor=b"()V", rounds=1):
    """A class file that calls `count` methods, `rounds` times each, all of one descriptor.

    The names share a front of `names` bytes, or are one name.
    """
    pool = Pool()
    this = pool.named(b"A")
    kind = pool.utf8(descriptor)
    one_name = pool.utf8(b"a")
    indexes = []
    for number in range(count):
        name = one_name if names is None else pool.utf8(b"n" * names + stem(number))
        indexes.append(pool.entry(10, this, pool.entry(12, name, kind)))
    void = pool.utf8(b"()V")
    word = pool.utf8(b"Code")
    methods = []
    for _ in range(rounds):
        for start in range(0, count, PER_CODE):
            code = b"".join(STATIC + u2(index) for index in indexes[start:start + PER_CODE])
            methods.append((pool.utf8(stem(len(methods))), void, attributes(attribute(word, code_content(code)))))
    return class_file(pool, this, methods)


def repeated(code):
    """The content of a Code attribute of as many of these instructions as fit in 65,535 bytes."""
    return code_content(code * (U2 // len(code)))


def switches(rows):
    """Code of tableswitches and lookupswitches of so many rows, one after the other."""
    code = b""
    while True:
        front = b"\xaa" + bytes(3 - len(code) % 4) + bytes(8) + u4(rows - 1) + b"\xca" * (4 * rows)
        if len(code + front) > U2:
            return code
        code += front
        front = b"\xab" + bytes(3 - len(code) % 4) + bytes(4) + u4(rows) + b"\xca" * (8 * rows)
        if len(code + front) > U2:
            return code
        code += front


def code_body(content, part=1.0):
    """A class file of as many methods as fit in a bundle that all have this content of their Code attribute."""
    pool = Pool()
    this = pool.named(b"A")
    count = min(POOL - 6, (LIMIT - 1000000) // (len(content) + 16))
    return coded(pool, this, content, int(count * part))


def inner_body(part, name):
    """A class file of methods whose Code has 65,535 empty attributes of this name."""
    pool = Pool()
    this = pool.named(b"A")
    some = u2(U2) + (u2(pool.utf8(name)) + u4(0)) * U2
    return coded(pool, this, code_content(b"\xb1", inner=some), int(169 * part))


def code_cases():
    """Each case of code: its name, a function of its part, whether it has a quarter, and its commands."""
    both = ("list", "sites")
    name, owner = b"n" * U2, b"o" * U2
    most = PER_CODE * 45

    def thousand(part):
        """A thousand class files of some calls each, 4,000,001 in all where the part is 1."""
        body = calls(4000)
        return bundle_of(*[body] * int(1000 * part), calls(1))

    yield "1000000 calls in one class file", lambda part: one(calls(int(1000000 * part))), True, both
    yield "1000001 calls in one class file, refused", lambda part: one(calls(1000001)), False, both
    yield "4000000 calls in four class files", lambda part: bundle_of(*[calls(int(1000000 * part))] * 4), True, both
    yield "4000001 calls in five class files, refused", lambda part: bundle_of(*[calls(1000000)] * 4, calls(1)), False, both
    yield "4000001 calls in 1001 class files, refused", thousand, False, both
    yield "4000000 calls in 1000 class files", lambda part: bundle_of(*[calls(4000)] * int(1000 * part)), True, both
    for descriptor, what in ((b"()V", "short descriptor"), (LONG_CLASS, "descriptor of one class name"),
                             (ARRAYS, "descriptor of 255 arrays of 255")):
        yield ("983025 calls of one long reference, %s" % what,
               lambda part, d=descriptor: one(calls(int(most * part), owner, name, d)), True, ("list",))
        yield ("the same, in four class files",
               lambda part, d=descriptor: bundle_of(*[calls(int(most * part), owner, name, d)] * 4), True, ("list",))
        yield ("the same, in four class files, refused",
               lambda part, d=descriptor: spoiled(bundle_of(*[calls(int(most * part), owner, name, d)] * 4)), True, both)
    yield "21845 calls of a name of 65535 bytes", lambda part: one(calls(int(PER_CODE * part), name=name)), True, both
    yield "21845 calls of an owner of 65535 escaped bytes", lambda part: one(calls(int(PER_CODE * part), b"." * U2)), False, both
    yield "21845 calls in a method of a name of 65535 bytes", lambda part: one(caller(int(PER_CODE * part), name)), True, both
    yield ("21845 calls in a method of a long descriptor",
           lambda part: one(caller(int(PER_CODE * part), b"a", ARRAYS)), False, both)
    for descriptor, what in ((LONG_CLASS, "one class name"), (ARRAYS, "255 arrays of 255")):
        yield ("32000 references of one long descriptor, %s, each called" % what,
               lambda part, d=descriptor: one(each_called(int(32000 * part), descriptor=d)), True, both)
        yield ("15000 references of one long descriptor, %s, each called, copies to the limit" % what,
               lambda part, d=descriptor: full(each_called(15000, descriptor=d), int(LIMIT * part)), True, ("list",))
        yield ("the same, refused",
               lambda part, d=descriptor: spoiled(full(each_called(15000, descriptor=d), int(LIMIT * part))), True, both)
    yield ("20000 references, names sharing 1000 bytes, each called 40 times",
           lambda part: one(each_called(20000, 1000, rounds=int(40 * part))), True, both)
    yield "65528 methods of a code of one byte", lambda part: one(code_body(code_content(b"\xb1"), part)), True, both
    yield ("the same, copies to the limit",
           lambda part: full(code_body(code_content(b"\xb1")), int(LIMIT * part)), True, both)
    for code, what in ((b"\x00", "00"), (b"\x10\x00", "10 00"), (b"\x11\0\0", "11 00 00"), (b"\xc4\x15\0\0", "c4 15 00 00"),
                       (b"\xc8\0\0\0\0", "c8 00 00 00 00"), (b"\x00\x10\xca\x11\xca\xca", "00 10 ca 11 ca ca")):
        yield ("codes of 65535 bytes to the limit, of %s" % what,
               lambda part, c=code: one(code_body(repeated(c), part)), True, both)
    for rows in (1, 10, 5400):
        yield ("codes of switches of %d rows to the limit" % rows,
               lambda part, r=rows: one(code_body(code_content(switches(r)), part)), True, both)
    wide = b"\xaa" + bytes(3 + 4 + 4) + b"\x7f\xff\xff\xff" + bytes(60000)
    yield "a switch of 2147483648 rows, refused", lambda part: one(code_body(code_content(wide))), False, both
    yield ("65535 exception rows on 127 methods",
           lambda part: one(code_body(code_content(b"\xb1", bytes(8 * U2)), part)), True, both)
    yield "65535 empty attributes in the code of 169 methods", lambda part: one(inner_body(part, b"")), True, both
    yield ("the same, name of 65535 bytes",
           lambda part: one(inner_body(part, (b"BootstrapMethods" * 5000)[:U2])), True, both)
    yield ("the same, named BootstrapMethods", lambda part: one(inner_body(part, b"BootstrapMethods")), True, both)


def table(rows):
    """The content of a BootstrapMethods of rows, each the index of a handle and the bytes of its arguments' indexes."""
    return u2(len(rows)) + b"".join(u2(handle) + u2(len(arguments) // 2) + arguments for handle, arguments in rows)


class Dynamic:
    """A class in the making whose methods have `invokedynamic`s, with handles that call, and one that doesn't."""

    def __init__(self, owner=b"o", name=b"h", descriptor=b"()V"):
        pool = self.pool = Pool()
        self.this = pool.named(b"A")
        self.void = pool.utf8(b"()V")
        self.code = pool.utf8(b"Code")
        self.word = pool.utf8(b"BootstrapMethods")
        self.owner, self.pair = pool.named(owner), pool.pair(name, descriptor)
        self.handle = self.handle_of(self.pair)
        field = pool.entry(9, self.owner, pool.pair(name, b"I"))
        self.getter = pool.raw(b"\x0f\1" + u2(field))
        self.type = pool.entry(16, self.void)

    def handle_of(self, pair):
        """The index of a new handle that calls a static method of a pair of name and type."""
        return self.pool.raw(b"\x0f\6" + u2(self.pool.entry(10, self.owner, pair)))

    def site(self, row=0):
        """An `invokedynamic` of a row."""
        return b"\xba" + u2(self.pool.entry(18, row, self.pair)) + b"\0\0"

    def data(self, codes, rows):
        """The class file of methods of these codes, and of rows of BootstrapMethods."""
        methods = []
        for number, code in enumerate(codes):
            methods.append((self.pool.utf8(stem(number)), self.void, attributes(attribute(self.code, code_content(code)))))
        more = attributes(attribute(self.word, table(rows)))
        return class_file(self.pool, self.this, methods, attributes=more)


PER_DYNAMIC = U2 // 5


def linked_calls(sites, handles):
    """A class file of an `invokedynamic` of so many handles, and then of so many calls."""
    made = Dynamic()
    call = STATIC + u2(made.pool.called(b"A", b"a"))
    codes = [made.site()]
    while sites > 0:
        codes.append(call * min(sites, PER_CODE))
        sites -= PER_CODE
    rows = [(made.handle, u2(made.handle) * (handles - 1))] if handles else [(made.getter, b"")]
    return made.data(codes, rows)


def used_often(methods, arguments, size=U2, per_code=PER_DYNAMIC, handle=False):
    """A class file of so many methods full of one `invokedynamic`, whose row has `size` arguments of a kind."""
    made = Dynamic()
    index = {"types": made.type, "getters": made.getter, "handles": made.handle}[arguments]
    code = made.site() * per_code
    return made.data([code] * methods, [(made.handle if handle else made.getter, u2(index) * size)])


def last_missing():
    """A class file of a thousand methods full of `invokedynamic`, of which the last has no row."""
    made = Dynamic()
    code = made.site() * (PER_DYNAMIC - 1)
    return made.data([code + made.site()] * 999 + [code + made.site(1)], [(made.getter, b"")])


def rows_unused(part, size=0):
    """A class file of 65,535 rows that none uses, or of as many as fit of `size` arguments."""
    made = Dynamic()
    count = min(U2, (LIMIT - 1000000) // (4 + 2 * size))
    return made.data([b"\xb1"], [(made.handle, u2(made.type) * size)] * int(count * part))


def rows_used_once(part, arguments, size):
    """A class file of 60,000 rows, or of as many as fit, each of `size` arguments of a kind and used once."""
    made = Dynamic()
    index = {"types": made.type, "getters": made.getter, "handles": made.handle}[arguments]
    count = int(min(60000, (LIMIT - 3000000) // (20 + 2 * size)) * part)
    sites = [made.site(row) for row in range(count)]
    codes = [b"".join(sites[start:start + PER_DYNAMIC]) for start in range(0, count, PER_DYNAMIC)]
    return made.data(codes, [(made.getter, u2(index) * size)] * count)


def own_handles(part, descriptor):
    """A class file of 16,000 handles of names of their own and one descriptor, in one row that is used 40 times."""
    made = Dynamic(descriptor=descriptor)
    kind = made.pool.utf8(descriptor)
    indexes = []
    for number in range(int(16000 * part)):
        indexes.append(made.handle_of(made.pool.entry(12, made.pool.utf8(b"n" * 1000 + stem(number)), kind)))
    return made.data([made.site() * 40], [(made.handle, b"".join(map(u2, indexes)))])


def dynamic_cases():
    """Each case of `invokedynamic`: its name, a function of its part, whether it has a quarter, and its commands."""
    both = ("list", "sites")
    for arguments in ("types", "getters"):
        yield ("a row of 65535 %s, used by 13107 invokedynamic" % arguments,
               lambda part, a=arguments: one(used_often(1, a, int(U2 * part))), True, both)
        yield ("the same, in 1000 methods", lambda part, a=arguments: one(used_often(int(1000 * part), a)), True, both)
    yield ("64 MB of invokedynamic with a row without sites",
           lambda part: one(used_often(int(1000 * part), "types", 0)), True, both)
    yield "the same, the last row missing", lambda part: one(last_missing()), False, both
    yield "a row of 60000 handles, used 16 times", lambda part: one(used_often(1, "handles", int(60000 * part), 16)), True, both
    yield "a row of 60000 handles, used 17 times, refused", lambda part: one(used_often(1, "handles", 60000, 17)), False, both
    yield "a row of 60000 handles, used in 1000 methods, refused", lambda part: one(used_often(1000, "handles", 60000)), False, both
    yield "a row of 65535 handles, used until there are too many", lambda part: one(used_often(1, "handles", U2)), False, both
    yield "1000000 handles, a row of one", lambda part: one(used_often(int(80 * part), "types", 0, 12500, True)), True, both
    yield "1000001 handles, a row of one, refused", lambda part: one(linked_calls(1000000, 1)), False, both
    yield ("4000000 handles in four class files",
           lambda part: bundle_of(*[used_often(int(80 * part), "types", 0, 12500, True)] * 4), True, ("list",))
    yield "65535 rows that none uses", lambda part: one(rows_unused(part)), True, both
    yield "the same, copies to the limit", lambda part: full(rows_unused(1), int(LIMIT * part)), True, both
    yield "rows of 500 arguments that none uses", lambda part: one(rows_unused(part, 500)), True, both
    yield "rows of 65535 arguments that none uses", lambda part: one(rows_unused(part, U2)), True, both
    for arguments, size in (("types", 0), ("types", 500), ("getters", 500), ("types", U2), ("getters", U2), ("handles", 16)):
        yield ("rows of %d %s, each used once" % (size, arguments),
               lambda part, a=arguments, s=size: one(rows_used_once(part, a, s)), True, both)
    for descriptor, what in ((b"()V", "a short descriptor"), (ARRAYS, "255 arrays of 255")):
        yield ("16000 handles of own names and %s, in a row that is used 40 times" % what,
               lambda part, d=descriptor: one(own_handles(part, d)), True, both[:1] if descriptor == ARRAYS else both)
    yield ("modules of 64 MB of invokedynamic",
           lambda part: one(as_module(used_often(int(1000 * part), "types", 0))), True, both)


def views(data):
    """The views of a bundle, or the line of its refusal."""
    try:
        return plain.shown(data)
    except plain.Refused as refused:
        return refused.line


def expected(found, command):
    """The status, the size and SHA-256 of the output, and the errors that plain.py says."""
    state = hashlib.sha256()
    if isinstance(found, bytes):
        return 3, 0, state.hexdigest(), found
    size = 0
    for line in plain.LINES[command](found):
        size += len(line)
        state.update(line)
    return 0, size, state.hexdigest(), b""


def measure_case(folder, name, data, runs, commands):
    """Measures one input with some commands; gives whether each agrees with plain.py."""
    path = measure.write(folder, "input", data)
    found = views(data)
    cats, _ = measure.least(path, measure.CAT, runs)
    agree = True
    for command in commands:
        agree = measure_run(path, name, data, runs, command, expected(found, command), cats) and agree
    return agree


def measure_run(path, name, data, runs, command, want, cats):
    """Measures one input with one command and prints its row; gives whether it is as wanted."""
    words = measure.COMMANDS[command]
    got = measure.weigh(path, words, bound=BOUND)
    if got.status is None or got.status not in (0, 3):
        ours, made = None, 1
    else:
        ours, made = measure.least(path, words, runs, BOUND, BUDGET)
    times = "-" if ours is None else "%.1f" % (ours / cats)
    status = "time" if got.status is None else str(got.status)
    print("| %-64s | %-7s | %10d | %12d | %6s | %9s | %7s | %8s | %9s | %4d |"
          % (name, command, len(data), got.size, status, measure.show(ours), measure.show(cats), times,
             "-" if got.peak is None or got.status is None else got.peak, made), flush=True)
    if got.status is None:
        print("    the bound of %.0f s was passed" % BOUND, flush=True)
        return True
    if (got.status, got.err) == (7, b"no memory\n"):
        print("    the bound of %d bytes of memory was passed" % measure.MEMORY, flush=True)
        return True
    if (got.status, got.size, got.digest, got.err) == want:
        return True
    print("DIFFERENCE: fcg status %r, %d bytes, %s, %r; plain.py status %d, %d bytes, %s, %r"
          % (got.status, got.size, got.digest, got.err, *want), flush=True)
    return False


def all_cases():
    """Every case with its commands."""
    for name, build, quarters in cases():
        yield name, build, quarters, ("list",)
    yield from code_cases()
    yield from dynamic_cases()
    yield from site_cases()
    yield from field_cases()


def chosen(options):
    """The cases that are asked for, with their whole names."""
    before = ""
    start = options.start
    for name, build, quarters, commands in all_cases():
        if name.startswith("the same"):
            label = before + ": " + name[len("the same"):].lstrip(", ")
        else:
            label = before = name
        if start and start not in label:
            continue
        start = None
        if not options.words or any(word in label for word in options.words):
            yield label, build, quarters and not options.whole, commands


def main():
    """Measures every case, or those with a word in their names."""
    parser = argparse.ArgumentParser(description=__doc__, formatter_class=argparse.RawDescriptionHelpFormatter)
    parser.add_argument("words", nargs="*", help="only the cases with one of these words in their names")
    parser.add_argument("--runs", type=int, default=5, help="runs of each, the least counts (5)")
    parser.add_argument("--from", dest="start", help="only the cases from the first one with this word in its name on")
    parser.add_argument("--whole", action="store_true", help="no rows of a quarter of the size")
    parser.add_argument("--names", action="store_true", help="only print the names of the cases and their sizes")
    options = parser.parse_args()
    if options.names:
        for label, build, _, commands in chosen(options):
            print("%-80s %10d  %s" % (label, len(build(1)), " ".join(commands)), flush=True)
        return 0
    measure.ready()
    measure.bind_memory()
    print("| %-64s | %-7s | %10s | %12s | %6s | %9s | %7s | %8s | %9s | runs |"
          % ("case", "command", "bytes in", "bytes out", "status", "fcg s", "cat s", "quotient", "peak KiB"))
    print("|" + "|".join("-" * (width + 2) for width in (64, 7, 10, 12, 6, 9, 7, 8, 9, 4)) + "|")
    agree = True
    with tempfile.TemporaryDirectory() as folder:
        for label, build, quarters, commands in chosen(options):
            if quarters:
                agree = measure_case(folder, "(a quarter)", build(0.25), options.runs, commands) and agree
            agree = measure_case(folder, label, build(1), options.runs, commands) and agree
    print("no difference" if agree else "FAILED: there are differences")
    return 0 if agree else 1


if __name__ == "__main__":
    sys.exit(main())
