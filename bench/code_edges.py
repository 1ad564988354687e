"""Edges and mutations of Code attributes, fields, bootstrap methods and modules, for differential.py.

Each is a class file, most of them of one method. All that is random comes from the source of chance that is
given.
"""

import struct

from hostile import FLAGS, MODULE, Pool, as_module, attribute, attributes, class_file, code_content, u2, u4

RETURN = b"\xb1"
BAD_OPCODE = b"\xca"
CALLS = (182, 183, 184, 185)
STATICS = (178, 179)
NEW = 187
SITES = CALLS + STATICS + (NEW,)
DYNAMIC = 186
# instructions that name a field or a type and are no sites
OTHERS = (180, 181, 189, 192, 193)
FIELDS = [b"I", b"J", b"Z", b"V", b"", b"L", b"L;", b"Lx", b"Lx;", b"Lx;;", b"Lx;y", b"II", b"[", b"[I", b"[V", b"[L;", b"[[[Lx;",
          b"[" * 255 + b"D", b"[" * 256 + b"D", b"[" * 255 + b"Lx;", b"[" * 256 + b"Lx;", b"[" * 65535, b"()V", b"(I)V", b"I)", b"LI;",
          b"L[;", b"L/;", b"La.b$;", b"L\xc3\xa9;", b"\xc3\xa9", b" I", b"I ", b"L" + b"a" * 65533 + b";", b"L" + b"a" * 65534]
DESCRIPTORS = [b"", b"I", b"(", b"()", b"V", b"()VV", b"(V)V", b"([V)V", b"(L;)V", b"(La)V", b"(La;)Lb;", b"()[I", b"([)V",
               b"(" + b"I" * 255 + b")V", b"(" + b"I" * 256 + b")V", b"(I" + b"J" * 127 + b")V", b"(" + b"D" * 128 + b")V",
               b"(" + b"[J" * 255 + b")V", b"(" + b"[" * 255 + b"I)V", b"(" + b"[" * 256 + b"I)V", b"()" + b"[" * 256 + b"J"]


class Kit:
    """A pool with an entry of every kind, and what is needed for a class with a method m."""

    def __init__(self):
        pool = self.pool = Pool()
        self.this = pool.named(b"p/A")
        self.name = pool.utf8(b"m")
        self.kind = pool.utf8(b"()V")
        self.code = pool.utf8(b"Code")
        self.note = pool.utf8(b"Note")
        self.bootstrap = pool.utf8(b"BootstrapMethods")
        owner = pool.named(b"[Lo/W;")
        pair = pool.pair(b"<go>", b"(IJ[La/b;)V")
        self.method = pool.entry(10, owner, pair)
        self.face = pool.entry(11, owner, pair)
        self.field = pool.entry(9, owner, pair)
        self.static = pool.entry(9, owner, pool.pair(b"<f>", b"[La/b;"))
        self.made = owner
        pool.raw(b"\x03abcd")
        pool.raw(b"\x04abcd")
        pool.raw(b"\x05abcdefgh", 1)
        pool.raw(b"\x06abcdefgh", 1)
        pool.entry(8, self.note)
        pool.raw(b"\x0f\x06" + u2(self.method))
        self.handles = [pool.raw(b"\x0f" + bytes([kind]) + u2(named)) for kind, named in self.called()]
        pool.entry(16, self.kind)
        pool.entry(17, 0, pair)
        self.dynamics = [pool.entry(18, row, pair) for row in (0, 1, 2, 3, 0xFFFF)]
        pool.entry(19, self.note)
        pool.entry(20, self.note)
        empty = pool.utf8(b"")
        nowhere = pool.class_entry(empty)
        self.int = pool.utf8(b"I")
        for tag, kind in ((9, self.int), (10, self.kind), (11, self.kind)):
            pool.entry(tag, nowhere, pool.entry(12, self.name, kind))
            pool.entry(tag, owner, pool.entry(12, empty, kind))
            pool.entry(tag, nowhere, pool.entry(12, empty, empty))
            pool.entry(tag, owner, pool.entry(12, self.name, empty))
            pool.entry(tag, owner, pool.entry(12, self.name, self.note))
            pool.entry(tag, self.this, pool.entry(12, self.name, kind))
            pool.entry(tag, self.this, pool.entry(12, self.name, self.int + self.kind - kind))

    def called(self):
        """The kinds of method handles, each with an entry that it may name."""
        named = {kind: self.static for kind in range(1, 5)}
        named.update({5: self.method, 6: self.method, 7: self.method, 8: self.method, 9: self.face})
        return [*named.items(), (6, self.face), (7, self.face)]

    def table(self, *rows):
        """A BootstrapMethods of rows, each a list of indexes."""
        return attribute(self.bootstrap, table_content(*rows))

    def linked(self, code, *rows, **how):
        """The class file of a method with a code, and of rows of BootstrapMethods."""
        return self.body(attribute(self.code, code_content(code, **how)), more=attributes(self.table(*rows)))

    def dynamic(self, row=0):
        """An `invokedynamic` of a row."""
        return b"\xba" + u2(self.dynamics[row]) + b"\0\0"

    def body(self, *rows, more=b"\0\0"):
        """The class file of a method with these attributes."""
        return class_file(self.pool, self.this, [(self.name, self.kind, attributes(*rows))], attributes=more)

    def with_fields(self, *fields, **how):
        """The class file of a method without a code and of fields."""
        return class_file(self.pool, self.this, [(self.name, self.kind, b"\0\0")], fields=fields, **how)

    def index(self, opcode):
        """An index that a site of this opcode may name."""
        if opcode in STATICS:
            return self.static
        return {185: self.face, NEW: self.made}.get(opcode, self.method)

    def coded(self, code, **how):
        """The class file of a method with a Code attribute."""
        return self.body(attribute(self.code, code_content(code, **how)))

    def everything(self):
        """Code of instructions of each length, of each site, and of switches at each padding."""
        called = u2(self.method)
        parts = [b"\x00\x10\x0a\x11\x0a\x0a\x12\x01\xa9\x05\x84\x01\xff\xc4\x15\x01\x02\xc4\x84\x01\x02\x03\x04",
                 b"\xb6" + called, b"\xb7" + called, b"\xb8" + called, b"\xb7" + u2(self.face), b"\xb8" + u2(self.face),
                 b"\xb9" + u2(self.face) + b"\x01\x00", b"\xbb" + u2(self.made), b"\xb2" + u2(self.static),
                 b"\xb3" + u2(self.static), b"\xb4\x00\x00", b"\xc5\0\0\2", b"\xc8\0\0\0\0", b"\xbc\x0a"]
        code = b"".join(parts)
        for number in range(4):
            for make in (lambda at: table(at, -1, 1), lambda at: lookup(at, 2)):
                code += b"\x00" * ((number - len(code)) % 4)
                code += make(len(code))
        return code + b"\xb6" + called + RETURN


def table_content(*rows):
    """The content of a BootstrapMethods of rows, each a list of indexes, of which the first is that of a handle."""
    return u2(len(rows)) + b"".join(u2(row[0]) + u2(len(row) - 1) + b"".join(map(u2, row[1:])) for row in rows)


def padding(at, fill=b"\0"):
    """The bytes between an opcode at `at` and the next place that is a multiple of 4."""
    return fill * (3 - at % 4)


def table(at, low, high, fill=b"\0", rows=None):
    """A tableswitch at `at` of a code; `rows` offsets where these aren't as many as the bounds say."""
    count = high - low + 1 if rows is None else rows
    return b"\xaa" + padding(at, fill) + u4(9) + struct.pack(">ii", low, high) + b"\xca\xcb\xcc\xcd" * count


def lookup(at, pairs, fill=b"\0", rows=None):
    """A lookupswitch at `at` of a code; `rows` pairs where these aren't as many as it says."""
    count = pairs if rows is None else rows
    return b"\xab" + padding(at, fill) + u4(9) + struct.pack(">i", pairs) + b"\xca\xcb\xcc\xcd\xce\xcf\xd0\xd1" * count


def opcode_edges(kit):
    """Every opcode before several numbers of bytes that are no opcode, and alone at the end of the code."""
    for opcode in range(256):
        yield kit.coded(bytes([opcode]))
        indexes = [b""]
        if opcode in SITES or opcode == DYNAMIC:
            indexes = [b"", u2(kit.method), u2(kit.face), u2(kit.static), u2(kit.this)]
        for index in indexes:
            for count in range(7):
                yield kit.coded(bytes([opcode]) + index + BAD_OPCODE * count + RETURN)
            yield kit.coded(bytes([opcode]) + index)
            yield kit.coded(b"\x00" + bytes([opcode]) + index + b"\x00\x00")


def wide_edges(kit):
    """Every opcode after a 196."""
    for opcode in range(256):
        for count in (0, 2, 4) if opcode not in (0x15, 0x19, 0x36, 0x3A, 0xA9, 0x84) else range(6):
            yield kit.coded(b"\xc4" + bytes([opcode]) + BAD_OPCODE * count + RETURN)
    for code in (b"\xc4", b"\xc4\x15", b"\xc4\x15\0", b"\xc4\x15\0\0", b"\xc4\x84", b"\xc4\x84\0\0\0", b"\xc4\x84\0\0\0\0",
                 b"\xc4\xc4\x15\0\0", b"\x10\xc4\x15\x01", b"\x10\xc4\xb1"):
        yield kit.coded(code)


def switch_edges(kit):
    """Switches at every padding, of good and bad bounds, cut at every length."""
    least, most = -0x80000000, 0x7FFFFFFF
    bounds = [(0, 0), (0, 1), (-1, 1), (1, 0), (0, -1), (-1, -1), (least, least), (most, most), (most, least),
              (least, least + 2), (most - 2, most), (-2, 3)]
    for at in range(8):
        front = b"\x00" * at
        for fill in (b"\0", b"\xff", BAD_OPCODE):
            yield kit.coded(front + table(at, -1, 2, fill) + RETURN)
            yield kit.coded(front + lookup(at, 3, fill) + RETURN)
        for low, high in bounds:
            yield kit.coded(front + table(at, low, high) + RETURN)
            yield kit.coded(front + table(at, low, high))
        for low, high in ((least, most), (0, most), (least, -1), (least, 0), (-1, most), (0, 0x40000000), (0, 0x3FFFFFFF)):
            yield kit.coded(front + table(at, low, high, rows=0))
            yield kit.coded(front + table(at, low, high, rows=1) + RETURN)
        for pairs in (-1, least, most, 0x20000000, 0x1FFFFFFF, 0x10000000, -0x20000000):
            yield kit.coded(front + lookup(at, pairs, rows=0))
            yield kit.coded(front + lookup(at, pairs, rows=1) + RETURN)
        for pairs in (0, 1, 2):
            yield kit.coded(front + lookup(at, pairs))
        for made in (table(at, 5, 6), lookup(at, 2), table(at, 6, 5), lookup(at, -1, rows=1)):
            for length in range(1, len(made)):
                yield kit.coded(front + made[:length])
        for rows in (1, 3):
            yield kit.coded(front + table(at, 5, 6, rows=rows))
            yield kit.coded(front + lookup(at, 2, rows=rows))
    for opcode in (0xAA, 0xAB):
        for at in range(4):
            yield kit.coded(b"\x00" * at + bytes([opcode]) + b"\x00" * 30)


def length_edges(kit):
    """Codes and contents cut at every length, with and without their sizes changed."""
    code = kit.everything()
    yield kit.coded(code)
    for length in range(1, len(code)):
        yield kit.coded(code[:length])
    for length in (0, 1, len(code) - 1, len(code) + 1, len(code) + 2, len(code) + 4, 65536, 0x80000000, 0xFFFFFFFF, 0x01000001):
        yield kit.coded(code, length=length)
        yield kit.coded(code, length=length, rows=b"x" * 8)
    yield kit.coded(b"")
    for length in (65534, 65535, 65536, 70000):
        yield kit.coded(b"\x00" * length)
        yield kit.coded(b"\x00" * (length - 3) + b"\xb6" + u2(kit.method))
        yield kit.coded(b"\x00" * (length - 2) + b"\xb6" + u2(kit.method))
    content = code_content(b"\xb8" + u2(kit.method) + RETURN, rows=b"r" * 16, inner=attributes(attribute(kit.note, b"xyz")))
    for length in range(len(content)):
        yield kit.body(attribute(kit.code, content[:length]))
        yield kit.body(attribute(kit.code, content, length=length))
    for more in (b"\0", b"\0\0", b"\0" * 8):
        yield kit.body(attribute(kit.code, content + more))
    for length in (len(content) + 1, len(content) + 2, len(content) + 3, 0xFFFFFFFF, 0x80000000):
        yield kit.body(attribute(kit.code, content, length=length))


def reference_edges(kit):
    """Each instruction of a site, and those that name what isn't looked at, with each index of the pool."""
    count = len(kit.pool.parts)
    for opcode in SITES + OTHERS[:3]:
        tail = b"\x01\x00" if opcode == 185 else b""
        for index in list(range(count + 3)) + [0xFFFF, 0x0100 + kit.method]:
            yield kit.coded(bytes([opcode]) + u2(index) + tail + RETURN)
    for tail in (b"\0\0", b"\xff\xff", b"\xca\xca"):
        yield kit.coded(b"\xb9" + u2(kit.face) + tail)
    good = [kit.handles[4]]
    for index in list(range(count + 3)) + [0xFFFF, 0x0100 + kit.dynamics[0]]:
        yield kit.linked(b"\xba" + u2(index) + b"\xca\xca" + RETURN, good, good)


def descriptor_edges():
    """References of other descriptors, owners and names, called and not called."""
    rows = [(b"o/W", b"go", descriptor) for descriptor in DESCRIPTORS]
    rows += [(b"", b"go", b"()V"), (b"o", b"", b"()V"), (b"", b"", b"x"), (b"o.W;[/(%", b"a.b;[/(%", b"(La.b[/(%;)V"),
             (b"\xc3\xa9\xc0\x80", b"\xed\xa0\x81\xed\xb0\x80", b"(L\xe2\x82\xac;)V"), (b"o" * 65535, b"n" * 65535, b"()V"),
             (b"[I", b"clone", b"()Ljava/lang/Object;"), (b"p/A", b"m", b"()V")]
    for owner, name, descriptor in rows:
        for opcode in CALLS:
            kit = Kit()
            called = kit.pool.called(owner, name, descriptor, 11 if opcode == 185 else 10)
            code = bytes([opcode]) + u2(called) + (b"\1\0" if opcode == 185 else b"")
            yield kit.coded(code + RETURN)
            if opcode == 182:
                yield kit.coded(RETURN)
                yield kit.coded(b"\xb8" + u2(kit.method) + RETURN + code + code)
    yield from field_reference_edges()


def field_reference_edges():
    """References of fields of other descriptors, owners and names, types of other names, used and not used."""
    rows = [(b"o/W", b"go", descriptor) for descriptor in FIELDS + DESCRIPTORS]
    rows += [(b"", b"f", b"I"), (b"o", b"", b"I"), (b"", b"", b"x"), (b"o.W;[/(%", b"a.b;[/(%", b"La.b[/(%;"),
             (b"\xc3\xa9\xc0\x80", b"\xed\xa0\x81\xed\xb0\x80", b"L\xe2\x82\xac;"), (b"o" * 65535, b"n" * 65535, b"I"),
             (b"[I", b"length", b"I"), (b"p/A", b"m", b"I"), (b"[[La/b;", b"<init>", b"[[J")]
    for owner, name, descriptor in rows:
        kit = Kit()
        named = kit.pool.called(owner, name, descriptor, 9)
        for opcode in STATICS + OTHERS[:2]:
            yield kit.coded(bytes([opcode]) + u2(named) + RETURN)
        yield kit.coded(b"\xb2" + u2(kit.static) + RETURN + b"\xb3" + u2(named) + b"\xb3" + u2(named))
        method = kit.pool.entry(10, kit.this, named - 1)
        yield kit.coded(b"\xb2" + u2(named) + b"\xb8" + u2(method))
        yield kit.coded(b"\xb8" + u2(method) + b"\xb2" + u2(named))
    for name in sorted({owner for owner, _, _ in rows} | {b"/", b"a//b", b"[", b"[[Z", b"x" * 300}):
        kit = Kit()
        made = u2(kit.pool.named(name))
        for code in (b"\xbb" + made, b"\xbd" + made, b"\xbb" + u2(kit.this) + b"\xbb" + made + RETURN):
            yield kit.coded(code)


def attribute_edges(kit):
    """Attributes named Code and BootstrapMethods at each level, two of them, and inner attributes."""
    good = attribute(kit.code, code_content(b"\xb8" + u2(kit.method) + RETURN))
    empty = attribute(kit.code, b"")
    note = attribute(kit.note, b"abc")
    boot = attribute(kit.bootstrap, b"\0\0")
    for rows in ((good, good), (good, note, good), (note, good), (note, good, note), (good, empty), (empty,), (empty, good),
                 (boot,), (good, boot), (boot, good), (good, boot[:2] + u4(9)), (good, good[:2] + u4(0xFFFFFFFF)),
                 (good,) * 3, (note,) * 300 + (good,)):
        yield kit.body(*rows)
    for rows in ((good,), (empty,), (good, good), (boot,), (note, boot), (attribute(kit.code, b"garbage"),), (note, empty, note)):
        yield kit.body(good, more=attributes(*rows))
        yield kit.body(more=attributes(*rows))
        yield kit.coded(RETURN, inner=attributes(*rows))
        yield kit.coded(b"\xb8" + u2(kit.method), inner=attributes(*rows), rows=b"12345678")
    nested = attributes(attribute(kit.code, code_content(b"\xb8" + u2(kit.method), inner=attributes(boot))))
    yield kit.coded(RETURN, inner=nested)
    for index in list(range(len(kit.pool.parts) + 2)) + [0xFFFF]:
        yield kit.coded(RETURN, inner=attributes(attribute(index, b"")))
        yield kit.coded(RETURN, inner=attributes(note, attribute(index, b"xy")))
    for count, row in ((1, note), (2, note + note), (2, note), (3, note + note), (0, note), (0xFFFF, note)):
        yield kit.coded(RETURN, inner=u2(count) + row)
    for length in (2, 3, 4, 5, 9, 15, 1000, 0x80000000, 0xFFFFFFFD, 0xFFFFFFFF, 0x01000003):
        inner = attributes(attribute(kit.note, b"abc", length))
        yield kit.coded(RETURN, inner=inner)
        yield kit.body(attribute(kit.code, code_content(RETURN, inner=inner)), note, note)
        after = attributes(attribute(kit.note, b"y" * 1000))
        yield kit.body(attribute(kit.code, code_content(RETURN, inner=inner)), more=after)
    for count in (0, 1, 2, 255, 256, 8000, 65535):
        yield kit.coded(RETURN, rows=b"\xff" * 8 * count)
    plain_rows = code_content(RETURN)[:-4]
    for count, size in ((1, 0), (1, 2), (1, 7), (1, 8), (1, 9), (2, 10), (65535, 80)):
        yield kit.body(attribute(kit.code, plain_rows + u2(count) + bytes(size)))
        yield kit.body(attribute(kit.code, plain_rows + u2(count) + bytes(size + 2)))


def linked_edges(kit):
    """Rows of BootstrapMethods with each index of the pool, and what uses them."""
    count = len(kit.pool.parts)
    good, site = kit.handles[4], kit.dynamic()
    for index in list(range(count + 3)) + [0xFFFF]:
        for row in ([index], [good, index], [good, index, good], [index, good]):
            yield kit.linked(site, row)
        yield kit.linked(kit.dynamic(1), [index], [good])
    for rows in ([], [[good]], [[good], [good, good]], [[good]] * 3, [[0]] * 3, [[good], [0], [good, 0]]):
        for number in range(5):
            yield kit.linked(b"\0" + kit.dynamic(number), *rows)
            yield kit.linked(kit.dynamic(number) + b"\xb8" + u2(kit.method) + kit.dynamic(0) + RETURN, *rows)
            yield kit.linked(kit.dynamic(number), *rows) + b"\0"
        yield kit.coded(kit.dynamic(0)) + b"\0"
    yield kit.linked(b"".join(kit.dynamic(number % 4) + kit.everything()[-4:-1] for number in range(40)),
                     [good], kit.handles, kit.handles[:4], kit.handles[::-1])
    yield from broken_handle_edges()
    yield from table_edges(kit)


def broken_handle_edges():
    """Handles of each kind with another owner, name or descriptor, used and not used, alone and before other faults."""
    rows = [(b"o/W", b"go", descriptor) for descriptor in DESCRIPTORS + FIELDS[:6]]
    rows += [(b"", b"go", b"()V"), (b"o", b"", b"()V"), (b"", b"", b"x"), (b"o.W;[/(%", b"a.b;[/(%", b"(La.b[/(%;)V"),
             (b"[I", b"clone", b"()Ljava/lang/Object;")]
    for owner, name, descriptor in rows:
        kit = Kit()
        good = kit.handles[5]
        for kind in range(1, 10):
            tag = 9 if kind < 5 else 11 if kind == 9 else 10
            handle = kit.pool.raw(b"\x0f" + bytes([kind]) + u2(kit.pool.called(owner, name, descriptor, tag)))
            yield kit.linked(kit.dynamic(), [handle])
            yield kit.linked(b"\0" + kit.dynamic(), [good, handle, 0])
            yield kit.linked(b"\0" + kit.dynamic(), [good, 0, handle])
            yield kit.linked(kit.dynamic(), [good], [handle, 0])


def table_edges(kit):
    """BootstrapMethods cut at each length and with other counts, more than one of it, and at other places."""
    content = table_content([kit.handles[4], kit.kind, kit.handles[6]], [kit.handles[5]], [0, 0])
    code = attribute(kit.code, code_content(kit.dynamic(0) + kit.dynamic(1) + RETURN))
    note = attribute(kit.note, b"abc")
    good = attribute(kit.bootstrap, content)
    for length in range(len(content) + 3):
        for after in ((), (note,)):
            yield kit.body(code, more=attributes(attribute(kit.bootstrap, content[:length] + bytes(length - len(content[:length]))), *after))
            yield kit.body(code, more=attributes(attribute(kit.bootstrap, content, length), *after))
    for length in (0x80000000, 0xFFFFFFFF, 0x01000000 + len(content)):
        yield kit.body(code, more=attributes(attribute(kit.bootstrap, content, length)))
    for place in (0, 2, 4, 6, 10, 12):
        for number in (0, 1, 2, 3, 4, 0x0100, 0xFFFF):
            changed = content[:place] + u2(number) + content[place + 2:]
            yield kit.body(code, more=attributes(attribute(kit.bootstrap, changed)))
    bad = attribute(kit.bootstrap, b"")
    for rows in ((good, good), (good, note, good), (note, good), (good, note), (bad,), (bad, good), (good, bad), (good, good[:2]),
                 (good, good[:5]), (good, bad[:2] + u4(9)), (note, good, note), (code, good), (good,) * 3):
        yield kit.body(code, more=attributes(*rows))
        yield kit.body(more=attributes(*rows))
        yield kit.body(code, more=attributes(*rows)) + b"\0"
        yield kit.body(code, *rows, more=attributes(good))
        yield kit.body(attribute(kit.code, code_content(kit.dynamic(), inner=attributes(*rows))), more=attributes(good))
        yield kit.with_fields((kit.name, kit.int, attributes(*rows)), attributes=attributes(good))
    whole = kit.body(code, more=attributes(note, good))
    for length in range(len(whole) - len(good) - 20, len(whole)):
        yield whole[:length]


def class_edges(kit):
    """Several methods and their places, and codes on methods of all flags."""
    pool = kit.pool
    names = [pool.utf8(text) for text in (b"a", b"<init>", b"\xc3\xa9.", b"<clinit>", b"zz")]
    code = attributes(attribute(kit.code, code_content(kit.everything())))
    short = attributes(attribute(kit.code, code_content(b"\0\xb8" + u2(kit.method) + b"\xb6" + u2(kit.method))))
    methods = [(names[0], kit.kind, code), (names[1], kit.kind, b"\0\0"), (names[2], kit.kind, short), (names[3], kit.kind, short)]
    yield class_file(pool, kit.this, methods)
    yield class_file(pool, kit.this, methods[::-1])
    yield class_file(pool, kit.this, methods + [(names[4], kit.kind, attributes(attribute(kit.code, code_content(b"\xba"))))])
    yield class_file(pool, kit.this, methods + methods[:1])
    good = class_file(pool, kit.this, methods)
    for flags in (b"\x04\x01", b"\x01\x00", b"\x05\x00", b"\xff\xff"):
        yield good.replace(b"\0\x01" + u2(names[0]) + u2(kit.kind), flags + u2(names[0]) + u2(kit.kind), 1)
    for flags in (b"\x00\x20", b"\x80\x00"):
        yield good.replace(b"\x06\x01" + u2(kit.this), flags + u2(kit.this), 1)
    for opcode in STATICS + (DYNAMIC, NEW):
        for place in (0, 1, 5):
            body = b"\x00" * place + bytes([opcode]) + u2(kit.index(opcode)) + b"\0\0" + RETURN
            yield kit.coded(body)
        yield kit.coded(b"\x10" + bytes([opcode]) + RETURN)
        yield kit.coded(b"\x11" + bytes([opcode]) * 2 + RETURN)
        yield kit.coded(table(0, 0, 0)[:-4] + bytes([opcode]) * 4 + RETURN)


def field_edges():
    """Fields of each name, descriptor, index and attribute."""
    for descriptor in FIELDS + DESCRIPTORS:
        kit = Kit()
        kind = kit.pool.utf8(descriptor)
        yield kit.with_fields((kit.name, kind, b"\0\0"))
        yield kit.with_fields((kit.name, kit.int, b"\0\0"), (kit.name, kind, b"\0\0"))
    for name in (b"", b"a.b;[/", b"<init>", b"\xc0\x80", b"Code", b"BootstrapMethods", b"n" * 65535):
        kit = Kit()
        yield kit.with_fields((kit.pool.utf8(name), kit.int, b"\0\0"))
    kit = Kit()
    good = (kit.name, kit.int, b"\0\0")
    for count in (0, 1, 2, 255, 256, 300, 65535):
        yield kit.with_fields(*[good] * count)
    for index in list(range(len(kit.pool.parts) + 3)) + [0xFFFF, 0x0100 + kit.name]:
        yield kit.with_fields(good, (index, kit.int, b"\0\0"))
        yield kit.with_fields(good, (kit.name, index, b"\0\0"))
        yield kit.with_fields(good, (index, index, b"\0\0"))
        yield kit.with_fields((kit.name, kit.int, attributes(attribute(index, b"ab"))), good)
    yield from field_attribute_edges(kit)


def field_attribute_edges(kit):
    """Attributes of fields, and fields that are cut or have another count."""
    note, empty = attribute(kit.note, b"abc"), attribute(kit.code, b"")
    code = attribute(kit.code, code_content(b"\xb8" + u2(kit.method)))
    boot = attribute(kit.bootstrap, b"\0\0")
    good = (kit.name, kit.int, b"\0\0")
    for rows in ((note,), (note, note), (empty,), (code,), (code, code), (code, empty, note), (boot,), (note, boot), (boot, note),
                 (code, boot), (boot[:2] + u4(9),), (note,) * 300, (note,) * 300 + (boot,)):
        field = (kit.name, kit.int, attributes(*rows))
        yield kit.with_fields(field)
        yield kit.with_fields(good, field, good)
        yield kit.with_fields(field, flags=FLAGS | MODULE)
    for length in (0, 1, 2, 4, 5, 9, 1000, 0x80000000, 0xFFFFFFFF, 0x01000003):
        yield kit.with_fields((kit.name, kit.int, attributes(attribute(kit.note, b"abc", length))), good)
    for count in (0, 2, 3, 0x0100, 0xFFFF):
        yield kit.with_fields((kit.name, kit.int, u2(count) + note), good)
    whole = kit.with_fields((kit.name, kit.int, attributes(note, code)), good)
    front = len(kit.with_fields()) - 20
    for length in range(front, len(whole)):
        yield whole[:length]
    start = whole.index(u2(2) + b"\0\1" + u2(kit.name) + u2(kit.int), front - 20)
    for count in (0, 1, 3, 0x0102, 0x0200, 0xFFFF):
        yield whole[:start] + u2(count) + whole[start + 2:]


def module_edges():
    """Modules, good and with a fault in each part."""
    kit = Kit()
    good = kit.coded(kit.everything())
    for body in (good, kit.with_fields((kit.name, kit.int, b"\0\0")), kit.body()):
        for flags in (0x8000, 0x8001, 0xFFFF, 0x7FFF, 0x0080, 0x4000):
            yield body.replace(u2(FLAGS) + u2(kit.this), u2(flags) + u2(kit.this), 1)
    yield as_module(good) + b"\0"
    yield as_module(good)[:-1]
    for make in (field_edges, field_reference_edges):
        for number, body in enumerate(make()):
            if number % 4 == 0 and len(body) < 5000:
                yield as_module(body)
    for make in (attribute_edges, class_edges, switch_edges, linked_edges):
        for number, body in enumerate(make(Kit())):
            if number % 5 == 0 and len(body) < 5000:
                yield as_module(body)


def edges():
    """The class files of all edges."""
    kit = Kit()
    for make in (opcode_edges, wide_edges, switch_edges, length_edges, reference_edges, attribute_edges):
        yield from make(kit)
    yield from class_edges(Kit())
    yield from linked_edges(Kit())
    yield from descriptor_edges()
    yield from field_edges()
    yield from module_edges()


LENGTHS = [1] * 6 + [2] * 2 + [3] * 3
BY_LENGTH = {1: (0, 4, 42, 87, 172, 177, 190), 2: (16, 18, 21, 58, 188), 3: (17, 19, 132, 153, 167, 180, 189, 192)}


def fixed(chance):
    """A random instruction of a fixed length that is no site."""
    length = chance.choice(LENGTHS)
    opcode = chance.choice(BY_LENGTH[length])
    # javap prints no newarray of an unknown kind
    rest = [10] if opcode == 188 else [chance.randrange(256) for _ in range(length - 1)]
    return bytes([opcode]) + bytes(rest)


def random_code(kit, chance):
    """Random instructions, most of them good, some of them sites."""
    code = b""
    for _ in range(chance.randrange(1, 30)):
        what = chance.random()
        if what < 0.45:
            code += fixed(chance)
        elif what < 0.8:
            opcode = chance.choice(SITES)
            index = kit.face if opcode in (183, 184) and chance.random() < 0.3 else kit.index(opcode)
            code += bytes([opcode]) + u2(index) + (b"\x01\x00" if opcode == 185 else b"")
        elif what < 0.86:
            low = chance.randrange(-3, 3)
            code += table(len(code), low, low + chance.randrange(4))
        elif what < 0.92:
            code += lookup(len(code), chance.randrange(4))
        elif what < 0.97:
            code += kit.dynamic(chance.choice((0, 0, 0, 1, 1, 2)) if chance.random() < 0.98 else chance.randrange(5))
        elif what < 0.98:
            code += chance.choice((b"\xc4\x15ab", b"\xc4\x84abcd", b"\xc4\xa9ab"))
        else:
            code += chance.choice((b"\xc8abcd", b"\xc5abc", b"\xc9abcd"))
        if chance.random() < 0.004:
            code += bytes([chance.randrange(256)])
    return code


def some_fields(kit, chance):
    """A few random fields, most of them good."""
    fields = []
    for number in range(chance.choice((0, 0, 1, 2, 3))):
        rows = [attribute(chance.choice((kit.note, kit.code)), bytes(chance.randrange(4))) for _ in range(chance.choice((0, 0, 1)))]
        kind = chance.choice((b"I", b"[J", b"La/b;", b"[[La/b;")) if chance.random() < 0.99 else chance.choice(FIELDS)
        fields.append((kit.pool.utf8(b"f%d" % number), kit.pool.utf8(kind), attributes(*rows)))
    return fields


def some_rows(kit, chance):
    """The rows of a BootstrapMethods, most of them good."""
    rows = []
    for _ in range(chance.choice((3, 3, 3, 3, 4, 6)) if chance.random() < 0.95 else chance.randrange(4)):
        some = [kit.kind, kit.made, kit.note, *kit.handles, *kit.handles]
        row = [chance.choice(kit.handles)] + [chance.choice(some) for _ in range(chance.choice((0, 0, 1, 2, 3, 5)))]
        if chance.random() < 0.02:
            row[chance.randrange(len(row))] = chance.randrange(len(kit.pool.parts) + 2)
        rows.append(row)
    return rows


def some_attributes(kit, chance):
    """The attributes of a class, BootstrapMethods most often among them."""
    rows = [attribute(kit.note, bytes(chance.randrange(4))) for _ in range(chance.choice((0, 0, 1)))]
    for _ in range(1 if chance.random() < 0.96 else chance.choice((0, 2))):
        rows.insert(chance.randrange(len(rows) + 1), kit.table(*some_rows(kit, chance)))
    return attributes(*rows)


def nearly(chance, flags=FLAGS):
    """A random class file with fields and bodies that often has no fault, and else often only one."""
    kit = Kit()
    methods = []
    for number in range(chance.randrange(1, 4)):
        rows = [attribute(kit.note, bytes(chance.randrange(4))) for _ in range(chance.choice((0, 0, 1)))]
        if chance.random() < 0.85:
            inner = [attribute(chance.choice((kit.note, kit.code)), b"ab") for _ in range(chance.choice((0, 0, 1, 2)))]
            content = code_content(random_code(kit, chance), bytes(8 * chance.choice((0, 0, 1, 3))), attributes(*inner))
            if chance.random() < 0.03:
                content = content[:chance.randrange(len(content))]
            rows.insert(chance.randrange(len(rows) + 1), attribute(kit.code, content))
        methods.append((kit.pool.utf8(b"m%d" % number), kit.kind, attributes(*rows)))
    more = some_attributes(kit, chance)
    return class_file(kit.pool, kit.this, methods, attributes=more, fields=some_fields(kit, chance), flags=flags)


def dense():
    """A class file with a bit of everything in its code and with fields, for mutations."""
    kit = Kit()
    code = kit.dynamic(1) + b"\0" + kit.dynamic(0) + b"\0\0\0\0\0"
    content = code_content(code + kit.everything(), b"12345678", attributes(attribute(kit.note, b"in")))
    rows = attributes(attribute(kit.note, b""), attribute(kit.code, content))
    fields = [(kit.name, kit.int, b"\0\0"), (kit.note, kit.pool.utf8(b"[La/b;"), attributes(attribute(kit.note, b"in")))]
    linked = kit.table([kit.handles[4], kit.kind, kit.handles[8]], [kit.handles[0], kit.handles[9]], [kit.handles[5], 0])
    more = attributes(attribute(kit.note, b"x"), linked)
    return class_file(kit.pool, kit.this, [(kit.name, kit.kind, rows)], attributes=more, fields=fields)
